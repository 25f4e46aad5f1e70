# Runs of `drain header`. Read by part.sh.

# Headers as tools write them, each with what is printed of it.
for file in samples/headers/*.hdr; do
    name=$(basename "$file")
    cp "${file%.hdr}.expected" "$scratch/want"
    case $(head -c 7 "$scratch/want") in refused) status=2 ;; *) status=0 ;; esac
    "$drain" header "$file" </dev/null >"$scratch/out" 2>"$scratch/err"
    judge "the header $name" $status "$scratch/want" $?
    # What is printed is a header, and prints the same again.
    [ $status = 0 ] || continue
    cp "$scratch/want" "$scratch/again.hdr"
    "$drain" header "$scratch/again.hdr" </dev/null >"$scratch/out" 2>"$scratch/err"
    judge "the header $name as it is printed" 0 "$scratch/want" $?
done

# Files that can't be opened or read.
want "failed Open $scratch/none.hdr"
"$drain" header "$scratch/none.hdr" >"$scratch/out" 2>"$scratch/err"
judge 'a header file that is not there' 3 "$scratch/want" $?
want 'failed ReadFailed'
"$drain" header "$scratch" >"$scratch/out" 2>"$scratch/err"
judge 'a folder as header file' 3 "$scratch/want" $?

# The longest header, and a byte more, from a pipe that stays open: it waits for no byte after that.
head -c 65536 /dev/zero | tr '\0' '\n' >"$scratch/longest.hdr"
want 'refused MissingKey NROWS'
"$drain" header "$scratch/longest.hdr" >"$scratch/out" 2>"$scratch/err"
judge 'a header of 65536 line feeds' 2 "$scratch/want" $?
mkfifo "$scratch/open.hdr"
exec 3<>"$scratch/open.hdr"
{ cat "$scratch/longest.hdr"; echo; } >&3 &
want 'refused TooLong'
timeout "$patience" "$drain" header "$scratch/open.hdr" >"$scratch/out" 2>"$scratch/err"
judge 'a longer header in an open pipe' 2 "$scratch/want" $?
wait $!
exec 3<&-

# Outputs that can't be written: status 3, whatever was to be printed.
: >"$scratch/want"
: >"$scratch/out"
for file in samples/headers/gdal-hgt-i16.hdr samples/headers/gdal-nbits1.hdr "$scratch/none.hdr"; do
    name=$(basename "$file")
    # Where the file isn't there, standard error has the reason all the same.
    [ -e "$file" ] && errors=silent || errors=reason
    "$drain" header "$file" >/dev/full 2>"$scratch/err"
    judge "a full standard output: $name" 3 "$scratch/want" $? $errors
    "$drain" header "$file" >&- 2>"$scratch/err"
    judge "a closed standard output: $name" 3 "$scratch/want" $? $errors
done
