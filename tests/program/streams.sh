# Standard streams that a file can't stand for. Read by part.sh.

pit=samples/pit-3.fill
pit_line='accepted rows=3 cols=3 data=9 raised=1'

# An input that stays open: it is answered as soon as the bytes that it needs are there.
mkfifo "$scratch/pipe"
exec 3<>"$scratch/pipe"
{ cat "$pit"; printf 'x'; } >&3
want 'refused BadLength'
timeout "$patience" "$drain" fill --side 3 <&3 >"$scratch/out" 2>"$scratch/err"
judge 'an open pipe with a byte too many' 2 "$scratch/want" $?

want 'refused BadSide'
timeout "$patience" "$drain" fill --side 1 <&3 >"$scratch/out" 2>"$scratch/err"
judge 'an open pipe without a byte, side out of range' 2 "$scratch/want" $?
exec 3<&-

# An input that comes a byte at a time.
want "$pit_line"
dd if="$pit" bs=1 status=none | timeout "$patience" "$drain" fill --side 3 >"$scratch/out" 2>"$scratch/err"
judge 'an input that comes in single bytes' 0 "$scratch/want" $?

# Nothing is read from the descriptor after the one byte more.
printf '36\n' >"$scratch/want"
{ head -c 36 /dev/zero; cat "$pit"; } >"$scratch/long"
{ "$drain" fill --side 2 >/dev/null; cat | wc -c; } <"$scratch/long" >"$scratch/rest" 2>"$scratch/err"
printf '%s\n' "$((36 + 81 - $(cat "$scratch/rest") - 1))" >"$scratch/out"
judge 'what is read of a longer input' 0 "$scratch/want" 0

# Inputs that can't be read.
want 'failed ReadFailed'
"$drain" fill --side 3 <&- >"$scratch/out" 2>"$scratch/err"
judge 'a closed standard input' 3 "$scratch/want" $?
"$drain" fill --side 3 </ >"$scratch/out" 2>"$scratch/err"
judge 'a folder as standard input' 3 "$scratch/want" $?

# Outputs that can't be written: status 3, whatever the line was.
: >"$scratch/want"
: >"$scratch/out"
for words in 'fill --side 3' 'fill --side 4' '--help' 'fill --help' '--version'; do
    "$drain" $words <"$pit" >/dev/full 2>"$scratch/err"
    judge "a full standard output: $words" 3 "$scratch/want" $?
    "$drain" $words <"$pit" >&- 2>"$scratch/err"
    judge "a closed standard output: $words" 3 "$scratch/want" $?
done
"$drain" fill --side 3 </ >/dev/full 2>"$scratch/err"
judge 'a full standard output after a failed read' 3 "$scratch/want" $?

# Of commands that write files too: on a closed standard output they begin none.
on_valley=(--dem samples/valley/dem.bil --sinks samples/valley/sinks.txt --products samples/valley/right)
valley_line='accepted rows=40 cols=56 data=2189 raised=70 outlets=3'
valley_box=(--at 0,0 --box 0,0,40,56)
judge_words 'a window of the valley' 0 "$valley_line" window "${on_valley[@]}" "${valley_box[@]}" --report "$scratch/valley.txt"
mkdir "$scratch/closed"
while read -r name words; do
    read -r -a words <<<"$words"
    : >"$scratch/want"
    : >"$scratch/out"
    timeout "$patience" "$drain" "${words[@]}" </dev/null >&- 2>"$scratch/err"
    judge "a closed standard output: $name" 3 "$scratch/want" $?
    ls -A "$scratch/closed" >"$scratch/out" 2>"$scratch/err"
    judge "files over a closed standard output: $name" 0 "$scratch/want" 0
    : >"$scratch/out"
    timeout "$patience" "$drain" "${words[@]}" </dev/null >/dev/full 2>"$scratch/err"
    judge "a full standard output: $name" 3 "$scratch/want" $?
    grep -r 'rows=' "$scratch/closed" >"$scratch/out" 2>"$scratch/err"
    judge "lines in files over a full standard output: $name" 0 "$scratch/want" 0
    rm -rf "$scratch/closed" && mkdir "$scratch/closed"
done <<EOF
window window ${on_valley[*]} ${valley_box[*]} --report $scratch/closed/report.txt
merge merge $scratch/valley.txt
merge-report merge --report $scratch/closed/report.txt $scratch/valley.txt
make make ${on_valley[*]:0:4} --out $scratch/closed
derive derive ${on_valley[*]} --out $scratch/closed
map explain ${on_valley[*]} --map $scratch/closed/faults.bil
EOF

mkfifo "$scratch/broken"
{ sleep 0.3; "$drain" fill --side 3 <"$pit" 2>"$scratch/err"; echo $? >"$scratch/status"; } >"$scratch/broken" &
: <"$scratch/broken"
wait $!
judge 'a pipe that nobody reads' 3 "$scratch/want" "$(cat "$scratch/status")"

# A small stack: enough for the program, and a check crashes on it where the buffer of a read has 64 KiB.
want "$pit_line"
(ulimit -s 100 && exec env -i "$drain" fill --side 3) <"$pit" >"$scratch/out" 2>"$scratch/err"
judge 'a stack of 100 KiB: fill' 0 "$scratch/want" $?
want 'accepted rows=121 cols=121 data=14641 raised=690 outlets=32'
(ulimit -s 100 && exec env -i "$drain" check --side 121 --products samples/jacksboro samples/jacksboro/N36W085.hgt) >"$scratch/out" 2>"$scratch/err"
judge 'a stack of 100 KiB: check' 0 "$scratch/want" $?
(ulimit -s 100 && exec env -i "$drain" audit --side 121 --products samples/jacksboro samples/jacksboro/N36W085.hgt) >"$scratch/out" 2>"$scratch/err"
judge 'a stack of 100 KiB: audit' 0 "$scratch/want" $?
for list in con,dir con; do
    [ "$list" = con ] && want 'accepted rows=121 cols=121 data=14641 raised=690'
    (ulimit -s 100 && exec env -i "$drain" audit --only "$list" --side 121 --products samples/jacksboro samples/jacksboro/N36W085.hgt) >"$scratch/out" 2>"$scratch/err"
    judge "a stack of 100 KiB: audit --only $list" 0 "$scratch/want" $?
done
cp -r samples/jacksboro "$scratch/jacksboro"
printf '\252' | dd of="$scratch/jacksboro/acc.bil" bs=1 seek=40000 conv=notrunc status=none
for form in '' --json; do
    words="explain --side 121 --products $scratch/jacksboro --map $scratch/faults.bil $form samples/jacksboro/N36W085.hgt"
    "$drain" $words >"$scratch/want" 2>"$scratch/err"
    (ulimit -s 100 && exec env -i "$drain" $words) >"$scratch/out" 2>"$scratch/err"
    judge "a stack of 100 KiB: explain $form" 1 "$scratch/want" $?
done
mkdir "$scratch/small"
want 'made rows=344 cols=344'
(ulimit -s 100 && exec env -i "$drain" make --side 344 --out "$scratch/small" samples/N36W085.hgt) >"$scratch/out" 2>"$scratch/err"
judge 'a stack of 100 KiB: make' 0 "$scratch/want" $?
want 'derived rows=344 cols=344'
(ulimit -s 100 && exec env -i "$drain" derive --side 344 --products "$scratch/small" --out "$scratch/small" samples/N36W085.hgt) >"$scratch/out" 2>"$scratch/err"
judge 'a stack of 100 KiB: derive' 0 "$scratch/want" $?
(ulimit -s 100 && exec env -i "$drain" header samples/headers/gdal-hgt-i16.hdr) >"$scratch/out" 2>"$scratch/err"
judge 'a stack of 100 KiB: header' 0 samples/headers/gdal-hgt-i16.expected $?

# Interrupted writes to standard output, where a system call tracer can make them: 999 are borne, the 1,000th is a failure.
# Usage: judge_interrupted NAME STATUS COUNT WORD...
judge_interrupted() {
    local name=$1 status=$2 count=$3
    shift 3
    strace -qq -o "$scratch/calls" -e trace=write -e inject=write:error=EINTR:when=1.."$count" "$drain" "$@" <"$pit" >"$scratch/out" 2>"$scratch/err"
    judge "$name, interrupted $count times" "$status" "$scratch/want" $?
}
if strace -qq -o /dev/null true 2>/dev/null; then
    cp "$here/expected/version.txt" "$scratch/want" && judge_interrupted 'the version' 0 999 --version
    cp "$here/expected/help.txt" "$scratch/want" && judge_interrupted 'help' 0 999 --help
    want "$pit_line" && judge_interrupted 'a line' 0 999 fill --side 3
    want 'made rows=344 cols=344' && judge_interrupted 'a maker' 0 1 make --side 344 --out "$scratch/small" samples/N36W085.hgt
    want - && judge_interrupted 'the version' 3 1000 --version
    judge_interrupted 'a maker' 3 1000 make --side 344 --out "$scratch/small" samples/N36W085.hgt
else
    echo "interrupted writes of the program aren't tried: there is no strace"
fi

# The version names the logic of the toolchain that is here.
want -
tools/same_logic.sh "$drain" >"$scratch/out" 2>"$scratch/err"
judge 'the logic that the version names' 0 "$scratch/want" $?

# No memory for the input; and memory for what comes, though not for all that might come.
want 'failed OutOfMemory'
(ulimit -v 40000 && exec "$drain" fill --side 3601) </dev/zero >"$scratch/out" 2>"$scratch/err"
judge 'no memory for the input' 3 "$scratch/want" $?
want 'refused BadLength'
(ulimit -v 40000 && exec "$drain" fill --side 3601) <"$pit" >"$scratch/out" 2>"$scratch/err"
judge 'memory for a short input' 2 "$scratch/want" $?

# Words that are empty, as an unset variable of a shell gives them.
want -
mkdir "$scratch/root"
for words in 'check --side 3 --products' 'check --side 3 --products=' 'check --products a' 'make --side 3 --out' 'make --out a' 'header' \
    'check --products a --sinks' 'make --out a --sinks' 'audit --products a --only' 'derive --products a --out' 'derive --out a --products' \
    'derive --products a --out a'; do
    (cd "$scratch/root" && "$drain" $words '' >"$scratch/out" 2>"$scratch/err")
    judge "an empty word: $words" 2 "$scratch/want" $? words
done
ls -A "$scratch/root" >"$scratch/out" && : >"$scratch/err"
judge 'nothing is written for an empty word' 0 "$scratch/want" 0

# A word that is no text.
want -
"$drain" fill --side $'\xff' <"$pit" >"$scratch/out" 2>"$scratch/err"
judge 'a word that is not UTF-8' 2 "$scratch/want" $? words
