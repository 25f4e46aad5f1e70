# What several parts of the program's runs use: functions, names and inputs. Read by part.sh before the part.

# Products that make_products.py makes of real terrain: of the bundled tile of side 121, and of all that it was cut from.
maker=$here/make_products.py
terrain=$scratch/terrain
make_terrain() { "$maker" 121 samples/jacksboro/N36W085.hgt "$terrain"; }
make_wide() { "$maker" 344 samples/N36W085.hgt "$scratch/wide"; }

# One number changed: the rule that is to fail first, the file, its bytes a number, the cell, and the bytes put there.
changes='
1  N36W085.hgt 2   0   0 \x80\x00
2  dir.bil     1  55  84 \xff
2  acc.bil     4  55  84 \x00\x00\x00\x00
2  bas.bil     4  94  63 \x00\x00\x00\x00
2  rnk.bil     4  94  63 \xff\xff\xff\xff
3  dir.bil     1  55  84 \x03
4  con.bil     2  94  63 \x79\x02
5  con.bil     2   0  73 \x1c\x02
9  con.bil     2  94  63 \x7b\x02
9  con.bil     2  74  89 \x43\x01
10 con.bil     2  55  84 \x47\x01
10 dir.bil     1  55  84 \x00
11 dir.bil     1   0  80 \x01
11 con.bil     2   0 116 \xce\x01
12 dir.bil     1  62  93 \x00
12 dir.bil     1  62  93 \x08
12 rnk.bil     4  62  93 \x00\x00\x00\x00
13 acc.bil     4  94  63 \x05\x00\x00\x00
13 dir.bil     1  94  63 \x00
14 bas.bil     4  94  63 \x11\x00\x00\x00
15 bas.bil     4   0  98 \x01\x00\x00\x00
'

# A pit of height 1 in a border of height 5, conditioned to 5, with a check of it; and changes of its files.
check=$scratch/check
tile=$check/N00E000.hgt
pit_checked='accepted rows=3 cols=3 data=9 raised=1 outlets=8'

# The bytes of these numbers below 256, each in this many bytes, the least first.
numbers() {
    local width=$1 number
    shift
    for number; do
        printf "\\x$(printf %02x "$number")"
        head -c $((width - 1)) /dev/zero
    done
}

# A header of the tile with this many bits, the line of its pixel type if one is needed, and these places.
header_of() {
    printf 'BYTEORDER I\nNROWS 3\nNCOLS 3\nNBITS %s\n' "$1"
    [ -z "$2" ] || printf 'PIXELTYPE %s\n' "$2"
    printf 'ULXMAP %s\nULYMAP 1\nXDIM 0.5\nYDIM 0.5\n' "${3:-0}"
}

# The files as they should be, in a new folder.
make_pit() {
    rm -rf "$check"
    mkdir -p "$check/out"
    printf '\0\5\0\5\0\5\0\5\0\1\0\5\0\5\0\5\0\5' >"$tile"
    header_of 16 SIGNEDINT >"$check/out/con.hdr"
    numbers 2 5 5 5 5 5 5 5 5 5 >"$check/out/con.bil"
    header_of 8 '' >"$check/out/dir.hdr"
    numbers 1 0 0 0 0 1 0 0 0 0 >"$check/out/dir.bil"
    header_of 32 '' | tee "$check/out/acc.hdr" "$check/out/bas.hdr" >"$check/out/rnk.hdr"
    numbers 4 1 1 1 1 1 2 1 1 1 >"$check/out/acc.bil"
    numbers 4 1 2 3 4 5 5 6 7 8 >"$check/out/bas.bil"
    numbers 4 0 0 0 0 1 0 0 0 0 >"$check/out/rnk.bil"
}

# Compares one run with these arguments: its name, the expected status and line.
judge_check() {
    judge_words "$1" "$2" "$3" check "${@:4}"
}

# The same on the tile of side 3 and its products.
judge_pit() {
    judge_check "$1" "$2" "$3" --side 3 --products "$check/out" "$tile"
}

# The pit without ranks.
make_bare() {
    make_pit
    rm "$check"/out/rnk.*
}

# Files that are no right raster, in the place of a product's: its path without an ending, and what they are.
spoil() {
    local hdr=$1.hdr bil=$1.bil
    case $2 in
        'without a raster') header_of 32 '' >"$hdr" ;;
        'without a header') numbers 4 0 0 0 0 1 0 0 0 0 >"$bil" ;;
        'in a short raster') header_of 32 '' >"$hdr" && numbers 4 0 0 0 0 >"$bil" ;;
        'of another place') header_of 32 '' 9 >"$hdr" && numbers 4 0 0 0 0 1 0 0 0 0 >"$bil" ;;
        'in empty files') : >"$hdr" && : >"$bil" ;;
        'in words that are no header') echo 'NROWS none' >"$hdr" && echo none >"$bil" ;;
        'in folders') mkdir "$hdr" "$bil" ;;
        'in links to nothing') ln -s none "$hdr" && ln -s none "$bil" ;;
        'in pipes that nobody writes') mkfifo "$hdr" "$bil" ;;
    esac
}
spoiled=('without a raster' 'without a header' 'in a short raster' 'of another place' 'in empty files'
    'in words that are no header' 'in folders' 'in links to nothing' 'in pipes that nobody writes')

# Ranks may lie in the folder, right or not: their files aren't opened.
put_ranks() {
    local hdr=$check/out/rnk.hdr bil=$check/out/rnk.bil
    case $1 in
        'as they should be') header_of 32 '' >"$hdr" && numbers 4 0 0 0 0 1 0 0 0 0 >"$bil" ;;
        'that are all 0') header_of 32 '' >"$hdr" && numbers 4 0 0 0 0 0 0 0 0 0 >"$bil" ;;
        'that are all no data') header_of 32 '' >"$hdr" && head -c 36 /dev/zero | tr '\0' '\377' >"$bil" ;;
        *) spoil "$check/out/rnk" "$1" ;;
    esac
}

# The pit again, to make products of it.
work=$scratch/make
made=$work/out
ground=$work/N00E000.hgt
files=$(echo {con,dir,acc,bas,rnk}.{hdr,bil})

# A tile's bytes of these heights from 0 to 255, each - a void.
heights() {
    local height
    for height; do
        case $height in -) printf '\x80\0' ;; *) printf "\\0\\x$(printf %02x "$height")" ;; esac
    done
}

# The bytes of these numbers in 32 bits each, the least first.
numbers_of_32_bits() {
    python3 -c 'import struct, sys; sys.stdout.buffer.write(struct.pack(f"<{len(sys.argv) - 1}I", *map(int, sys.argv[1:])))' "$@"
}

# An empty folder for products, and only the tile of the pit.
make_ground() {
    rm -rf "$work"
    mkdir -p "$made"
    heights 5 5 5 5 1 5 5 5 5 >"$ground"
}

# Compares one run with these arguments: its name, the expected status and line.
judge_make() {
    judge_words "$1" "$2" "$3" make "${@:4}"
}

# The same on the pit, with a line without products, and then the folder is still empty.
judge_nothing_made() {
    judge_make "$@"
    want -
    ls -A "$made" >"$scratch/out" 2>"$scratch/err"
    judge "$1: what is in the folder" 0 "$scratch/want" $?
}

# Compares a file with the bytes of standard input.
judge_file() {
    cat >"$scratch/want"
    cat "$2" >"$scratch/out" 2>"$scratch/err"
    judge "$1: ${2##*/}" 0 "$scratch/want" $?
}

# The bytes of a file of the pit's products. Its water leaves by the first of eight equal ways, to the east: two cells
# drain through the cell there, whose label the pit has. Headers and con are those of another program.
pit_file() {
    case $1 in
        dir.bil) numbers 1 0 0 0 0 1 0 0 0 0 ;;
        acc.bil) numbers 4 1 1 1 1 1 2 1 1 1 ;;
        bas.bil) numbers 4 1 2 3 4 5 5 6 7 8 ;;
        rnk.bil) numbers 4 0 0 0 0 1 0 0 0 0 ;;
        *) cat "samples/pit-3/$1" ;;
    esac
}

# The products of the pit in a folder.
judge_pit_files() {
    local file
    for file in $files; do
        pit_file "$file" | judge_file "$1" "$2/$file"
    done
}
pit_made='made rows=3 cols=3'

# The names in the folder of products: no others are left.
judge_names() {
    printf '%s\n' "${@:2}" | LC_ALL=C sort >"$scratch/want"
    ls -A "$made" >"$scratch/out" 2>"$scratch/err"
    judge "$1: names" 0 "$scratch/want" $?
}

# The files in a folder, by name.
judge_folder() {
    ls -A "$2" >"$scratch/out" 2>"$scratch/err"
    printf '%s\n' "${@:3}" | LC_ALL=C sort | sed '/^$/d' >"$scratch/want"
    judge "$1" 0 "$scratch/want" 0
}

# The products of the pit where its centre is listed as a sink, put into a folder.
sunk_checked='accepted rows=3 cols=3 data=9 raised=0 outlets=1'
put_listed() {
    local name
    for name in con dir acc bas rnk; do cp "samples/pit-3/$name.hdr" "$1"; done
    numbers 2 5 5 5 5 1 5 5 5 5 >"$1/con.bil"
    numbers 1 2 4 8 1 0 16 128 64 32 >"$1/dir.bil"
    numbers 4 1 1 1 1 9 1 1 1 1 >"$1/acc.bil"
    numbers 4 1 1 1 1 1 1 1 1 1 >"$1/bas.bil"
    numbers 4 0 0 0 0 0 0 0 0 0 >"$1/rnk.bil"
}

# Audits. audit.py is the other program.
auditor=$here/audit.py
# Compares one run with these arguments: its name, the expected status and line.
judge_audit() {
    judge_words "$1" "$2" "$3" audit "${@:4}"
}

# The line of an acceptance as it is for a list: con alone has no outlets.
accepted_as() { if [ "$1" = con ]; then echo "${2% outlets=*}"; else echo "$2"; fi; }

# Explanations.
faults=$check/faults.bil
faults_header=$check/faults.hdr

# Compares one run with these arguments: its name, the expected status, and the expected page on standard input.
judge_page() {
    local name=$1 status=$2
    shift 2
    cat >"$scratch/want"
    timeout "$patience" "$drain" explain "$@" </dev/null >"$scratch/out" 2>"$scratch/err"
    judge "$name" "$status" "$scratch/want" $?
}

# Only the first line: its name, the expected status and line.
judge_first_line() {
    local name=$1 status=$2 line=$3 came
    shift 3
    timeout "$patience" "$drain" explain "$@" </dev/null >"$scratch/page" 2>"$scratch/err"
    came=$?
    head -n 1 "$scratch/page" >"$scratch/out"
    want "$line"
    judge "$name" "$status" "$scratch/want" $came
}

# Refusals, each with what was expected and found, and no map of them.
refused() {
    judge_page "explained: $1" 2 --side "${of_side:-3}" --products "$check/out" --map "$faults" ${listed:+--sinks "$check/sinks.txt"} "${tiles[@]}"
    [ ! -e "$faults" ] && [ ! -e "$faults_header" ]
    printf '' >"$scratch/want"
    : >"$scratch/out"
    judge "no map where it is refused: $1" 0 "$scratch/want" $?
}
