# What a tarball, a package and a wheel have in common; tools/dist.sh, tools/deb.sh and companion/build_wheel.sh read this file. They set top, the repository, before.

# The same inputs give the same bytes, so the user's settings play no part.
export LC_ALL=C TZ=UTC
unset TAR_OPTIONS XZ_OPT XZ_DEFAULTS GZIP
umask 022
room=$(mktemp -d)
trap 'rm -rf "$room"' EXIT

refuse() {
    echo "$1" >&2
    exit 1
}

sum_of() { sha256sum <"$1" | cut -d ' ' -f 1; }

# Prints the value of a key in a file of lines 'KEY  VALUE'.
value_of() { awk -v key="$1" '$1 == key { sub(/^[^ ]+ +/, ""); print }' "$2"; }

# Takes a program that was proved and built of the sources as they are: $room/drain, with its record in $room/PROVED. Sets version and when.
take_program() {
    "$top/tools/is_proved.sh" "$1" || exit 1
    install -m 755 "$1" "$room/drain"
    install -m 644 "$1.proved" "$room/PROVED"
    [ "$(sum_of "$room/drain")" = "$(value_of program "$room/PROVED")" ] || refuse "$1 changed while it was copied"
    version=$("$room/drain" --version | awk 'NR == 1 { print $2 }')
    [[ $version =~ ^[0-9]+(\.[0-9]+)*$ ]] || refuse "$1 names no version: its --version begins with no line 'drain NUMBERS'"
    when=${SOURCE_DATE_EPOCH:-$(git -C "$top" log -1 --format=%ct 2>/dev/null || true)}
    [[ $when =~ ^[0-9]+$ ]] || refuse 'no time for the files: outside a git checkout set SOURCE_DATE_EPOCH to seconds since 1970'
    export SOURCE_DATE_EPOCH=$when
    case $(value_of commit "$room/PROVED") in
        *-changed) echo "note: the sources differed from their commit when they were proved, and PROVED says so" >&2 ;;
    esac
}

# Takes the program for x86-64-v3, PROGRAM-v3, which was proved and built of the same sources by the same toolchain: $room/drain-v3, with its line in PROVED.
# Usage: take_v3 PROGRAM
take_v3() {
    local program=$1-v3
    "$top/tools/is_proved.sh" "$program" || exit 1
    [ "$(value_of cpu "$program.proved")" = x86-64-v3 ] || refuse "$program was not built for x86-64-v3: run tools/build.py"
    [ "$(value_of kit "$program.proved")" = "$(value_of kit "$room/PROVED")" ] || refuse "$program was built by another toolchain than $1"
    install -m 755 "$program" "$room/drain-v3"
    [ "$(sum_of "$room/drain-v3")" = "$(value_of program "$program.proved")" ] || refuse "$program changed while it was copied"
    echo "v3       $(sum_of "$room/drain-v3")" >>"$room/PROVED"
}

# Takes what tools/static_program.sh linked of PROGRAM and PROGRAM-v3: $room/drain-static, and both as take_v3 does, with their lines in PROVED.
# Usage: take_static STATIC PROGRAM
take_static() {
    local file
    take_v3 "$2"
    for file in "$1" "$1.linked" "$1.o"; do
        [ -f "$file" ] || refuse "$file is not there: tools/static_program.sh makes it"
    done
    install -m 755 "$1" "$room/drain-static"
    [ "$(value_of program "$1.linked")" = "$(sum_of "$room/drain")" ] ||
        refuse "$1 was not linked from the object of $2: run tools/static_program.sh"
    [ "$(value_of v3 "$1.linked")" = "$(sum_of "$room/drain-v3")" ] ||
        refuse "$1 was not linked from the object of $2-v3: run tools/static_program.sh"
    [ "$(value_of static "$1.linked")" = "$(sum_of "$room/drain-static")" ] ||
        refuse "$1 is not what tools/static_program.sh linked"
    grep -vE '^(program|v3) ' "$1.linked" >>"$room/PROVED"
}

# Takes what tools/shared_library.sh linked: $room/libdrain.so.0, with its lines in PROVED. Its archive lies beside it, and was proved.
take_shared() {
    local archive
    archive=$(dirname "$1")/libdrain.a
    "$top/tools/is_proved.sh" "$archive" || exit 1
    [ -f "$1.linked" ] || refuse "$1.linked is not there: tools/shared_library.sh makes it"
    install -m 644 "$1" "$room/libdrain.so.0"
    [ "$(value_of archive "$1.linked")" = "$(sum_of "$archive")" ] || refuse "$1 was not linked from $archive: run tools/shared_library.sh"
    [ "$(value_of shared "$1.linked")" = "$(sum_of "$room/libdrain.so.0")" ] || refuse "$1 is not what tools/shared_library.sh linked"
    grep -qF "$(grep '^linker ' "$1.linked")" "$room/PROVED" || grep '^linker ' "$1.linked" >>"$room/PROVED"
    grep -v '^linker ' "$1.linked" >>"$room/PROVED"
}

# Copies files and folders of the repository, in a checkout those that git has. One that isn't there is left out.
# Usage: copy_files TO PATH...
copy_files() {
    local to=$1 path there=()
    shift
    for path in "$@"; do [ ! -e "$top/$path" ] || there+=("$path"); done
    mkdir -p "$to"
    if git -C "$top" ls-files --error-unmatch crates.txt >/dev/null 2>&1; then
        git -C "$top" ls-files -z -- "${there[@]}"
    else
        (cd "$top" && find "${there[@]}" -type f -print0)
    fi >"$room/list"
    tar -C "$top" --null -T "$room/list" -cf - | tar -C "$to" --no-same-owner -xf -
    chmod -R u=rwX,go=rX "$to"
}

# Puts a file that is whole into the folder where it belongs.
# Usage: put FILE FOLDER
put() {
    mkdir -p "$2"
    cp "$1" "$2/.$(basename "$1").new"
    mv "$2/.$(basename "$1").new" "$2/$(basename "$1")"
}
