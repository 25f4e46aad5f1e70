# Runs of `drain audit --only`: each list of rasters on small sets, right ones and ones with one number changed, beside
# rasters that aren't listed and can't be read; refusals in their order; sets of other tools. Read by part.sh; audit.py is
# the other program.

lists='con con,dir con,dir,acc con,dir,bas con,dir,acc,bas'
make_terrain
make_wide

# Whether a list has a raster.
has() { [[ ,$1, == *,$2,* ]]; }

# The status of a line.
status_of() {
    case $1 in accepted*) echo 0 ;; rejected*) echo 1 ;; refused*) echo 2 ;; *) echo 3 ;; esac
}

# Compares the line of a list with these arguments, and that of the other program: its name, the list, the expected line.
judge_list() {
    local name="$1, of $2 alone" status
    status=$(status_of "$3")
    judge_audit "$name" "$status" "$3" --only "$2" "${@:4}"
    # It gives no reason where a file can't be opened.
    [ "$status" != 3 ] || return 0
    "$auditor" --only "$2" "${@:4}" >"$scratch/out" 2>"$scratch/err"
    judge "$name, by the other program" "$status" "$scratch/want" $?
}

# The same on the tile of side 3 and its products.
judge_only() {
    judge_list "$1" "$2" "$3" --side 3 --products "$check/out" "${@:4}" "$tile"
}

# Changes the files of rasters that a list doesn't have.
spoil_others() {
    local name file
    for name in con dir acc bas rnk; do
        has "$1" "$name" && continue
        file=$check/out/$name
        rm -rf "$file".{hdr,bil}
        case $2 in
            'that are missing') ;;
            'of other numbers') header_of 8 '' >"$file.hdr" && numbers 1 3 3 3 3 3 3 3 3 3 >"$file.bil" ;;
            *) spoil "$file" "$2" ;;
        esac
    done
}

# The words in any order.
make_bare
judge_audit 'a list behind an equals sign' 0 'accepted rows=3 cols=3 data=9 raised=1' --only=con --side 3 --products "$check/out" "$tile"
judge_audit 'a list behind the tile' 0 "$pit_checked" --side 3 --products "$check/out" "$tile" --only con,dir
judge_audit 'a list, and tiles behind two dashes' 0 "$pit_checked" --only con,dir,acc --side 3 --products "$check/out/" -- "$tile"

# A right pit, beside rasters that aren't listed. They aren't opened.
for list in $lists; do
    for what in 'that are missing' 'of other numbers' "${spoiled[@]}"; do
        make_bare
        spoil_others "$list" "$what"
        judge_only "a pit, beside rasters $what" "$list" "$(accepted_as "$list" "$pit_checked")"
    done
done

# The pit beside a void, whose cells all drain into the cell in the middle, and a peak.
make_void() {
    make_bare
    printf '\0\5\0\5\0\5\0\5\0\1\200\0\0\5\0\5\0\5' >"$tile"
    printf '\5\0\5\0\5\0\5\0\1\0\0\200\5\0\5\0\5\0' >"$check/out/con.bil"
    numbers 1 2 4 8 1 0 255 128 64 32 >"$check/out/dir.bil"
    numbers 4 1 1 1 1 8 0 1 1 1 >"$check/out/acc.bil"
    numbers 4 1 1 1 1 1 0 1 1 1 >"$check/out/bas.bil"
}
make_peak() {
    make_bare
    printf '\0\5\0\5\0\5\0\5\0\11\0\5\0\5\0\5\0\5' >"$tile"
    numbers 2 5 5 5 5 9 5 5 5 5 >"$check/out/con.bil"
}

# One change each, so that each rule that is tried fails first where it is: the set, the product, its numbers (or its
# NODATA, after a letter n), and the line without `rejected` for each list in turn; + stands for an acceptance.
# A code that is none has no path, so rule 3 is never the first: NoEnd is.
while IFS='|' read -r name set product change con dir acc bas all; do
    case $set in
        void) accepted='accepted rows=3 cols=3 data=8 raised=0 outlets=1' ;;
        pit) accepted=$pit_checked ;;
        peak) accepted='accepted rows=3 cols=3 data=9 raised=0 outlets=8' ;;
    esac
    case $product in con) width=2 ;; dir) width=1 ;; *) width=4 ;; esac
    for list in $lists; do
        case $list in
            con) line=$con ;;
            con,dir) line=$dir ;;
            con,dir,acc) line=$acc ;;
            con,dir,bas) line=$bas ;;
            *) line=$all ;;
        esac
        [ "$line" = + ] && line=$(accepted_as "$list" "$accepted") || line="rejected $line"
        case $set in pit) make_bare ;; *) "make_$set" ;; esac
        case $change in
            n*) echo "NODATA ${change#n}" >>"$check/out/$product.hdr" ;;
            *) numbers $width $change >"$check/out/$product.bil" ;;
        esac
        judge_only "$name" "$list" "$line"
        spoil_others "$list" 'that are missing'
        judge_only "$name, the others missing" "$list" "$line"
    done
done <<'END'
a void|void|con|n-32768|+|+|+|+|+
a void with a height|void|con|n7|rule=1 VoidCell row=1 col=2|rule=1 VoidCell row=1 col=2|rule=1 VoidCell row=1 col=2|rule=1 VoidCell row=1 col=2|rule=1 VoidCell row=1 col=2
a void with a code|void|dir|n254|+|rule=1 VoidCell row=1 col=2|rule=1 VoidCell row=1 col=2|rule=1 VoidCell row=1 col=2|rule=1 VoidCell row=1 col=2
a void with a count|void|acc|n9|+|+|rule=1 VoidCell row=1 col=2|+|rule=1 VoidCell row=1 col=2
a void with a label|void|bas|n9|+|+|+|rule=1 VoidCell row=1 col=2|rule=1 VoidCell row=1 col=2
a direction into a void|void|dir|2 4 8 1 1 255 128 64 32|+|NoEnd row=0 col=0|NoEnd row=0 col=0|NoEnd row=0 col=0|NoEnd row=0 col=0
a height that is the no-data number|pit|con|n5|rule=2 Missing row=0 col=0|rule=2 Missing row=0 col=0|rule=2 Missing row=0 col=0|rule=2 Missing row=0 col=0|rule=2 Missing row=0 col=0
a code that is the no-data number|pit|dir|n1|+|rule=2 Missing row=1 col=1|rule=2 Missing row=1 col=1|rule=2 Missing row=1 col=1|rule=2 Missing row=1 col=1
a count that is the no-data number|pit|acc|n2|+|+|rule=2 Missing row=1 col=2|+|rule=2 Missing row=1 col=2
a label that is the no-data number|pit|bas|n8|+|+|+|rule=2 Missing row=2 col=2|rule=2 Missing row=2 col=2
a number that is no code|pit|dir|0 0 0 0 3 0 0 0 0|+|NoEnd row=1 col=1|NoEnd row=1 col=1|NoEnd row=1 col=1|NoEnd row=1 col=1
a direction off the grid|pit|dir|64 0 0 0 1 0 0 0 0|+|NoEnd row=0 col=0|NoEnd row=0 col=0|NoEnd row=0 col=0|NoEnd row=0 col=0
a ring|pit|dir|0 0 0 0 1 16 0 0 0|+|NoEnd row=1 col=1|NoEnd row=1 col=1|NoEnd row=1 col=1|NoEnd row=1 col=1
a height below the ground|pit|con|4 5 5 5 5 5 5 5 5|rule=4 BelowGround row=0 col=0|rule=4 BelowGround row=0 col=0|rule=4 BelowGround row=0 col=0|rule=4 BelowGround row=0 col=0|rule=4 BelowGround row=0 col=0
a pit below the ground|pit|con|5 5 5 5 0 5 5 5 5|rule=4 BelowGround row=1 col=1|rule=10 Slope row=0 col=0|rule=10 Slope row=0 col=0|rule=10 Slope row=0 col=0|rule=10 Slope row=0 col=0
an edge that is raised|pit|con|5 5 5 5 5 5 5 5 6|rule=5 OpenRaised row=2 col=2|rule=5 OpenRaised row=2 col=2|rule=5 OpenRaised row=2 col=2|rule=5 OpenRaised row=2 col=2|rule=5 OpenRaised row=2 col=2
a pit raised too high|pit|con|5 5 5 5 6 5 5 5 5|rule=9 NotLeast row=1 col=1|rule=9 NotLeast row=1 col=1|rule=9 NotLeast row=1 col=1|rule=9 NotLeast row=1 col=1|rule=9 NotLeast row=1 col=1
a pit that is not filled|pit|con|5 5 5 5 1 5 5 5 5|NotFilled row=1 col=1|rule=10 Slope row=0 col=0|rule=10 Slope row=0 col=0|rule=10 Slope row=0 col=0|rule=10 Slope row=0 col=0
a pit that is filled in part|pit|con|5 5 5 5 4 5 5 5 5|NotFilled row=1 col=1|rule=10 Slope row=0 col=0|rule=10 Slope row=0 col=0|rule=10 Slope row=0 col=0|rule=10 Slope row=0 col=0
a peak|peak|con|5 5 5 5 9 5 5 5 5|+|+|+|+|+
a direction that is not steepest|peak|dir|0 0 0 0 2 0 0 0 0|+|rule=10 Slope row=1 col=1|rule=10 Slope row=1 col=1|rule=10 Slope row=1 col=1|rule=10 Slope row=1 col=1
no direction down|peak|dir|0 0 0 0 0 0 0 0 0|+|rule=10 Slope row=1 col=1|rule=10 Slope row=1 col=1|rule=10 Slope row=1 col=1|rule=10 Slope row=1 col=1
an outlet with a code|pit|dir|0 4 0 0 1 0 0 0 0|+|rule=11 OutletCode row=0 col=1|rule=11 OutletCode row=0 col=1|rule=11 OutletCode row=0 col=1|rule=11 OutletCode row=0 col=1
no way out of the pit|pit|dir|0 0 0 0 0 0 0 0 0|+|rule=12 FlatStep row=1 col=1|rule=12 FlatStep row=1 col=1|rule=12 FlatStep row=1 col=1|rule=12 FlatStep row=1 col=1
another way out of the pit|pit|dir|0 0 0 0 64 0 0 0 0|+|+|rule=13 Accumulation row=0 col=1|rule=14 Label row=1 col=1|rule=13 Accumulation row=0 col=1
a count too high|pit|acc|2 1 1 1 1 2 1 1 1|+|+|rule=13 Accumulation row=0 col=0|+|rule=13 Accumulation row=0 col=0
counts without the cell itself|pit|acc|9 9 9 9 9 9 9 9 8|+|+|rule=13 Accumulation row=0 col=0|+|rule=13 Accumulation row=0 col=0
a label of another basin|pit|bas|1 2 3 4 1 5 6 7 8|+|+|+|rule=14 Label row=1 col=1|rule=14 Label row=1 col=1
a label of two outlets|pit|bas|1 2 3 4 5 5 6 7 1|+|+|+|rule=15 SharedLabel row=2 col=2|rule=15 SharedLabel row=2 col=2
END

# A depression that isn't filled up: the first cell below the filled surface is named, though water still goes down from it. Here
# the ground falls from 4 to 2 within a border of 5.
make_bare
side=5
for height in 5 5 5 5 5 5 4 3 2 5 5 4 3 2 5 5 4 3 2 5 5 5 5 5 5; do printf "\\0\\$height"; done >"$tile"
sed -i -E 's/^(NROWS|NCOLS) .*/\1 5/; s/^(.DIM) .*/\1 0.25/' "$check"/out/*.hdr
of_five=(--side 5 --products "$check/out" "$tile")
while IFS='|' read -r name inner line; do
    set -- $inner
    numbers 2 5 5 5 5 5 5 "$1" "$2" "$3" 5 5 "$4" "$5" "$6" 5 5 "$7" "$8" "$9" 5 5 5 5 5 5 >"$check/out/con.bil"
    judge_list "$name" con "$line" "${of_five[@]}"
done <<'END'
a filled slope|5 5 5 5 5 5 5 5 5|accepted rows=5 cols=5 data=25 raised=9
a slope that is not filled|4 3 2 4 3 2 4 3 2|rejected NotFilled row=1 col=1
a slope that is filled to 3|4 3 3 4 3 3 4 3 3|rejected NotFilled row=1 col=1
a slope that is filled to 4|4 4 4 4 4 4 4 4 4|rejected NotFilled row=1 col=1
a slope that is filled to 4, a cell of it to 3|4 4 4 4 3 4 4 4 4|rejected rule=9 NotLeast row=1 col=2
a slope that is raised at a cell|5 5 5 5 5 5 5 5 4|rejected rule=9 NotLeast row=2 col=2
END

# With its centre listed the pit is an outlet. Without the list, of con alone, it isn't filled.
for list in $lists; do
    make_bare
    put_listed "$check/out"
    spoil_others "$list" 'that are missing'
    printf '\r\n1 1' >"$check/sinks.txt"
    judge_only 'a listed pit' "$list" "$(accepted_as "$list" "$sunk_checked")" --sinks "$check/sinks.txt"
    [ "$list" = con ] && line='rejected NotFilled row=1 col=1' || line='rejected rule=12 FlatStep row=1 col=1'
    judge_only 'a listed pit without its list' "$list" "$line"
    make_bare
    printf '1 1' >"$check/sinks.txt"
    judge_only 'a filled pit that is listed' "$list" 'rejected rule=5 OpenRaised row=1 col=1' --sinks "$check/sinks.txt"
    rm "$check/sinks.txt"
    judge_only 'a list of sinks that is not there' "$list" "failed Open $check/sinks.txt" --sinks "$check/sinks.txt"
done

# Refusals in their order, as in audit.sh, of the listed rasters: all apply at first, and are fixed one by one.
for list in con con,dir con,dir,acc con,dir,bas; do
    make_bare
    numbers 1 3 1 1 1 1 1 1 1 1 1 1 1 1 1 1 >"$check/out/dir.bil"
    printf '\0\6\0\6\0\6\0\6\0\6\0\6\0\6\0\6\0\6' >"$check/N01E000.hgt"
    cp "$tile" "$check/N00E009.hgt"
    cp "$tile" "$check/x"
    for name in N00E000 N01E000; do truncate -s 19 "$check/$name.hgt"; done
    for name in con dir acc bas; do truncate -s 14 "$check/out/$name.bil" && sed -i '/^YDIM/d' "$check/out/$name.hdr"; done
    spoil_others "$list" 'in words that are no header'
    printf '9 9\nx\n' >"$check/sinks.txt"
    side=1 tiles='x N00E000.hgt'

    # Checks the line, and then fixes what it reports.
    judge_list_and_mend() {
        local paths=() name
        for name in $tiles; do paths+=("$check/$name"); done
        judge_list "in its order $1" "$list" "$1" --side $side --products "$check/out" --sinks "$check/sinks.txt" "${paths[@]}"
        eval "$2"
    }
    judge_list_and_mend 'refused BadSide' 'side=3'
    judge_list_and_mend 'refused BadName 0' 'tiles='
    judge_list_and_mend 'refused NoTiles' 'tiles="N00E000.hgt N01E000.hgt N00E000.hgt N00E009.hgt"'
    judge_list_and_mend 'refused RepeatedTile N00E000.hgt' 'tiles="N00E000.hgt N01E000.hgt N00E009.hgt"'
    judge_list_and_mend 'refused BoxTooLarge' 'tiles="N00E000.hgt N01E000.hgt"'
    for product in ${list//,/ }; do
        judge_list_and_mend "refused BadHeader $product MissingKey YDIM" 'echo YDIM 0.5 >>"$check/out/$product.hdr"'
        judge_list_and_mend "refused WrongShape $product" 'sed -i "s/^NROWS 3/NROWS 5/" "$check/out/$product.hdr"'
        judge_list_and_mend "refused Misplaced $product" 'sed -i "s/^ULYMAP 1/ULYMAP 2/" "$check/out/$product.hdr"'
    done
    for corner in N00E000 N01E000; do
        judge_list_and_mend "refused BadTileLength $corner.hgt" 'truncate -s 18 "$check/$corner.hgt"'
    done
    for product in ${list//,/ }; do
        judge_list_and_mend "refused RasterShort $product" 'truncate -s 60 "$check/out/$product.bil"'
    done
    judge_list_and_mend 'refused SeamMismatch row=2 col=0' 'printf "\0\5\0\5\0\5\0\5\0\1\0\5\0\5\0\5\0\5" >"$check/N01E000.hgt"'
    judge_list_and_mend 'refused BadSinkLine 2' 'echo 9 9 >"$check/sinks.txt"'
    judge_list_and_mend 'refused SinkNotData 1' ': >"$check/sinks.txt"'
    if has "$list" dir; then
        judge_list_and_mend 'rejected NoEnd row=0 col=0' 'numbers 1 0 0 0 0 1 0 0 1 0 0 1 0 0 0 0 >"$check/out/dir.bil"'
        judge_list_and_mend 'rejected rule=10 Slope row=1 col=0' 'numbers 2 5 5 5 5 5 5 5 5 5 5 5 5 5 5 5 >"$check/out/con.bil"'
    else
        judge_list_and_mend 'rejected rule=9 NotLeast row=1 col=1' 'numbers 2 5 5 5 5 1 5 5 5 5 5 1 5 5 5 5 >"$check/out/con.bil"'
        judge_list_and_mend 'rejected NotFilled row=1 col=1' 'numbers 2 5 5 5 5 5 5 5 5 5 5 5 5 5 5 5 >"$check/out/con.bil"'
    fi
    if has "$list" acc; then
        judge_list_and_mend 'rejected rule=2 Missing row=1 col=1' 'numbers 4 1 1 1 1 1 2 1 1 2 1 1 2 1 1 1 >"$check/out/acc.bil"'
    fi
    if has "$list" bas; then
        judge_list_and_mend 'rejected rule=2 Missing row=1 col=1' 'numbers 4 1 2 3 4 5 5 6 7 7 8 9 9 10 11 12 >"$check/out/bas.bil"'
    fi
    judge_list_and_mend "$(accepted_as "$list" 'accepted rows=5 cols=3 data=15 raised=2 outlets=12')" :
done

# Listed files that are not there, or are folders. All are opened before anything is refused, the tile first.
for list in $lists; do
    for file in N00E000.hgt out/{con,dir,acc,bas}.{hdr,bil}; do
        [ "$file" = N00E000.hgt ] || has "$list" "$(basename "${file%.*}")" || continue
        make_bare
        spoil_others "$list" 'that are missing'
        rm "$check/$file"
        judge_only "without $file" "$list" "failed Open $check/$file"
        judge_audit "without $file, of $list alone, and a bad side" 3 "failed Open $check/$file" \
            --only "$list" --side 1 --products "$check/out" "$tile"
        mkdir "$check/$file"
        judge_audit "a folder for $file, of $list alone" 3 'failed ReadFailed' --only "$list" --side 3 --products "$check/out" "$tile"
    done
done

# Pipes that stay open: it waits for no byte of a raster after the last needed one.
for list in con con,dir,acc; do
    for file in con.bil dir.bil acc.bil; do
        has "$list" "${file%.*}" || continue
        make_bare
        mv "$check/out/$file" "$scratch/bytes"
        mkfifo "$check/out/$file"
        exec 3<>"$check/out/$file"
        cat "$scratch/bytes" >&3
        judge_audit "an open pipe for $file, of $list alone" 0 "$(accepted_as "$list" "$pit_checked")" \
            --only "$list" --side 3 --products "$check/out" "$tile"
        exec 3<&-
    done
done

# Lists that are no list: nothing is opened, and standard error has the lists that there are.
while IFS= read -r list; do
    want -
    timeout "$patience" "$drain" audit --only "$list" --side 3 --products "$check/none" "$tile" </dev/null >"$scratch/out" 2>"$scratch/err"
    judge "the list '$list'" 2 "$scratch/want" $? words
    grep -q 'the list must be con, or con,dir, or con,dir,acc, or con,dir,bas, or con,dir,acc,bas' "$scratch/err"
    judge "the list '$list': what there is" 0 "$scratch/want" $? words
done <<'END'
dir
acc
bas
rnk
con,acc
con,bas
con,rnk
con,acc,bas
dir,con
con,dir,bas,acc
con,dir,acc,bas,rnk
con,con
con,dir,
,con
con, dir
con dir
Con
CON,DIR
all
END
want -
for words in 'audit --only' 'audit --only= x' 'audit --only con --only con x' 'check --only con x' 'explain --onli con x' 'make --only con x'; do
    timeout "$patience" "$drain" $words --products "$check/out" </dev/null >"$scratch/out" 2>"$scratch/err"
    judge "refused words: $words" 2 "$scratch/want" $? words
done

# Outputs that can't be written: status 3, whatever the line was.
: >"$scratch/want"
: >"$scratch/out"
make_bare
for list in con con,dir; do
    for words in "--side 3 --products $check/out $tile" "--side 3 --products $check/out" "--products $check $tile" \
        '--side 51 --products samples/other-tools/fill-dir samples/other-tools/N36W085.hgt'; do
        [[ $words == --products* ]] && errors=reason || errors=silent
        "$drain" audit --only $list $words >/dev/full 2>"$scratch/err"
        judge "a full standard output: audit --only $list $words" 3 "$scratch/want" $? $errors
        "$drain" audit --only $list $words >&- 2>"$scratch/err"
        judge "a closed standard output: audit --only $list $words" 3 "$scratch/want" $? $errors
    done
done

# Sets of other tools, each with the answer that docs/OTHER_TOOLS.md has for each list: right, or the first rule that fails.
columns=()
while IFS='|' read -r _ name cells; do
    name=$(tr -d ' `' <<<"$name")
    IFS='|' read -r -a cells <<<"$cells"
    if [ "$name" = set ]; then
        for cell in "${cells[@]}"; do columns+=("$(tr -d ' ' <<<"$cell")"); done
        continue
    fi
    [ -d "samples/other-tools/$name" ] || continue
    echo "$name" >>"$scratch/listed_sets"
    for i in "${!columns[@]}"; do
        words=(--side 51 --products "samples/other-tools/$name" samples/other-tools/N36W085.hgt)
        line=$("$auditor" --only "${columns[i]}" "${words[@]}")
        case $(sed 's/^ *//; s/ *$//' <<<"${cells[i]}") in
            right) shown='accepted rows=51' ;;
            NoEnd) shown='rejected NoEnd' ;;
            *) shown="rejected rule=$(sed 's/^ *//; s/ *$//' <<<"${cells[i]}")" ;;
        esac
        case $line in "$shown "*) ;; *) line="$shown, by docs/OTHER_TOOLS.md" ;; esac
        judge_list "other tools, $name" "${columns[i]}" "$line" "${words[@]}"
    done
done < <(sed -n '/^## Which rasters are right/,/^## Other/p' docs/OTHER_TOOLS.md | grep '^|')
printf '%s\n' samples/other-tools/*/ | sed 's,/$,,; s,.*/,,' | LC_ALL=C sort >"$scratch/out"
LC_ALL=C sort "$scratch/listed_sets" >"$scratch/want"
: >"$scratch/err"
judge 'the sets of other tools in the table by list' 0 "$scratch/want" 0

# An explanation by list begins with the line of the audit, and ends with its status: its name, and the arguments.
judge_explained() {
    local status came
    timeout "$patience" "$drain" audit "${@:2}" </dev/null >"$scratch/want" 2>"$scratch/err"
    status=$?
    timeout "$patience" "$drain" explain "${@:2}" </dev/null >"$scratch/page" 2>>"$scratch/err"
    came=$?
    head -n 1 "$scratch/page" >"$scratch/out"
    judge "an explanation of $1" "$status" "$scratch/want" "$came"
}
for list in $lists; do
    for name in saga watershed terraflow fill-dir; do
        judge_explained "other tools, $name, of $list alone" \
            --only "$list" --side 51 --products "samples/other-tools/$name" samples/other-tools/N36W085.hgt
    done
    # Ranks that lie beside are not opened: without a list they would be checked.
    make_bare
    spoil_others con,dir,acc,bas 'in words that are no header'
    judge_explained "a pit, of $list alone, beside ranks that are none" --only "$list" --side 3 --products "$check/out" "$tile"
done

# The whole terrain, with the counts of another maker's products; and changes of one number.
for list in $lists; do
    judge_audit "real terrain of side 344, of $list alone" 0 \
        "$(accepted_as "$list" 'accepted rows=344 cols=344 data=118336 raised=5200 outlets=115')" \
        --only "$list" --side 344 --products "$scratch/wide" samples/N36W085.hgt
done
while read -r rule file size row col bytes; do
    [ -n "$rule" ] || continue
    changed=$scratch/changed
    rm -rf "$changed" && cp -r "$terrain" "$changed" && cp samples/jacksboro/N36W085.hgt "$changed" && chmod -R u+w "$changed"
    printf "$bytes" | dd of="$changed/$file" bs=1 seek=$((size * (121 * row + col))) conv=notrunc status=none
    for list in con con,dir con,dir,acc con,dir,bas; do
        words=(--only "$list" --side 121 --products "$changed" "$changed/N36W085.hgt")
        line=$("$auditor" "${words[@]}")
        status=$?
        judge_audit "rule $rule on real terrain, by $file, of $list alone" "$status" "$line" "${words[@]}"
    done
done <<<"$changes"

# Numbers of a header are read, and never taken as memory; the ones in place of a missing raster take none either.
for list in con con,dir; do
    make_bare
    echo 'TOTALROWBYTES 4294967295' >>"$check/out/con.hdr"
    want 'refused RasterShort con'
    (ulimit -v 200000 && exec timeout "$patience" "$drain" audit --only "$list" --side 3 --products "$check/out" "$tile") >"$scratch/out" 2>"$scratch/err"
    judge "a long row over a short body, of $list alone" 2 "$scratch/want" $?
done
