# What standard error says of a refusal that a slip in the command line may have caused; and answers as JSON objects.
# Read by part.sh.

saga=samples/other-tools/saga
ground=samples/other-tools/N36W085.hgt

# Compares one run and its line on standard error: its name, the status, the line, that on standard error, and its arguments.
judge_slip() {
    local name=$1 status=$2 line=$3 slip=$4
    want "$line"
    timeout "$patience" "$drain" "${@:5}" </dev/null >"$scratch/out" 2>"$scratch/err"
    judge "$name" "$status" "$scratch/want" $? words
    cp "$scratch/err" "$scratch/out"
    want "$slip"
    : >"$scratch/err"
    judge "$name: its reason" "$status" "$scratch/want" "$status"
}
shape='it has 51 rows and 51 columns, and the elevations have 1201 and 1201: is --side right?'
judge_slip 'a tile of another side, audited' 2 'refused WrongShape con' "error: con: $shape" audit --products $saga $ground
judge_slip 'directions on a tile of another side' 2 'refused WrongShape dir' "error: dir: $shape" derive --products $saga --out "$scratch" $ground
judge_slip 'a window of a tile of another side' 2 'refused WrongShape con' "error: con: $shape" \
    window --box 0,0,1201,1201 --report "$scratch/slips.txt" --products $saga $ground
cp -r samples/pit-3 "$scratch/slips"
sed -i 's/^NCOLS 3/NCOLS 2/' "$scratch/slips/dir.hdr"
cp "$scratch/slips/con.hdr" "$scratch/slips/dem.hdr"
cp "$scratch/slips/con.bil" "$scratch/slips/dem.bil"
judge_slip 'a column less than one raster has, checked' 2 'refused WrongShape dir' \
    'error: dir: it has 3 rows and 2 columns, and the elevations have 3 and 3' check --dem "$scratch/slips/dem.bil" --products "$scratch/slips"
judge_slip 'the raster in place of its header' 2 'refused MissingKey NROWS' \
    "error: $saga/con.bil: it is named as a raster: its header is the file that ends in .hdr" header $saga/con.bil
yes '1 1' | head -c 2097154 >"$scratch/slips/long.txt"
long="error: $scratch/slips/long.txt: it can't be read, or has more than 2097152 bytes"
judge_slip 'a text of widths of 2^21 + 2 bytes' 3 'failed ReadFailed' "$long" audit --side 51 --widths "$scratch/slips/long.txt" --products $saga $ground
head -c 2097152 "$scratch/slips/long.txt" >"$scratch/slips/widths.txt"
judge_words 'a text of widths of 2^21 bytes' 2 'refused SpacingRows 524288' audit --side 51 --widths "$scratch/slips/widths.txt" --products $saga $ground

# The object of an answer: its line, and that line's parts.
judge_object() {
    local name=$1 status=$2 line=$3 parts=$4
    judge_words "$name" "$status" "{\"answer\":\"$line\",\"schema\":1,\"status\":$status,$parts}" "${@:5}"
}
none='"rule":null,"name":null,"row":null,"col":null'
tools=samples/other-tools
accepted='accepted rows=51 cols=51 data=2601 raised=59 outlets=10'
judge_object 'an acceptance as an object' 0 "$accepted" "$none" audit --json --side 51 --products $tools/saga-counted $ground
judge_object 'a rejection as an object' 1 'rejected rule=9 NotLeast row=29 col=5' '"rule":9,"name":"NotLeast","row":29,"col":5' \
    audit --side 51 --products $tools/fill-dir --json $ground
judge_object 'con alone as an object' 0 'accepted rows=51 cols=51 data=2601 raised=59' "$none" \
    audit --json --only con --side 51 --products $tools/watershed $ground
judge_object 'a check as an object' 0 'accepted rows=3 cols=3 data=9 raised=1 outlets=8' "$none" \
    check --json --side 3 --products samples/pit-3 samples/pit-3/N00E000.hgt
judge_object 'a refusal as an object' 2 'refused WrongShape con' "$none" audit --json --products $saga $ground
judge_object 'a failure as an object' 3 'failed Open none.hgt' "$none" check --json --products $saga none.hgt
want "{\"answer\":\"usage error\",\"schema\":1,\"status\":2,$none}"
for words in 'audit --spacing 0,1' 'check --spacing header' 'explain --spacing 1' 'audit --bogus' 'explain --map x.tif' 'explain --json'; do
    "$drain" $words --json --products $saga $ground >"$scratch/out" 2>"$scratch/err" </dev/null
    judge "a usage error as an object: $words" 2 "$scratch/want" $? words
done
sed -i 's/^NCOLS .*/&\nXDIM 1\nYDIM 1073741825/; /DIM 0/d' "$scratch/slips/dem.hdr"
"$drain" explain --json --spacing header --dem "$scratch/slips/dem.bil" --products "$scratch/slips" >"$scratch/out" 2>"$scratch/err"
judge 'a header without a spacing, explained as an object' 2 "$scratch/want" $? words
