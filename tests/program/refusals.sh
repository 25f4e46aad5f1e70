# More refusals explained: as JSON, of mosaics that aren't square, of a seam where four tiles meet, of a long list of
# sinks. Read by part.sh.

# The object of a refusal: its name, and the answer and the member on two lines of standard input.
refused_object() {
    local answer refusal row=null col=null
    { read -r answer && read -r refusal; } || true
    [[ $answer =~ row=([0-9]+)\ col=([0-9]+)$ ]] && row=${BASH_REMATCH[1]} col=${BASH_REMATCH[2]}
    want "{\"answer\":\"$answer\",\"refusal\":$refusal,\"rows\":null,\"cols\":null,\"ranks\":null,\"rules\":[],\"products\":[],\"patch\":null,\"expected\":null,\"run\":null,\"schema\":1,\"status\":2,\"rule\":null,\"name\":null,\"row\":$row,\"col\":$col}"
    timeout "$patience" "$drain" explain --json --side 3 --products "$check/out" ${listed:+--sinks "$check/sinks.txt"} "${tiles[@]}" </dev/null >"$scratch/out" 2>"$scratch/err"
    judge "explained as JSON: $1" 2 "$scratch/want" $?
}

# The places of a header have fifteen digits after the point, zeros among them.
make_bare
tiles=("$tile")
sed -i 's/^ULXMAP .*/ULXMAP 2.000070008000900/; s/^ULYMAP .*/ULYMAP -1.000000000100000/; s/^XDIM .*/XDIM 0.501230012300012/; s/^YDIM .*/YDIM .10000100001/' "$check/out/acc.hdr"
refused 'places with zeros in them' <<'END'
refused Misplaced acc

expected: acc at ULXMAP 0.000000000000000, ULYMAP 1.000000000000000, XDIM 0.500000000000000, YDIM 0.500000000000000
found: acc at ULXMAP 2.000070008000900, ULYMAP -1.000000000100000, XDIM 0.501230012300012, YDIM 0.100001000010000
END
refused_object 'places with zeros in them' <<'END'
refused Misplaced acc
{"about":"position","product":"acc","expected":{"ulxmap":"0.000000000000000","ulymap":"1.000000000000000","xdim":"0.500000000000000","ydim":"0.500000000000000"},"found":{"ulxmap":"2.000070008000900","ulymap":"-1.000000000100000","xdim":"0.501230012300012","ydim":"0.100001000010000"}}
END

# Three tiles side by side, with 3 rows and 7 columns, and a fault that isn't in the first of them.
make_row() {
    local name lon
    make_bare
    for lon in 0 1 2; do heights 5 5 5 5 5 5 5 5 5 >"$check/N00E00$lon.hgt"; done
    for name in con dir acc bas; do sed -i 's/^NCOLS 3/NCOLS 7/' "$check/out/$name.hdr" && truncate -s 84 "$check/out/$name.bil"; done
    tiles=("$check"/N00E00[012].hgt)
}
make_row
truncate -s 19 "$check/N00E002.hgt"
refused 'the length of the third tile' <<'END'
refused BadTileLength N00E002.hgt

expected: N00E002.hgt of 18 bytes
found: N00E002.hgt of 19 bytes
END
refused_object 'the length of the third tile' <<'END'
refused BadTileLength N00E002.hgt
{"about":"tile_length","tile":"N00E002.hgt","expected":18,"found":19}
END
make_row
heights 5 5 5 6 5 5 5 5 5 >"$check/N00E002.hgt"
refused 'a seam of the second tile and the third' <<'END'
refused SeamMismatch row=1 col=4

expected: one height at the cell: N00E001.hgt has 5
found: N00E002.hgt has 6
END
make_row
truncate -s 83 "$check/out/bas.bil"
refused 'a raster of 3 rows and 7 columns that is a byte short' <<'END'
refused RasterShort bas

expected: bas.bil of 84 bytes
found: bas.bil of 83 bytes
END
sed -i 's/^NROWS 3/NROWS 7/; s/^NCOLS 7/NCOLS 3/' "$check/out/acc.hdr"
refused 'rows and columns exchanged' <<'END'
refused WrongShape acc

expected: acc with 3 rows and 7 columns
found: acc with 7 rows and 3 columns
END
make_row
tiles=("$check"/N00E00{2,1,0}.hgt)
sed -i 's/^ULXMAP 0/ULXMAP 2/' "$check/out/con.hdr"
refused 'the place of the first tile in the arguments, which is the last in the mosaic' <<'END'
refused Misplaced con

expected: con at ULXMAP 0.000000000000000, ULYMAP 1.000000000000000, XDIM 0.500000000000000, YDIM 0.500000000000000
found: con at ULXMAP 2.000000000000000, ULYMAP 1.000000000000000, XDIM 0.500000000000000, YDIM 0.500000000000000
END
make_row
heights 5 5 5 5 5 - 5 5 5 >"$check/N00E002.hgt"
while IFS='|' read -r text line row col why; do
    printf '%b' "$text" >"$check/sinks.txt"
    where="a void"
    [ "$why" = void ] || where='outside the mosaic'
    listed=1 refused "a listed cell at row $row, column $col" <<END
refused SinkNotData $line

expected: line $line: a data cell
found: row $row, column $col, $where
END
    listed=1 refused_object "a listed cell at row $row, column $col" <<END
refused SinkNotData $line
{"about":"sink_cell","line":$line,"row":$row,"col":$col,"found":"$why"}
END
done <<'END'
1 6|1|1|6|void
2 6\n1 6\n|2|1|6|void
2 6\n1 7\n|2|1|7|outside
2 6\n0 4\n3 1\n|3|3|1|outside
END

# A seam where four tiles meet: two of them agree, and some have a void there.
make_square() {
    local name
    make_bare
    for name in N00E000 N00E001 N01E000 N01E001; do heights 5 5 5 5 5 5 5 5 5 >"$check/$name.hgt"; done
    for name in con dir acc bas; do
        sed -i 's/^NROWS 3/NROWS 5/; s/^NCOLS 3/NCOLS 5/; s/^ULYMAP 1/ULYMAP 2/' "$check/out/$name.hdr"
        truncate -s 100 "$check/out/$name.bil"
    done
    tiles=("$check"/N0[01]E00[01].hgt)
}
while read -r south_west south_east north_west north_east first other; do
    make_square
    heights 5 5 "$south_west" 5 5 5 5 5 5 >"$check/N00E000.hgt"
    heights "$south_east" 5 5 5 5 5 5 5 5 >"$check/N00E001.hgt"
    heights 5 5 5 5 5 5 5 5 "$north_west" >"$check/N01E000.hgt"
    heights 5 5 5 5 5 5 "$north_east" 5 5 >"$check/N01E001.hgt"
    what="a corner of four tiles, $south_west $south_east $north_west $north_east"
    refused "$what" <<END
refused SeamMismatch row=2 col=2

expected: one height at the cell: ${first%=*}.hgt has ${first#*=}
found: ${other%=*}.hgt has ${other#*=}
END
    refused_object "$what" <<END
refused SeamMismatch row=2 col=2
{"about":"seam","first":{"tile":"${first%=*}.hgt","metres":${first#*=}},"other":{"tile":"${other%=*}.hgt","metres":${other#*=}}}
END
done <<'END'
5 5 6 7 N00E000=5 N01E000=6
5 5 5 7 N00E000=5 N01E001=7
- 5 6 5 N00E001=5 N01E000=6
- 5 - 6 N00E001=5 N01E001=6
7 - 7 6 N00E000=7 N01E001=6
END

# A bad line behind 100,000 others, and one that lists a void.
make_row
heights 5 5 5 5 5 - 5 5 5 >"$check/N00E002.hgt"
{ yes '2 6' | head -n 100000; echo '1 1 1'; } >"$check/sinks.txt"
listed=1 refused 'line 100,001 of sinks, which is bad' <<'END'
refused BadSinkLine 100001

expected: line 100001: a row and a column, such as 12 7
found: line 100001: 1 1 1
END
listed=1 refused_object 'line 100,001 of sinks, which is bad' <<'END'
refused BadSinkLine 100001
{"about":"sink_line","line":100001,"found":"1 1 1","bytes":5}
END
sed -i '$s/.*/1 6/' "$check/sinks.txt"
listed=1 refused 'line 100,001 of sinks, a void' <<'END'
refused SinkNotData 100001

expected: line 100001: a data cell
found: row 1, column 6, a void
END
