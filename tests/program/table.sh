# The command lines of table.txt. Read by part.sh.

while IFS='|' read -r name input words status line errors; do
    case $name in '' | \#*) continue ;; esac
    read -r -a asked <<<"$words"
    want "$line"
    timeout "$patience" "$drain" "${asked[@]}" <"$input" >"$scratch/out" 2>"$scratch/err"
    judge "$name" "$status" "$scratch/want" $? "$errors"
done < <(sed -E 's/ *\| */|/g; s/^ +| +$//g' "$here/table.txt")
