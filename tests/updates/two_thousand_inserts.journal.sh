printf '%s\n' '1 began update' "1 granted 'd' X" '1 done'
yes "1 granted 'd' X
1 done" | head -n 4000
printf '%s\n' "1 granted 'd' S" '1 answer 1' '=2000' "1 granted 'd' S" '1 answer 1' '=x' "1 granted 'd' S" '1 answer 1' '=1' '1 committed 1'
