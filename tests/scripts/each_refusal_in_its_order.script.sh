# One call for each refusal of a text, in the order of the tests, each with what a later test would refuse too; then a good one.
cat <<'SCRIPT'
SESSION
BEGIN
SCRIPT
head -c 65537 /dev/zero | tr '\0' '('
echo
echo "'"
head -c 65 /dev/zero | tr '\0' '('
printf 1
head -c 65 /dev/zero | tr '\0' ')'
echo
cat <<'SCRIPT'
1 +
doc('') +
DROP DOCUMENT ''
(doc(''), foo(1), $x)
foo(1)
(foo(1), $x)
$x
1 + 1
COMMIT
SCRIPT
