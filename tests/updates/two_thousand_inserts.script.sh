# 2,000 inserts before one node; then how many came, and which node stands last.
printf '%s\n' SESSION BEGIN "LOAD 'd'" '(a' '(x' ')x' ')a' .
yes "UPDATE insert element y {} preceding doc('d')/a/x" | head -n 2000
printf '%s\n' "count(doc('d')/a/y)" "name(doc('d')/a/node()[last()])" "count(doc('d')/a/x)" COMMIT
