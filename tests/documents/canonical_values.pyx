(a
Ax 1
-p
-q\n
)a
