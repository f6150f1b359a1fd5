(a
-t
Ax 1
)a
