(a
Ax 1
Ay 2
Ax 3
)a
