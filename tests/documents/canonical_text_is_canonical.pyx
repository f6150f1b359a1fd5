(a
Ax 1
-pq\n
)a
