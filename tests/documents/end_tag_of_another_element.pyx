(a
(b
)a
