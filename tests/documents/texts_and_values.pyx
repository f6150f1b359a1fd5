-top
(a
Ax
Ay b c
?t
?u v w
-\ta\\b\x
-
)a
