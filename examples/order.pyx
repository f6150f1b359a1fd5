(order
Aid 7
?print draft
(item
Asku A1
(qty
-2
)qty
)item
(item
Asku B2
(qty
-5
)qty
)item
)order
