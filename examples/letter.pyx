(letter
Alang en
(greeting
-Dear reader,
)greeting
(body
-Names may be in any script: (Ελλάδα
-) stands in a text as it is.\n
-A tab is \t, a backslash \\.
)body
)letter
