awk 'BEGIN { for (i = 0; i < 513; i++) print "(a" }'
