awk 'BEGIN { for (i = 0; i < 512; i++) print "(a"; for (i = 0; i < 512; i++) print ")a" }'
