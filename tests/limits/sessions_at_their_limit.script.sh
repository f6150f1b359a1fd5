yes SESSION | head -n 64
