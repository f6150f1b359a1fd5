yes SESSION | head -n 65
