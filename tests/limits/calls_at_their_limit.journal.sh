yes '1 error NoTransaction' | head -n 1048576
