echo SESSION; yes COMMIT | head -n 1048577
