x/a
