one: two ; touch one
