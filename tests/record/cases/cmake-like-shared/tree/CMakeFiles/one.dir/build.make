CMakeFiles/one.dir/build: one
one: one.c gen.h ; cat one.c gen.h > one
gen.h: gen.txt ; cp gen.txt gen.h
.PHONY: CMakeFiles/one.dir/build
