CMakeFiles/two.dir/build: two
two: two.c gen.h ; cat two.c gen.h > two
gen.h: gen.txt ; cp gen.txt gen.h
.PHONY: CMakeFiles/two.dir/build
