# The static libraries that C and Rust callers link (rt lib proves each crate first), and the shared object for Python.
TEXT = $(shell find crates -name out -prune -o \( -name '*.rt' -o -name '*.antt' \) -print)

target/libdimple.so: target/staticlib/libcapi.a
	gcc -shared -o $@ -Wl,--whole-archive target/staticlib/libcapi.a -Wl,--no-whole-archive

target/staticlib/lib%.a: crates.txt $(TEXT)
	cd crates/$* && rt lib
	mkdir -p target/staticlib
	cp crates/$*/out/lib$*.a $@

.PHONY: example libraries
libraries: target/staticlib/libcapi.a target/staticlib/libprobe.a target/staticlib/libguesses.a

example: target/libdimple.so
	python3 python/rank.py
