# make             the library and the text program
# make test        everything: proofs, must-fail edits, hosts, comparison, text cases; the last line is 'N passed, 0 failed'
# make lib         build/libclifford.a, beside include/clifford.h
# make program     build/convert, the text program
# make bench       the benchmark table
# make install     header, archive, pkg-config file and text program, under PREFIX
# make clean       removes what was built

PREFIX ?= /usr/local
VERSION = 1.9.1

.PHONY: all test gate hosts lib program install clean

all: lib program

# The gate's log is kept, so that its last line can be printed last. The hosts run two at a time, once all is built; what each prints stays together.
# Proving takes minutes: tests/proving prints a line for each crate, as it is proved, on standard error.
test: gate
	@$(MAKE) --no-print-directory lib program
	@$(MAKE) --no-print-directory --jobs=2 --output-sync hosts
	@tail -n 1 build/gate.log

gate:
	@sh tests/gate

hosts: reference compare ctest stack pyexample texttest partner

lib: build/libclifford.a

SOURCES = crates.txt $(shell find crates -name out -prune -o \( -name '*.rt' -o -name '*.antt' \) -print)

build/libclifford.a: $(SOURCES)
	@cd crates/clifford_c && ../../tests/proving ../../build/lib.log rt lib
	cp crates/clifford_c/out/libclifford_c.a $@

program: build/convert

# What `rt run` builds stays in out/; it also runs it, here on nothing.
build/convert: $(SOURCES)
	@cd crates/convert && ../../tests/proving ../../build/convert.log rt run < /dev/null
	cp crates/convert/out/convert $@

include host.mk

install: build/libclifford.a build/convert
	install -d $(DESTDIR)$(PREFIX)/include $(DESTDIR)$(PREFIX)/lib/pkgconfig $(DESTDIR)$(PREFIX)/bin
	install -m 644 include/clifford.h $(DESTDIR)$(PREFIX)/include/
	install -m 644 build/libclifford.a $(DESTDIR)$(PREFIX)/lib/
	sed -e 's|@PREFIX@|$(PREFIX)|' -e 's|@VERSION@|$(VERSION)|' clifford.pc.in > $(DESTDIR)$(PREFIX)/lib/pkgconfig/clifford.pc
	install -m 755 build/convert $(DESTDIR)$(PREFIX)/bin/clifford-convert

clean:
	rm -rf build crates/*/out
