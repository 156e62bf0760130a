# What stands around the library and is not part of it: the reference, the
# hosts that compare the library with it, the text program's cases, the gates of
# document 002 as matrices, and the benchmark. Paths are relative to the root of
# the repository; everything made goes under build/.
#
#   make reference   build the reference and run its own tests
#   make compare     the library against the reference; CALLS= and SEED=
#   make ctest       the C hosts: the example, the guard bytes under valgrind, and
#                    a load, also handed to the text program; TEXT_PROGRAM=
#   make stack       how much stack each call uses, against the header's figure
#   make pyexample   the example over ctypes, against what the C example prints
#   make texttest    the text program; TEXT_PROGRAM=, RUNS= and SEED=
#   make partner     G files and L files against matrices; TEXT_PROGRAM=
#   make bench       the benchmark table; BENCH_MS= and BENCH_KINDS=

CARGO ?= cargo
PYTHON ?= python3
VALGRIND ?= $(shell command -v valgrind)
TEXT_PROGRAM ?= ./convert

# Further libraries that the archive needs, if any.
CLIFFORD_LIBS ?=

HOST_CFLAGS = -std=c99 -pedantic -Wall -Wextra -Werror -O2 -g -Iinclude
HOST_CARGO = $(CARGO) build --quiet --release --offline --target-dir build/cargo
HOST_RUST = CLIFFORD_LIB_DIR=$(CURDIR)/build $(HOST_CARGO) --manifest-path tests/host/Cargo.toml
REFERENCE = --manifest-path tests/reference/Cargo.toml

.PHONY: reference textref compare ctest stack pyexample texttest partner bench

reference: textref
	$(CARGO) test --quiet --offline --target-dir build/cargo $(REFERENCE) --lib

textref:
	$(HOST_CARGO) $(REFERENCE)

compare: build/libclifford.a
	$(HOST_RUST) --bin compare
	build/cargo/release/compare

bench: build/libclifford.a
	$(HOST_RUST) --bin bench
	build/cargo/release/bench

build/example: examples/host.c include/clifford.h build/libclifford.a
	$(CC) $(HOST_CFLAGS) $< build/libclifford.a $(CLIFFORD_LIBS) -o $@

build/guard: tests/host/guard.c include/clifford.h build/libclifford.a
	$(CC) $(HOST_CFLAGS) $< build/libclifford.a $(CLIFFORD_LIBS) -o $@

build/load: examples/load.c include/clifford.h build/libclifford.a
	$(CC) $(HOST_CFLAGS) $< build/libclifford.a $(CLIFFORD_LIBS) -o $@

ctest: build/example build/guard build/load textref
	build/example
	$(if $(VALGRIND),$(VALGRIND) --quiet --error-exitcode=1 --leak-check=full )build/guard
	tests/load/run build/load $(TEXT_PROGRAM)

build/stack: tests/host/stack.c include/clifford.h build/libclifford.a
	$(CC) $(HOST_CFLAGS) $< build/libclifford.a $(CLIFFORD_LIBS) -o $@

stack: build/stack
	build/stack

build/libclifford.so: build/libclifford.a
	$(CC) -shared -Wl,--whole-archive $< -Wl,--no-whole-archive $(CLIFFORD_LIBS) -o $@

pyexample: build/libclifford.so build/example
	build/example > build/example.txt
	$(PYTHON) examples/clifford.py build/libclifford.so | diff build/example.txt -

texttest: textref
	tests/text/run $(TEXT_PROGRAM)

partner:
	$(PYTHON) tests/partner/matrices.py $(TEXT_PROGRAM)
