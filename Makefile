# The C side: the archive with its header; the bench, the example and the benchmark on it; the comparisons with the second program.
# Everything is built below build/. On x86-64 with the machine's compiler, elsewhere with a cross compiler and an emulator.
PREFIX = /usr/local
CFLAGS = -std=c99 -Wall -Wextra -pedantic -O2
SEED = 1
CALLS = 100000
COUNT = 5000
MINUTES = 60
LINES = 10000000
# 'make cuts ALL=1' and 'make compare PART=20' say what to cut and to play; nothing in the environment does.
ALL =
PART =
# The program that plays listings, where it has been built. On x86-64 it runs as it is, elsewhere under an emulator.
DSPCOL = $(CURDIR)/crates/dspcol/out/dspcol

all: archive

archive: build/libdsp48e2.a build/dsp48e2.h

build/libdsp48e2.a: crates.txt $(wildcard crates/*/src/*.rt)
	cd crates/dsp48e2 && rt lib
	mkdir -p build
	cp crates/dsp48e2/out/libdsp48e2.a $@

build/dsp48e2.h: include/dsp48e2.h
	scripts/check-header
	mkdir -p build
	cp include/dsp48e2.h $@

# libdsp48e2.a, its header and a pkg-config file under PREFIX; the version is the header's.
install: archive
	mkdir -p $(DESTDIR)$(PREFIX)/lib/pkgconfig $(DESTDIR)$(PREFIX)/include
	cp build/libdsp48e2.a $(DESTDIR)$(PREFIX)/lib/
	cp build/dsp48e2.h $(DESTDIR)$(PREFIX)/include/
	version=$$(sed -n 's/^#define DSP_VERSION_M[A-Z]* //p' build/dsp48e2.h | paste -s -d . -) && \
	printf 'prefix=%s\nName: dsp48e2\nDescription: a column of DSP48E2 slices, clock by clock\nVersion: %s\nLibs: -L$${prefix}/lib -ldsp48e2\nCflags: -I$${prefix}/include\n' \
	    '$(PREFIX)' "$$version" > $(DESTDIR)$(PREFIX)/lib/pkgconfig/dsp48e2.pc

# Every form that the scope names, where docs/DECISIONS.md says.
forms:
	scripts/check-forms

# The header as C99 and as C++17 without a warning.
header: include/dsp48e2.h
	scripts/check-header
	printf '#include "dsp48e2.h"\n' | cc -std=c99 -Wall -Wextra -pedantic -Werror -Iinclude -fsyntax-only -x c -
	printf '#include "dsp48e2.h"\n' | c++ -std=c++17 -Wall -Wextra -pedantic -Werror -Iinclude -fsyntax-only -x c++ -

build/bench: bench/bench.c bench/carry.c bench/packed.c bench/preaddwrap.c bench/why.c bench/bench.h model/column.c model/column.h build/libdsp48e2.a build/dsp48e2.h
	scripts/x86-64 cc $(CFLAGS) -Ibuild -Imodel -o $@ bench/bench.c bench/carry.c bench/packed.c bench/preaddwrap.c bench/why.c model/column.c build/libdsp48e2.a

# Every call on the real archive, and CALLS random clocks and whys against the plain model.
bench: build/bench
	scripts/x86-64 run build/bench $(SEED) $(CALLS)

build/why: examples/why.c build/libdsp48e2.a build/dsp48e2.h
	scripts/x86-64 cc $(CFLAGS) -Ibuild -o $@ examples/why.c build/libdsp48e2.a

# The example in C prints what it must, byte for byte.
example-why: build/why
	scripts/x86-64 run build/why > build/why.out
	cmp build/why.out examples/why.out

# Every example: the one in C, and the listings by dspcol and by the second program.
examples: example-why dspcol-built
	DSPCOL='$(DSPCOL)' scripts/examples

# The model's reader of calls, answered by the archive instead of the model.
build/calls: model/calls.c model/column.h build/libdsp48e2.a
	scripts/x86-64 cc $(CFLAGS) -Imodel -Dcolumn_adder=dsp_adder -Dcolumn_clock=dsp_clock -Dcolumn_why=dsp_why \
	    -Dcolumn_clear=dsp_clear -Dcolumn_packed=dsp_packed_clocked -Dcolumn_plain=dsp_packed_plain \
	    -o $@ model/calls.c build/libdsp48e2.a

build/answer: build/calls
	printf '#!/bin/sh\nexec "%s/scripts/x86-64" run "%s/build/calls"\n' '$(CURDIR)' '$(CURDIR)' > $@
	chmod +x $@

# Swept and random calls, answered by the archive and by the second program.
compare-calls: build/answer
	CALLS=build/answer compare/calls $(SEED)

# Tools of this machine: they write listings, time a command, play listings, drive a program clock by clock.
build/long-listing: bench/long-listing.c bench/scene.c bench/scene.h include/dsp48e2.h
	mkdir -p build
	$(CC) $(CFLAGS) -Iinclude -o $@ bench/long-listing.c bench/scene.c

build/timed: bench/timed.c
	mkdir -p build
	$(CC) $(CFLAGS) -D_DEFAULT_SOURCE -o $@ bench/timed.c

build/play: compare/play.c
	mkdir -p build
	$(CC) $(CFLAGS) -D_GNU_SOURCE -o $@ compare/play.c

build/interactive build/first-match build/cuts: build/%: bench/%.c bench/piped.c bench/piped.h
	mkdir -p build
	$(CC) $(CFLAGS) -D_GNU_SOURCE -o $@ $< bench/piped.c

# dspcol proved and built, where its crate is and it is not.
dspcol-built:
	[ -x '$(DSPCOL)' ] || [ ! -d crates/dspcol ] || { cd crates/dspcol && rt run </dev/null >/dev/null; }

# The plain C sides of the benchmark, compiled alike.
build/listing: model/listing.c model/column.c model/column.h
	mkdir -p build
	scripts/x86-64 cc $(CFLAGS) -o $@ model/listing.c model/column.c

# The same C by the kit's clang at -O3, which compiles the archive too. It has no headers of its own, and links nothing here.
KIT_CLANG := $(shell scripts/x86-64 kit-clang)
KIT_CC = $(KIT_CLANG) $(CFLAGS) -O3 -isystem "$$($(CC) -print-file-name=include)"
KIT_SIDE = $(if $(KIT_CLANG),build/kit-side.o)

build/kit-side.o: model/column.c model/column.h
	mkdir -p build
	$(KIT_CC) $(foreach name,adder check_count check_attributes clock why clear packed plain,-Dcolumn_$(name)=kit_$(name)) -c -o $@ model/column.c

build/listing-kit: model/listing.c model/column.c model/column.h
	mkdir -p build
	$(KIT_CC) -c -o build/kit-listing.o model/listing.c
	$(KIT_CC) -c -o build/kit-column.o model/column.c
	$(CC) -o $@ build/kit-listing.o build/kit-column.o

build/benchmark: bench/benchmark.c bench/scene.c bench/scene.h model/column.c model/column.h build/libdsp48e2.a build/dsp48e2.h $(KIT_SIDE)
	scripts/x86-64 cc $(CFLAGS) -D_DEFAULT_SOURCE $(if $(KIT_SIDE),-DKIT_SIDE) -Ibuild -Imodel -o $@ bench/benchmark.c bench/scene.c \
	    model/column.c $(KIT_SIDE) build/libdsp48e2.a

# The archive and dspcol against plain C; writes docs/BENCHMARKS.md and docs/cost.svg.
benchmark: build/benchmark build/listing $(if $(KIT_CLANG),build/listing-kit) build/long-listing build/timed dspcol-built
	DSPCOL='$(DSPCOL)' scripts/benchmark

# LINES lines through dspcol, with all that they print and to a first match, and its peak memory; adds them to docs/BENCHMARKS.md.
soak: build/long-listing build/timed dspcol-built
	DSPCOL='$(DSPCOL)' scripts/soak $(LINES)

# COUNT random listings and all swept ones, played by dspcol and by the second program. With PART=n only those that the
# coverage needs, and one in n of the others.
compare: dspcol-built
	DSPCOL='$(DSPCOL)' PART='$(PART)' compare/run $(SEED) $(COUNT)

# The second program's own tests.
second-tests:
	cargo test --quiet --offline --manifest-path second/Cargo.toml --target-dir second/target

# Listings and calls, seed after seed.
compare-long: build/answer dspcol-built
	DSPCOL='$(DSPCOL)' CALLS=build/answer compare/long $(MINUTES)

# Each slip of compare/planted/, planted in a copy of the product: the comparison must find it.
planted:
	scripts/planted

# dspcol driven clock by clock, to its first match too, and its failed reads and writes.
interactive: build/interactive build/first-match build/long-listing dspcol-built
	DSPCOL='$(DSPCOL)' scripts/interactive

# Listings cut into pieces at many places, with ALL=1 in two at every byte; and one whose output is longer than any buffer.
cuts: build/cuts dspcol-built
	DSPCOL='$(DSPCOL)' SEED='$(SEED)' ALL='$(ALL)' scripts/cuts
	DSPCOL='$(DSPCOL)' scripts/long-output

clean:
	rm -rf build

.PHONY: all archive install forms header bench example-why examples dspcol-built benchmark soak compare compare-calls compare-long second-tests planted interactive cuts clean
