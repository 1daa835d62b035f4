# make           build/libpakzid.a, build/pakzid.h and build/pakzid.pc
# make test      the whole gate: C tests, example, proofs, must-fail edits, programs (bash .ci/run)
# make run       the report of an example level (the program replay)
# make reports   the reports of replay on random and on wrong lists, compared with a program in C
# make bench     times against the C reference and a baseline in C, and times under several tunings, on standard output
# make install   library, header and pkg-config file to PREFIX (with DESTDIR before it)

PREFIX ?= /usr/local
DESTDIR ?=
VERSION := 0.1.0
ROUNDS ?= 300

reference := tests/reference

all: build/libpakzid.a build/pakzid.h build/pakzid.pc

# rt itself knows whether anything has to be built again.
build/libpakzid.a: FORCE | build
	bash tests/build.sh archive

build/pakzid.h: include/pakzid.h | build
	cp include/pakzid.h $@

# Made anew each time, because PREFIX may be another.
build/pakzid.pc: pakzid.pc.in FORCE | build
	sed -e 's|@PREFIX@|$(PREFIX)|' -e 's|@VERSION@|$(VERSION)|' pakzid.pc.in > $@

build build/bench:
	mkdir -p $@

test:
	bash .ci/run

run:
	bash tests/build.sh replay
	build/bin/replay examples/trials.calls

reports:
	bash tests/replay/run.sh

build/bench/bench: $(reference)/bench.c $(reference)/reference.c $(reference)/baseline.c build/libpakzid.a | build/bench
	gcc -std=c11 -O2 -Wall -Wextra -I include -I $(reference) -o $@ $^

build/bench/tuning: $(reference)/tuning.c build/libpakzid.a | build/bench
	gcc -std=c11 -O2 -Wall -Wextra -I include -o $@ $^

bench: build/bench/bench build/bench/tuning
	build/bench/bench $(ROUNDS)
	build/bench/tuning $(ROUNDS)

install: all
	mkdir -p $(DESTDIR)$(PREFIX)/lib/pkgconfig $(DESTDIR)$(PREFIX)/include
	install -m 644 build/libpakzid.a $(DESTDIR)$(PREFIX)/lib/libpakzid.a
	install -m 644 build/pakzid.h $(DESTDIR)$(PREFIX)/include/pakzid.h
	install -m 644 build/pakzid.pc $(DESTDIR)$(PREFIX)/lib/pkgconfig/pakzid.pc

FORCE:

.PHONY: all test run reports bench install FORCE
