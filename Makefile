# make run: the main job on document 01's example.  make test: the gate.  make bench: speed beside other programs.
# make install PREFIX=/usr/local: the library for C, its header and pkg-config file, and the program.
.PHONY: run test bench install
PREFIX ?= /usr/local

run: target/bin/polashvek
	@printf 'Recipe 10(20), listing 10(30(20)): '
	@target/bin/polashvek <crates/polashvek/stdin

test:
	@bash .ci/run

bench:
	@sh bench/inclusion.sh
	@sh tools/run-c.sh bench/parcels.c parcel_bench
	@sh bench/answer.sh

install: target/staticlib/libhost.a target/bin/polashvek
	@DESTDIR='$(DESTDIR)' sh tools/install.sh '$(PREFIX)'

# A crate's library for C, or a crate's program, proved and written again only where a file of a crate is newer.
sources := crates.txt $(shell find crates -name out -prune -o -type f -print)

target/staticlib/lib%.a: $(sources)
	@sh tools/library.sh $*

target/bin/%: $(sources)
	@sh tools/program.sh $*
