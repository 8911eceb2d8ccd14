# The package for programs in C, C++ and Rust.
#
#   make                       builds the archive, if it is missing or older than its sources
#   make install PREFIX=DIR    puts headers, archive, pkg-config and CMake files into DIR, by default /usr/local; DESTDIR goes before DIR
#   make uninstall PREFIX=DIR  removes them
#   make check                 runs the whole test, ./test.sh; make test does too
#   make clean                 removes the archive and what install generated; what rt knows of the proofs stays
#   make help                  says this
#
# LIBDIR is the folder of the archive, by default PREFIX/lib; it may be given relative to PREFIX, as lib64 or lib/x86_64-linux-gnu.

# No rules but those below: make's own would write a file test from test.sh.
MAKEFLAGS += --no-builtin-rules
.SUFFIXES:

PREFIX ?= /usr/local
LIBDIR ?= lib

libdir := $(if $(filter /%,$(LIBDIR)),$(LIBDIR),$(PREFIX)/$(LIBDIR))
include_to = $(DESTDIR)$(PREFIX)/include
lib_to = $(DESTDIR)$(libdir)
headers := package/include/gedrovit.h package/include/gedrovit.hpp
version := $(shell sed -n 's/^.define GEDROVIT_VERSION "\(.*\)"$$/\1/p' package/include/gedrovit.h)
archive := crates/capi/out/libcapi.a
# the archive's crate and all crates under it
crates := $(shell awk -F: -f tools/crates_under.awk -v top=capi crates.txt)
sources := crates.txt $(shell find $(foreach crate,$(crates),$(wildcard crates/$(crate)/src crates/$(crate)/specs crates/$(crate)/proofs)) -type f)

all: $(archive)

$(archive): $(sources)
	@command -v rt >/dev/null || { echo "make: the archive is built by the Rattle kit, whose command rt was not found; kit.txt has the kit's name and checksum" >&2; exit 1; }
	@echo "building $@: the proofs are checked first, which takes long the first time" >&2
	cd crates/capi && rt lib

# The files find the headers from their own place, so that the installed tree can be moved.
target/package/%: package/%.in always
	@mkdir -p $(@D)
	sed -e 's/@VERSION@/$(version)/' -e 's|@INCLUDE@|$(shell realpath -ms --relative-to="$(libdir)" "$(PREFIX)/include")|' $< >$@

install: $(archive) target/package/gedrovit.pc target/package/gedrovit-config.cmake target/package/gedrovit-config-version.cmake
	install -D -m 644 -t "$(include_to)" $(headers)
	install -D -m 644 $(archive) "$(lib_to)/libgedrovit.a"
	install -D -m 644 target/package/gedrovit.pc "$(lib_to)/pkgconfig/gedrovit.pc"
	install -D -m 644 -t "$(lib_to)/cmake/gedrovit" target/package/gedrovit-config.cmake target/package/gedrovit-config-version.cmake

uninstall:
	rm -f "$(include_to)/gedrovit.h" "$(include_to)/gedrovit.hpp" "$(lib_to)/libgedrovit.a" "$(lib_to)/pkgconfig/gedrovit.pc"
	rm -rf "$(lib_to)/cmake/gedrovit"

check test:
	./test.sh

help:
	@sed -n 's/^#   //p; s/^# \(LIBDIR\)/\1/p' Makefile

clean:
	rm -rf target/package $(archive)

always:

.PHONY: all install uninstall check test help clean always
.DELETE_ON_ERROR:
