# Installs what users need, of a proved build (rt ci): the programs with their manual pages and completions, the pages, and the
# library for C with its headers and what pkg-config and CMake look for.
#
#   make install [PREFIX=/usr/local] [DESTDIR=]
#   make install UNPROVED=1 ..       makes builds without a proof where no proved ones are; the library's version says so
PREFIX = /usr/local
DESTDIR =
WORDS = PREFIX=$(PREFIX) DESTDIR=$(DESTDIR)

install: programs library

programs:
	.ci/release/install $(WORDS) $(if $(UNPROVED),--unproved)

ifdef UNPROVED
library:
	.ci/build/library-unproved bindings/c/out
	$(MAKE) -C bindings/c install $(WORDS) LIB=out/libflash_c.a UNPROVED=1
else
library:
	cd crates/flash_c && rt lib
	$(MAKE) -C bindings/c install $(WORDS)
endif

.PHONY: install programs library
