# For those who link the library or run the programs; each target calls what README shows.
#
#     make            proves every crate, builds the programs (target/bin) and the library (target/staticlib)
#     make lib        the library alone
#     make install    copies what is built: header, library, ofec.pc and programs, to PREFIX (under DESTDIR, if given)
#     make uninstall  removes it again
#     make test       the gate: every proof, every test
#     make bench      the times of docs/BENCHMARKS.md

PREFIX = /usr/local
DESTDIR =
BINDIR = $(PREFIX)/bin
INCLUDEDIR = $(PREFIX)/include
LIBDIR = $(PREFIX)/lib

RT = rt
CARGO = cargo
INSTALL = install

PROGRAMS = $(patsubst crates/%/src/main.rt,%,$(wildcard crates/*/src/main.rt))
VERSION = $(shell sed -n 's/^.define OFEC_VERSION "\(.*\)"/\1/p' include/ofec.h)
BUILT = target/staticlib/libcapi.a $(PROGRAMS:%=target/bin/%)

export RT

all: prove programs lib

prove:
	$(RT) all check

programs:
	bash .ci/build programs

lib:
	bash .ci/build library

test:
	bash .ci/run

bench: all
	cd tests && $(CARGO) run --release --bin bench

# Builds nothing, so that it may be run as another user than the one who built.
install:
	@for file in $(BUILT); do test -f "$$file" || { echo "$$file is missing: run 'make' first" >&2; exit 1; }; done
	$(INSTALL) -d "$(DESTDIR)$(BINDIR)" "$(DESTDIR)$(INCLUDEDIR)" "$(DESTDIR)$(LIBDIR)/pkgconfig"
	$(INSTALL) -m 644 include/ofec.h "$(DESTDIR)$(INCLUDEDIR)/ofec.h"
	$(INSTALL) -m 644 target/staticlib/libcapi.a "$(DESTDIR)$(LIBDIR)/libcapi.a"
	@printf '%s\n' 'prefix=$(PREFIX)' 'includedir=$(INCLUDEDIR:$(PREFIX)/%=$${prefix}/%)' \
	  'libdir=$(LIBDIR:$(PREFIX)/%=$${prefix}/%)' '' 'Name: ofec' 'Description: Verified reference for the oFEC optical line (16-QAM and QPSK)' \
	  'Version: $(VERSION)' 'Cflags: -I$${includedir}' 'Libs: -L$${libdir} -lcapi' > "$(DESTDIR)$(LIBDIR)/pkgconfig/ofec.pc"
	$(INSTALL) -m 755 $(PROGRAMS:%=target/bin/%) $(wildcard bin/ofec) "$(DESTDIR)$(BINDIR)"

uninstall:
	rm -f $(PROGRAMS:%="$(DESTDIR)$(BINDIR)/%") "$(DESTDIR)$(BINDIR)/ofec" "$(DESTDIR)$(INCLUDEDIR)/ofec.h" \
	  "$(DESTDIR)$(LIBDIR)/libcapi.a" "$(DESTDIR)$(LIBDIR)/pkgconfig/ofec.pc"

.PHONY: all prove programs lib test bench install uninstall
