# Installs, tries and packs the program. `make PROGRAM=FILE ..` takes another program than the one that ./zxopt runs.
#
#   make install [PREFIX=/usr/local] [DESTDIR=]     the program, manual pages, `where` as zxopt-where, documents, examples,
#                                                   the page, and the library for C, which ldconfig finds then; without root's
#                                                   rights PREFIX=$HOME/.local
#   make install-program, install-library           the program with all of the above but the library; the library alone
#   make install-development                        what is needed to compile with it: zxopt.h, zxopt.pc, libzxopt.so, and
#                                                   libzxopt.a where `make library` made it
#   make uninstall [PREFIX=..] [DESTDIR=..]
#   make check                                      all scripts of tests/ but the proofs, on the program at hand
#   make prove                                      the gate: proves everything, and then `make check`'s scripts
#   make release [TO=out/release]                   all that is given to users: archives, .deb, wheel and their sums
#   make library                                    out/libzxopt.a and out/libzxopt.so.1, where the toolchain is and `rt ci`
#                                                   has passed
#   make plain                                      the same program in plain Rust, for cargo: out/plain and an archive

PREFIX = /usr/local
LIBDIR = $(PREFIX)/lib
DESTDIR =
PROGRAM =
ARCHIVE = $(wildcard out/libzxopt.a)
TO = out/release
VERSION = 1.0.0

bin = $(DESTDIR)$(PREFIX)/bin
lib = $(DESTDIR)$(PREFIX)/lib/zxopt
libdir = $(DESTDIR)$(LIBDIR)
include = $(DESTDIR)$(PREFIX)/include
man = $(DESTDIR)$(PREFIX)/share/man/man1
doc = $(DESTDIR)$(PREFIX)/share/doc/zxopt

# ./zxopt takes a program of dist/, or proves and builds it, and tells its file. A file that is given is taken as it is, and
# is no prerequisite, since the name of one may have spaces.
find_program = program="$(PROGRAM)"; [ -n "$$program" ] || program=$$(ZXOPT_PROGRAM=1 ./zxopt) || exit

.PHONY: all install install-program install-library install-development uninstall check prove release library plain

all:
	$(find_program); echo "$$program"

install: install-program install-library install-development

install-program:
	install -d "$(bin)" "$(lib)" "$(man)" "$(doc)/dist" "$(doc)/docs" "$(doc)/examples" "$(doc)/python" "$(doc)/benchmarks"
	$(find_program); install -m 755 "$$program" "$(lib)/zxopt"
	install -m 755 where "$(lib)/where"
	install -m 644 python/zxopt/faults.tsv "$(lib)"
	ln -sf ../lib/zxopt/zxopt "$(bin)/zxopt"
	ln -sf ../lib/zxopt/where "$(bin)/zxopt-where"
	install -m 644 docs/zxopt.1 docs/zxopt-where.1 "$(man)"
	install -m 644 README.md CHANGELOG.md CONTRIBUTING.md LICENSE "$(doc)"
	install -m 644 dist/zxopt.html "$(doc)/dist"
	install -m 644 docs/*.md docs/*.svg docs/*.png "$(doc)/docs"
	install -m 644 python/README.md "$(doc)/python"
	install -m 644 benchmarks/README.md "$(doc)/benchmarks"
	install -m 644 examples/*.qasm examples/*.zx? "$(doc)/examples"

install-library:
	install -d "$(libdir)"
	install -m 644 dist/libzxopt.so.1 "$(libdir)"

install-development:
	install -d "$(libdir)/pkgconfig" "$(include)" "$(doc)/examples/c" "$(doc)/examples/rust"
	ln -sf libzxopt.so.1 "$(libdir)/libzxopt.so"
	[ -z "$(ARCHIVE)" ] || install -m 644 "$(ARCHIVE)" "$(libdir)"
	sed -e 's,@PREFIX@,$(PREFIX),' -e 's,@LIBDIR@,$(LIBDIR),' -e 's,@VERSION@,$(VERSION),' include/zxopt.pc.in \
	    >"$(libdir)/pkgconfig/zxopt.pc"
	chmod 644 "$(libdir)/pkgconfig/zxopt.pc"
	install -m 644 include/zxopt.h "$(include)"
	install -m 644 examples/c/optimise.c "$(doc)/examples/c"
	install -m 644 examples/rust/optimise.rs "$(doc)/examples/rust"

uninstall:
	rm -f "$(bin)/zxopt" "$(bin)/zxopt-where" "$(man)/zxopt.1" "$(man)/zxopt-where.1"
	rm -f "$(libdir)/libzxopt.so.1" "$(libdir)/libzxopt.so" "$(libdir)/libzxopt.a" "$(libdir)/pkgconfig/zxopt.pc"
	rm -f "$(include)/zxopt.h"
	rm -rf "$(lib)" "$(doc)"

check:
	@$(find_program); tests/all "$$program"

prove:
	.ci/run

release:
	@$(find_program); tests/pack "$$program" "$(VERSION)" "$(TO)"

library:
	tools/library out

plain:
	rm -rf out/plain
	python3 tools/plain out/plain --archive out/zxopt-$(VERSION)-plain-rust.tar.gz
