# make            proves and builds the program (./pipapo --build) and the library for C (c/build)
# make check      proves and tests everything (./prove)
# make install    installs both below PREFIX, in DESTDIR if that is given: the program, its manual page and its completions;
#                 the library's headers, archive, shared library and pkg-config file, and its Python module
# make uninstall  removes exactly the files that `make install` installs
# make clean      removes all that was built, with the work that checks of the toolchain kept
#
# The targets program, install-program and uninstall-program are the same for the program alone, and those of c/Makefile for the
# library alone.
PREFIX = /usr/local
DESTDIR =
bindir = $(PREFIX)/bin
mandir = $(PREFIX)/share/man/man1
bashdir = $(PREFIX)/share/bash-completion/completions
zshdir = $(PREFIX)/share/zsh/site-functions
fishdir = $(PREFIX)/share/fish/vendor_completions.d
INSTALL = install

.PHONY: all program library check install install-program install-library uninstall uninstall-program uninstall-library clean

all: program library

program:
	./pipapo --build

library:
	$(MAKE) -C c PREFIX="$(PREFIX)"

check:
	./prove

install: install-program install-library

install-library:
	$(MAKE) -C c install PREFIX="$(PREFIX)" DESTDIR="$(DESTDIR)"

install-program: program
	$(INSTALL) -d "$(DESTDIR)$(bindir)" "$(DESTDIR)$(mandir)" "$(DESTDIR)$(bashdir)" "$(DESTDIR)$(zshdir)" "$(DESTDIR)$(fishdir)"
	$(INSTALL) -m 755 crates/pipapo_cli/out/pipapo_cli "$(DESTDIR)$(bindir)/pipapo"
	$(INSTALL) -m 644 docs/pipapo.1 "$(DESTDIR)$(mandir)/pipapo.1"
	$(INSTALL) -m 644 docs/completions/pipapo.bash "$(DESTDIR)$(bashdir)/pipapo"
	$(INSTALL) -m 644 docs/completions/_pipapo "$(DESTDIR)$(zshdir)/_pipapo"
	$(INSTALL) -m 644 docs/completions/pipapo.fish "$(DESTDIR)$(fishdir)/pipapo.fish"

uninstall: uninstall-program uninstall-library

uninstall-library:
	$(MAKE) -C c uninstall PREFIX="$(PREFIX)" DESTDIR="$(DESTDIR)"

uninstall-program:
	rm -f "$(DESTDIR)$(bindir)/pipapo" "$(DESTDIR)$(mandir)/pipapo.1" "$(DESTDIR)$(bashdir)/pipapo" \
	    "$(DESTDIR)$(zshdir)/_pipapo" "$(DESTDIR)$(fishdir)/pipapo.fish"

clean:
	rm -rf crates/*/out c/out
