# The program is built by the kit (`rt`), which proves it first; this says the few commands by their usual names.

PREFIX ?= /usr/local
PROGRAM ?= crates/euler_align/out/euler_align
DESK ?= crates/euler_desk/out/euler_desk
VERSION = $(shell cat VERSION)
SHARE = $(DESTDIR)$(PREFIX)/share

.PHONY: all check pages tools install install-desk uninstall dist deb completions

# Proves all and builds the programs. From nothing it takes far over an hour; `rt run` in their folders, crate after crate, takes longer.
all:
	@command -v rt >/dev/null || { echo "make: rt is not on the path; it comes with the kit that README.md names" >&2; exit 1; }
	rt ci
	@echo "built: $(PROGRAM); make install PREFIX=.. puts it into PREFIX/bin"

# The gate: the same, and then the built programs are tried from outside.
check:
	rt ci
	tests/all.sh --quick

# What the pages show, and the tools: no proof.
pages:
	python3 tests/documents.py

tools:
	for test in tools/test_*.py; do python3 $$test || exit 1; done

# The completions, and the lists of the manual pages, from completions/keys.txt.
completions:
	completions/generate

install:
	@test -x $(PROGRAM) || { echo "make: there is no $(PROGRAM); run make first" >&2; exit 1; }
	install -D -m 755 $(PROGRAM) $(DESTDIR)$(PREFIX)/bin/euler_align
	install -D -m 644 man/euler_align.1 $(SHARE)/man/man1/euler_align.1
	install -D -m 644 completions/euler_align.bash $(SHARE)/bash-completion/completions/euler_align
	install -D -m 644 completions/_euler_align $(SHARE)/zsh/site-functions/_euler_align
	install -D -m 644 completions/euler_align.fish $(SHARE)/fish/vendor_completions.d/euler_align.fish
	@if [ -x $(DESK) ]; then $(MAKE) -s install-desk; else echo "make: there is no $(DESK), so it is not installed"; fi

# The desk, which is a program of its own.
install-desk:
	install -D -m 755 $(DESK) $(DESTDIR)$(PREFIX)/bin/euler_desk
	install -D -m 644 man/euler_desk.1 $(SHARE)/man/man1/euler_desk.1
	install -D -m 644 completions/euler_desk.bash $(SHARE)/bash-completion/completions/euler_desk
	install -D -m 644 completions/_euler_desk $(SHARE)/zsh/site-functions/_euler_desk
	install -D -m 644 completions/euler_desk.fish $(SHARE)/fish/vendor_completions.d/euler_desk.fish

uninstall:
	for name in euler_align euler_desk; do \
	  rm -f $(DESTDIR)$(PREFIX)/bin/$$name $(SHARE)/man/man1/$$name.1 $(SHARE)/bash-completion/completions/$$name \
	    $(SHARE)/zsh/site-functions/_$$name $(SHARE)/fish/vendor_completions.d/$$name.fish; \
	done

# The sources that are committed, as packaging/out/euler_align-VERSION.tar.gz.
dist:
	@git rev-parse --is-inside-work-tree >/dev/null 2>&1 || { echo "make: dist packs what git has; this is no clone" >&2; exit 1; }
	mkdir -p packaging/out
	git archive --format=tar.gz --prefix=euler_align-$(VERSION)/ -o packaging/out/euler_align-$(VERSION).tar.gz HEAD
	@echo "made: packaging/out/euler_align-$(VERSION).tar.gz"

# A Debian package of the built program with its tools and pages, as packaging/out/euler-align_VERSION_ARCHITECTURE.deb.
deb:
	DESK=$(DESK) packaging/deb $(PROGRAM)
