# lvl: a layout versus layout comparator that can be believed.
PREFIX ?= /usr/local
PROGRAM := crates/lvl_cli
NEEDS_RT = command -v rt >/dev/null 2>&1 || { echo "make: rt (the Rattle toolchain) is not on the PATH" >&2; exit 2; }

SOURCES := crates.txt $(shell find crates -path '*/out' -prune -o -type f \( -name '*.rt' -o -name '*.antt' \) -print)

.PHONY: all check growths random klayout dist install clean

# Proves and builds the program, and leaves it as bin/lvl.
all: bin/lvl

bin/lvl: $(SOURCES)
	@$(NEEDS_RT)
	@.ci/build

# The gate: every proof, the edits that must be refused, the tests, and the program on what no contract says.
check:
	@$(NEEDS_RT)
	@rm -rf bin/.crates
	@.ci/check

# Each allocation refused in turn, to the tests and the program that the gate has built.
growths:
	@$(NEEDS_RT)
	@.ci/growths

# Files made at random, for about a minute: the answers against those of a raster and of a second implementation.
# SEED=N makes the same ones again. Not part of the gate.
SEED ?= $(shell date +%s)
random:
	@test -x bin/lvl || { echo "make random: bin/lvl is missing: run make first" >&2; exit 2; }
	@echo "make random: the seed is $(SEED)"
	@tools/pairs.py --count 300 --seed $(SEED)
	@tools/pairs.py --count 150 --seed $(SEED) --mutate
	@tools/pairs.py --count 100 --seed $(SEED) --why
	@tools/damage.py --count 200 --seed $(SEED)
	@tools/damage.py --count 200 --seed $(SEED) --format oas --blocks
	@tools/packed.py --count 50 --seed $(SEED)
	@tools/digests.py --count 10 --seed $(SEED)
	@tools/heads.py --count 100 --seed $(SEED)
	@tools/placed.py --count 200 --seed $(SEED)

# A hierarchy that KLayout writes as GDSII and as OASIS, compared. Not part of the gate.
klayout:
	@command -v klayout >/dev/null 2>&1 || { echo "make klayout: klayout is not on the PATH" >&2; exit 2; }
	@test -x bin/lvl || { echo "make klayout: bin/lvl is missing: run make first" >&2; exit 2; }
	@contrib/klayout/try

# An archive and a Debian package of what make built, for machines without the toolchain.
dist:
	@command -v dpkg-deb >/dev/null 2>&1 || { echo "make dist: dpkg-deb is not on the PATH" >&2; exit 2; }
	@command -v objdump >/dev/null 2>&1 || { echo "make dist: objdump is not on the PATH" >&2; exit 2; }
	@test -x bin/lvl || { echo "make dist: bin/lvl is missing: run make first" >&2; exit 2; }
	@contrib/dist

# DOCDIR and ZSHDIR are where the documents and the completion for zsh go.
DOCDIR ?= $(PREFIX)/share/doc/lvl
ZSHDIR ?= $(PREFIX)/share/zsh/site-functions
install:
	@test -x bin/lvl || { echo "make install: bin/lvl is missing: run make first" >&2; exit 2; }
	install -D -m 755 bin/lvl $(DESTDIR)$(PREFIX)/bin/lvl
	install -D -m 644 contrib/man/lvl.1 $(DESTDIR)$(PREFIX)/share/man/man1/lvl.1
	install -D -m 644 contrib/completions/lvl.bash $(DESTDIR)$(PREFIX)/share/bash-completion/completions/lvl
	install -D -m 644 contrib/completions/_lvl $(DESTDIR)$(ZSHDIR)/_lvl
	install -D -m 644 contrib/completions/lvl.fish $(DESTDIR)$(PREFIX)/share/fish/vendor_completions.d/lvl.fish
	install -d $(DESTDIR)$(DOCDIR)/docs $(DESTDIR)$(DOCDIR)/examples $(DESTDIR)$(DOCDIR)/contrib/klayout
	install -m 644 README.md SECURITY.md CHANGELOG.md LICENSE $(DESTDIR)$(DOCDIR)
	install -m 644 docs/*.md docs/*.png $(DESTDIR)$(DOCDIR)/docs
	install -m 644 examples/*.md examples/*.gds examples/*.oas $(DESTDIR)$(DOCDIR)/examples
	install -m 644 contrib/klayout/lvl.lym contrib/klayout/picture.py $(DESTDIR)$(DOCDIR)/contrib/klayout

clean:
	rm -rf bin dist crates/*/out
