.PHONY: help run program install uninstall dist test gate edits toolchain
.DEFAULT_GOAL := help
.DELETE_ON_ERROR:

PREFIX ?= /usr/local
program = crates/polcert/out/polcert
bound = crates/polcert_bound/out/polcert_bound
robust = crates/polcert_robust_program/out/polcert_robust_program
names = polcert polcert_bound polcert_robust
unproved = build/programs-unproved
bindir = $(DESTDIR)$(PREFIX)/bin
mandir = $(DESTDIR)$(PREFIX)/share/man/man1
sharedir = $(DESTDIR)$(PREFIX)/share/polcert
docdir = $(DESTDIR)$(PREFIX)/share/doc/polcert
bashdir = $(DESTDIR)$(PREFIX)/share/bash-completion/completions
zshdir = $(DESTDIR)$(PREFIX)/share/zsh/site-functions
folders = bindir="$(bindir)" mandir="$(mandir)" sharedir="$(sharedir)" docdir="$(docdir)" bashdir="$(bashdir)" zshdir="$(zshdir)"
tiger = check examples/tiger.POMDP examples/tiger.pg examples/tiger.lowered.alpha
sources = crates.txt $(shell find crates -name '*.rt' -path '*/src/*')

help: ## list the targets
	@sed -n 's/^\([a-z]*\):.*## \(.*\)/make \1\t\2/p' $(MAKEFILE_LIST) | expand -t 16

run: $(unproved) ## first answer in minutes: build the programs unproved and check a shipped model
	@mkdir -p build/unproved
	@for name in $(names); do ln -sf ../programs-unproved build/unproved/$$name; done
	@build/unproved/polcert $(tiger)
	@echo 'The programs in build are not proved, and slow (make program builds the proved ones). To try them and the scripts:' >&2
	@echo 'export PATH="$(CURDIR)/build/unproved:$(CURDIR)/scripts:$$PATH"' >&2

$(unproved): $(sources) | toolchain
	@echo 'Building the programs without proofs, about two minutes.' >&2
	@mkdir -p build
	@tools/build-unproved $@

toolchain:
	@command -v rt > /dev/null || { echo 'rt, the command of the Rattle toolchain, is not on the path: see Install in README.md' >&2; exit 1; }

program: toolchain ## prove and build the programs, and check a shipped model with polcert
	@tools/prove-program $(tiger)

install: ## install the proved programs, the scripts and the pages below PREFIX (/usr/local), under DESTDIR
	@tools/is-proved "$(program)"
	@tools/is-proved "$(bound)"
	@tools/is-proved "$(robust)"
	@$(folders) tools/installation put "$(program)" "$(bound)" "$(robust)"

uninstall: ## remove what install put there
	@$(folders) tools/installation take

dist: ## make an archive of the proved programs, the scripts, the pages and their checksums
	@tools/make-dist "$(program)" "$(bound)" "$(robust)"

test: ## run each test and each case in minutes, before any proof; last line: N passed, M failed
	@tests/run test

gate: ## prove everything, try the must-fail edits, run all tests and cases; last line: N passed, M failed
	@tests/run gate

edits: ## try the wrong bodies of tests/edits, those of CRATES='NAME ..' or all; last line: N passed, M failed
	@tests/try-edits $(CRATES)
