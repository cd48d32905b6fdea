# `build`, `demo`, `try` and `check` need the Rattle toolchain's command `rt` on the PATH; these, `test` and `bench` need python3.
# `install`, `uninstall` and `dist` need only common commands, and `dist` also strip.

PREFIX ?= /usr/local
DESTDIR ?=
# Where `dist` puts its file.
DIST ?= $(CURDIR)/out
# As words of the environment they may hold any byte.
export PREFIX DESTDIR DIST
PROGRAM = crates/cbpf/out/cbpf

# The one place of the version, and that of its date.
VERSION = $(shell sed -n 's/^const VERSION: &str = "\(.*\)";$$/\1/p' crates/cbpf_command_line/src/parse.rt)
RELEASED = $(shell sed -n 's/^## $(VERSION), //p' CHANGES.md)
# A version between releases, such as 1.1.0-dev, has the date of the release before it.
DATE = $(or $(RELEASED),$(if $(filter %-dev,$(VERSION)),$(shell sed -n 's/^## [0-9.]*, //p' CHANGES.md | head -n 1)))
# Whether there are changes after the last release.
NEXT = $(shell sed -n '/^## Next/,/^## [0-9]/{/^- /s/.*/changes/p;}' CHANGES.md | head -n 1)
PACKAGE = cbpf-$(VERSION)-x86_64-linux

# What `install` puts into PREFIX, beside the program: a mode, a file, and its place.
define FILES
755 tools/cbpf-shell bin/cbpf-shell
755 tools/cbpf-transcript bin/cbpf-transcript
644 man/cbpf.1 share/man/man1/cbpf.1
644 man/cbpf-shell.1 share/man/man1/cbpf-shell.1
644 man/cbpf-transcript.1 share/man/man1/cbpf-transcript.1
644 completion/cbpf.bash share/bash-completion/completions/cbpf
644 completion/_cbpf share/zsh/site-functions/_cbpf
644 completion/cbpf.fish share/fish/vendor_completions.d/cbpf.fish
644 completion/cbpf.words share/cbpf/cbpf.words
644 completion/cbpf.filter share/cbpf/cbpf.filter
644 README.md share/doc/cbpf/README.md
644 CHANGES.md share/doc/cbpf/CHANGES.md
644 docs/REFERENCE.md share/doc/cbpf/REFERENCE.md
644 docs/KERNEL_TOOLS.md share/doc/cbpf/KERNEL_TOOLS.md
644 docs/RECIPES.md share/doc/cbpf/RECIPES.md
644 examples/arp.asm share/doc/cbpf/examples/arp.asm
644 examples/arp.dbg share/doc/cbpf/examples/arp.dbg
644 examples/icmp_sampling.asm share/doc/cbpf/examples/icmp_sampling.asm
644 examples/ipv4_tcp.asm share/doc/cbpf/examples/ipv4_tcp.asm
644 examples/keep.py share/doc/cbpf/examples/keep.py
644 examples/mixed.pcap share/doc/cbpf/examples/mixed.pcap
644 examples/port22.bpf share/doc/cbpf/examples/port22.bpf
644 examples/port22.dbg share/doc/cbpf/examples/port22.dbg
644 examples/seccomp.asm share/doc/cbpf/examples/seccomp.asm
644 examples/seccomp.sh share/doc/cbpf/examples/seccomp.sh
644 examples/two-packets.pcap share/doc/cbpf/examples/two-packets.pcap
644 examples/two-packets.pcapng share/doc/cbpf/examples/two-packets.pcapng
644 examples/vlan.asm share/doc/cbpf/examples/vlan.asm
644 examples/vlan10.asm share/doc/cbpf/examples/vlan10.asm
644 examples/words.c share/doc/cbpf/examples/words.c
endef
export FILES

# Links where Debian's shells look for completion, for a PREFIX below which they don't: that PREFIX, the link, its target.
define LINKS
/usr /usr/share/zsh/vendor-completions/_cbpf ../site-functions/_cbpf
/usr/local /etc/fish/completions/cbpf.fish /usr/local/share/fish/vendor_completions.d/cbpf.fish
endef
export LINKS

.PHONY: help build built unchanged rooted unreleased demo try test looked-up tried bench check install uninstall dist clean

help: ## Lists the targets.
	@grep -E '^[a-z]+:.*##' Makefile | sed -E 's/:.*## /\t/' | expand -t 12

build: ## Proves and builds the program; from nothing 15 to 23 minutes on four processors, some 20 to 30 on two, later less.
	@python3 tools/build.py

demo: ## Proves and builds the program, assembles an example, and debugs a filter of tcpdump over a capture.
	@python3 tools/build.py
	@python3 tools/demo.py "$(PROGRAM)"

try: ## Runs the demonstration on a program that is built with no proof, in about a minute; keeps no program.
	@python3 tools/try.py

test: looked-up tried ## Looks up whether CHANGES names what has changed, and the names in documents; runs the end-to-end cases, sessions, the shell at a terminal, reports of why, verdicts, filters of the running kernel, the works of bench and the examples of the documents on the program that is built.

looked-up:
	python3 tests/names.py
	python3 tests/changes.py

# Side by side, as some of them mostly wait.
TRIALS = run sessions shell why verdicts kernel answers

tried: built
	@$(MAKE) --no-print-directory --output-sync --jobs=3 $(TRIALS:%=trial-%)
	python3 tests/documents.py "$(PROGRAM)"

trial-%:
	python3 tests/$*.py "$(PROGRAM)"

trial-compile:
	python3 tests/compile.py

trial-answers:
	@for it in assembler debugger growth loading processes session why; do \
		echo "python3 bench/$$it.py --answers"; python3 bench/$$it.py --answers > /dev/null || exit; done

bench: built ## Measures the program that is built beside its peers, and writes the tables of bench/RESULTS.md and bench/growth.svg.
	python3 bench/all.py

check: looked-up ## The gate: proves all crates and their tests, tries the must-fail edits, runs all tests; from nothing 30 to 53 minutes on four processors, some 60 to 90 on two, later less, as only what changed and what stands above it is proved and tried.
	@python3 tools/check.py
	@$(MAKE) --no-print-directory TRIALS="compile $(TRIALS)" tried

built:
	@test -x "$(PROGRAM)" || { echo 'There is no $(PROGRAM): `make build` proves and builds it.' >&2; exit 1; }

unchanged: built
	@{ tools/sources; sha256sum < "$(PROGRAM)"; } | cmp -s - "$(PROGRAM).sources" || \
		{ echo '$(PROGRAM) is not what the sources make: `make build` proves and builds it anew.' >&2; exit 1; }
	@test -n "$(DATE)" || { echo 'CHANGES.md has no date for version $(VERSION).' >&2; exit 1; }

rooted:
	@case $$PREFIX in /*) ;; *) echo "PREFIX has to begin with a slash: $$PREFIX" >&2; exit 1;; esac

# A link that can't be made is no fault: not all who may write into /usr/local may write into /etc.
install: unchanged rooted ## Puts the program that is built, cbpf-shell, cbpf-transcript, pages, completion, documents and examples into PREFIX (/usr/local).
	@install -D -m 755 "$(PROGRAM)" "$$DESTDIR$$PREFIX/bin/cbpf"
	@echo "$$FILES" | while read -r mode file place; do \
		install -D -m "$$mode" "$$file" "$$DESTDIR$$PREFIX/$$place" || exit; \
		case $$file in *.1 | *.md) \
			PLACE="$${CBPF_PLACE-$$PREFIX}" tools/placed "$$file" '$(VERSION)' '$(DATE)' \
				> "$$DESTDIR$$PREFIX/$$place" || exit;; \
		esac; done
	@echo "$$LINKS" | while read -r prefix link target; do \
		test "$$prefix" != "$${PREFIX%/}" || { install -d -m 755 "$$DESTDIR$${link%/*}" && \
			ln -sf "$$target" "$$DESTDIR$$link"; } || true; done
	@echo "cbpf $(VERSION) is installed below $$DESTDIR$$PREFIX; its documents are in share/doc/cbpf there."

# Folders that others may use stay.
uninstall: rooted ## Takes out of PREFIX what `install` put there.
	@rm -f "$$DESTDIR$$PREFIX/bin/cbpf"
	@echo "$$FILES" | while read -r mode file place; do rm -f "$$DESTDIR$$PREFIX/$$place" || exit; done
	@echo "$$LINKS" | while read -r prefix link target; do \
		test "$$prefix" != "$${PREFIX%/}" || rm -f "$$DESTDIR$$link" || true; done
	@for folder in share/cbpf share/doc/cbpf/examples share/doc/cbpf; do \
		test ! -d "$$DESTDIR$$PREFIX/$$folder" || rmdir --ignore-fail-on-non-empty "$$DESTDIR$$PREFIX/$$folder"; done

unreleased: unchanged
	@test -z '$(NEXT)' || test -z '$(RELEASED)' || { \
		echo 'CHANGES.md has items below `## Next`, so this is not $(VERSION), which was released before them.' >&2; exit 1; }

dist: unreleased ## Makes out/cbpf-VERSION-x86_64-linux.tar.gz: what `install` puts, the program stripped, with a script that installs it.
	@test -n "$$DIST" || { echo 'DIST is empty.' >&2; exit 1; }
	@rm -rf "$$DIST/$(PACKAGE)" "$$DIST/$(PACKAGE).tar.gz"
	@PACKED="$$DIST/$(PACKAGE)" \
		$(MAKE) -s --no-print-directory install DESTDIR='$$(value PACKED)' PREFIX=/ CBPF_PLACE=. > /dev/null
	@strip -R .comment "$$DIST/$(PACKAGE)/bin/cbpf" || { rm -rf "$$DIST/$(PACKAGE)"; exit 1; }
	@install -m 755 tools/package/install "$$DIST/$(PACKAGE)/install"
	@install -m 644 tools/package/README "$$DIST/$(PACKAGE)/README"
	@cd "$$DIST/$(PACKAGE)" && find * -type f | LC_ALL=C sort | xargs sha256sum > ../SHA256SUMS && mv ../SHA256SUMS .
	@cd "$$DIST" && chmod -R u=rwX,go=rX "$(PACKAGE)" && tar --sort=name --format=ustar --owner=0 --group=0 \
		--numeric-owner --mtime='$(DATE) 00:00 UTC' -cf "$(PACKAGE).tar" "$(PACKAGE)" && gzip -9n "$(PACKAGE).tar" \
		|| { rm -rf "$(PACKAGE)" "$(PACKAGE).tar"; exit 1; }
	@rm -rf "$$DIST/$(PACKAGE)"
	@printf '%s\n' "$(PACKAGE).tar.gz is in $$DIST"

clean: ## Removes what was built and what the checks kept.
	rm -rf crates/*/out out */__pycache__
