# On a fresh machine with `rt` on the path each of these works alone, and `make help` lists them. docs/GATE.md has the times.
PREFIX ?= /usr/local
PROGRAM := crates/history_program/out/history_program
# Names a source that is newer than the program, if there is one.
NEWER = find crates.txt crates -name out -prune -o -type f -newer $(PROGRAM) -print -quit
SHARE = $(DESTDIR)$(PREFIX)/share
# The engine that is installed.
ENGINE ?= $(PROGRAM)
UNPROVED := out/unproved/wunthavel-history

.PHONY: help test quick wrong-bodies demo folder-demo clients-test bench faults wheel install install-unproved install-files deb \
	program unproved unchecked

help: ## lists the targets, each with what it takes
	@sed -n 's/^\([a-z-]*\):[^#]*## \(.*\)$$/\1	\2/p' $(MAKEFILE_LIST) | while IFS='	' read -r name text; do printf '%-17s %s\n' "$$name" "$$text"; done

# docs/check holds the documents against the code; rt ci proves all from nothing, tries must-fail/, and runs tests and programs.
test: ## the merge gate: documents, proofs, wrong bodies of must-fail/, tests, programs, clients; hours each time
	docs/check
	RT_JOBS=$${RT_JOBS:-$$(.ci/lanes)} rt ci
	@if python3 -c 'import sys; sys.exit(sys.version_info < (3, 9))' 2>/dev/null; then $(MAKE) --no-print-directory clients-test; \
	else echo 'The clients are not tested: Python 3.9 or later is not here.'; fi

quick: ## the example and the programs of cases by rt try, without a proof; some minutes. It proves nothing
	@echo 'Nothing of this is proved: rt try runs the sources as they are.'
	@scripts/quick

wrong-bodies: ## tries the wrong bodies of planted/ and must-fail/; CRATES="gix_hash history" those of some crates, NAMED=1 the named; many hours for all
	planted/try $(CRATES)

# The proved program if it is built of these sources, else one that nothing proves, built without optimising.
demo: ## a short story on a real folder, told by the proved program if it is built, else by an unproved one, which is built first; minutes
	@if [ -x $(PROGRAM) ] && [ -z "$$($(NEWER))" ]; then engine=$(PROGRAM); else \
	  echo 'demo: the proved program is not built (make program makes it). One without a proof is built for this run.' >&2; \
	  $(MAKE) --no-print-directory unproved OUT=out/demo/wunthavel-history FLAGS=--quick && engine=out/demo/wunthavel-history; \
	fi && demo/story $$engine

clients-test: ## the tests of clients/python, over the proved program if it is built, else over an unproved one, which is built; minutes
	@[ -x $(PROGRAM) ] || $(MAKE) --no-print-directory unproved
	clients/python/run-tests

wheel: ## a wheel of the front end for Python in the folder out/, for pip install without a network; seconds
	@python3 clients/python/backend.py out

folder-demo: SCRIPT = demo/folder ## shows the proved program on real folders, against demo/folder.wanted; seconds once it is proved
bench: SCRIPT = bench/report ## no test: the program's workloads on real folders beside git's, with ratios; SIZE=small for a quick one; minutes once all is proved
faults: SCRIPT = bench/faults ## refuses each growth of memory of the program's own run in turn, interrupts its readings, and gives it large files; minutes, and a C compiler
deb: SCRIPT = package/deb ## a Debian package of the proved program, its manual pages and completions, in the folder out/; hours the first time
folder-demo bench faults deb: program
	$(SCRIPT) $(PROGRAM)

# They are built of a copy, in which the version says that it isn't proved.
unproved: ## compiles the program without a proof, as out/unproved/wunthavel-history; minutes
unchecked: ## the same without the checks of rt try, as out/unchecked/wunthavel-history: for bench/report alone, before the proofs are done
unproved: FLAGS =
unchecked: FLAGS = --unchecked
OUT = out/$@/wunthavel-history
unproved unchecked:
	@room=$$(mktemp -d) && trap 'rm -rf "$$room"' EXIT && \
	find crates.txt HANDLES crates scripts -name out -prune -o -type f -print0 | xargs -0 cp --parents -t "$$room" && \
	sed -i 's/(proved)/($@)/' "$$room/crates/history_actions/src/command_line/version.rt" && \
	"$$room/scripts/unproved-build" $(OUT) $(FLAGS)

# `history` alone is a builtin of bash, so the program's own name is another.
install: program ## proves the program, and puts it as PREFIX/bin/wunthavel-history, with a link history; hours the first time
install-unproved: unproved ## the same of a program that nothing proves, and that says so; minutes
install-unproved: ENGINE = $(UNPROVED)
install-unproved: LAST = echo 'Nothing of what was installed is proved: make install installs the proved program.'
install install-unproved install-files:
	install -D -m 755 $(ENGINE) $(DESTDIR)$(PREFIX)/bin/wunthavel-history
	ln -sf wunthavel-history $(DESTDIR)$(PREFIX)/bin/history
	install -D -m 644 -t $(SHARE)/man/man1 package/man/wunthavel-history.1 package/man/wunthavel.1
	install -D -m 644 -t $(SHARE)/man/man5 package/man/wunthavel-protocol.5
	install -D -m 644 package/completions/wunthavel-history.bash $(SHARE)/bash-completion/completions/wunthavel-history
	install -D -m 644 package/completions/wunthavel.bash $(SHARE)/bash-completion/completions/wunthavel
	install -D -m 644 -t $(SHARE)/zsh/site-functions package/completions/_wunthavel-history package/completions/_wunthavel
	@if [ -f clients/python/wunthavel/__main__.py ]; then echo 'installing the front end for Python'; \
	  (cd clients/python && find wunthavel -name __pycache__ -prune -o -type f -exec install -D -m 644 {} $(abspath $(SHARE))/wunthavel/{} \;) && \
	  printf '#!/bin/sh\nPYTHONPATH="%s$${PYTHONPATH:+:$$PYTHONPATH}" exec python3 -m wunthavel "$$@"\n' $(PREFIX)/share/wunthavel \
	    > $(DESTDIR)$(PREFIX)/bin/wunthavel && chmod 755 $(DESTDIR)$(PREFIX)/bin/wunthavel; fi
	@$(LAST)

# It is run on the stream that is stored beside it. The first time every crate below it is proved.
program: ## proves, compiles and links the program; hours the first time
	@echo 'building the program'
	@cd crates/history_program && log=$$(mktemp) && \
	if rt run < stdin > /dev/null 2> "$$log"; then rm "$$log"; else cat "$$log"; rm "$$log"; exit 1; fi
