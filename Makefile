# Shows, proves, builds and tests. All that is needed is the Rattle toolchain (`rt`).
.PHONY: run build install deb dist check test tables headline oracle speed bench

PREFIX = /usr/local
PROGRAM = crates/edfclaim/out/edfclaim
PAGES = START.md CLAIM.md READING-THE-ANSWER.md PROFILE.md SCRIPTS.md
# a goal for each crate, behind those of the crates that it stands on
CRATES = awk -f tools/gate/rules.awk crates.txt | $(MAKE) -s -f -

# Shows a Yes and a No of the example night, without proofs where no proved program stands there: a minute or so.
run:
	@tools/gate/first.sh

# Proves the crates, and leaves the program at crates/edfclaim/out/edfclaim. Where it stands there, and is that of the
# sources as they are, nothing is done.
build:
	@if tools/gate/prove.sh current; then echo "$(PROGRAM) stands there already, proved"; else \
	    $(CRATES) -j "$$(tools/gate/lanes.sh)" VERB=lib edfclaim; status=$$?; rm -rf out/room; [ $$status -eq 0 ] && \
	    tools/gate/prove.sh current && echo "built $(PROGRAM), proved"; fi

# Installs the program with its manual pages, the users' pages, the licences, and what helps those who script.
install: build
	install -d "$(DESTDIR)$(PREFIX)/bin" "$(DESTDIR)$(PREFIX)/share/man/man1" "$(DESTDIR)$(PREFIX)/share/doc/edfclaim"
	install -m 755 $(PROGRAM) "$(DESTDIR)$(PREFIX)/bin/edfclaim"
	for name in edfclaim edfclaim-look; do install -m 644 "docs/$$name.1" "$(DESTDIR)$(PREFIX)/share/man/man1/$$name.1" || exit 1; done
	install -d "$(DESTDIR)$(PREFIX)/lib" "$(DESTDIR)$(PREFIX)/share/bash-completion/completions"
	install -m 755 extras/edfclaim-look "$(DESTDIR)$(PREFIX)/bin/edfclaim-look"
	install -m 644 extras/edfclaim.py "$(DESTDIR)$(PREFIX)/lib/edfclaim.py"
	install -m 644 extras/edfclaim.bash-completion "$(DESTDIR)$(PREFIX)/share/bash-completion/completions/edfclaim"
	install -m 644 LICENSE-MIT LICENSE-APACHE THIRD-PARTY.md "$(DESTDIR)$(PREFIX)/share/doc/edfclaim"
	for page in $(PAGES); do install -m 644 "docs/$$page" "$(DESTDIR)$(PREFIX)/share/doc/edfclaim/$$page" || exit 1; done
	install -D -m 644 docs/tables/rows.tsv "$(DESTDIR)$(PREFIX)/share/doc/edfclaim/tables/rows.tsv"

# Packs the program, in the folder out: as a Debian package, and as a tarball with its digest.
deb dist: build
	@tools/release/package.sh $@ $(PROGRAM) out

# All proofs and no more, over what earlier runs kept: for the daily loop.
check:
	@$(CRATES) -j 1 VERB=check all

# The whole gate: all proofs, tests, must-fail edits and runs; then the scripts over the built program. What it
# passed earlier on this machine isn't proved again as long as nothing changes that it stands on.
test:
	@tools/gate/gate.sh

# Writes the tables of docs/tables into the pages and files that have them, and that of the wrong bodies anew.
tables:
	@tools/gate/wrong_bodies.py
	@tools/gate/tables.py

# What a Yes means, for an auditor: the contract of the check and each definition that it stands on, in order of
# need, as out/headline.txt and as a page, out/headline.html.
headline:
	@tools/gate/headline.py

# The readers and the check against a second reading of the rules, on random cases; no part of the gate.
oracle:
	@tests/oracle/oracle.sh

# How fast lanes of annotations and whole files are read; no part of the gate.
speed:
	@tools/speed/speed.sh

# How fast the built program is on nights of 8 and of 80 hours, and on nights that are large in one respect; no
# part of the gate.
bench: build
	@tools/speed/bench.sh $(PROGRAM)
