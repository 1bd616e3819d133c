# What there is to do here; `make` alone tells it. Each needs the Rattle kit (`rt` on the path), make and bash; tests and bench
# also Python 3.
EXAMPLE = $(CURDIR)/examples
PROGRAM = $(CURDIR)/crates/osdmapd/out/osdmapd
# The program over a store. Where it is not built, its tests are told as NOT RUN.
STORE = $(CURDIR)/crates/osdmapstore/out/osdmapstore
# The program that judges scripts from a cluster's own bytes; its tests find it by the same path, or by READMAP.
JUDGE = $(CURDIR)/crates/readmap/out/readmap
# The map and the script that `try` and `run` answer, by their paths from here; the script may be /dev/stdin.
MAP = $(EXAMPLE)/map.json
SCRIPT = $(EXAMPLE)/script.txt
# The processor that the program is built for, as x86-64-v3; empty, it runs on every x86-64.
CPU =
# Another build of the program, which `bench` puts beside this one, and the folder in which it keeps its tables (empty: in none).
OTHER =
RESULTS = $(CURDIR)/bench/results
# The log of the gate that the built programs have passed, for `dist`; and the key that signs its checksums, where there is one: the
# file of a key of minisign, or the name of one of gpg.
LOG = gate.log
KEY =
BENCHES = placements tables steps sessions live store balancer reading cliffs tools wide whole_cluster

.PHONY: help form try checked prove run store judge test gate runs bench static dist packages release

help:
	@echo 'make form   the tests of form: sources, pages, figures and types, without a program (half a minute to a minute)'
	@echo 'make try    the example answered before any proof, by a program built with checks in place of proofs, which is not kept'
	@echo '            MAP=my.json SCRIPT=my.txt runs your map and script once; SCRIPT=/dev/stdin reads what you type up to Ctrl-D'
	@echo 'make checked  the same program, kept: crates/osdmapd/out/osdmapd.checked, for work on the tools before anything is proved'
	@echo 'make run    the program proved and built, then the example answered by it (slow the first time: every proof below it)'
	@echo '            MAP= and SCRIPT= as above; CPU=x86-64-v3 (or another of LLVM) builds it for that processor'
	@echo 'make store  the program whose map a file keeps, proved and built: crates/osdmapstore/out/osdmapstore'
	@echo 'make judge  the program that judges a script from a cluster'"'"'s own bytes, proved and built: crates/readmap/out/readmap'
	@echo 'make test   the gate: the tests of form, every proof (from nothing the first time, later only what changed), the edits that'
	@echo '            must not prove, the tests, then runs of the built program, also beside one that is built with checks'
	@echo 'make gate   the gate without the runs'
	@echo 'make runs   the runs of the built program alone (4 to 15 minutes)'
	@echo 'make bench  what the built program costs, as tables: placements beside plain C (cc, and valgrind for instructions), table, sessions, balancer, reading, tools for operators, plans for whole clusters (of REKHUSO_CLUSTERS)'
	@echo '            OTHER=/another/osdmapd measures another build of it beside; each whole table is kept in bench/results (RESULTS= in none)'
	@echo 'make static the same programs linked with a C library of their own, as a release has them: crates/*/out/static (gcc)'
	@echo 'make dist   one archive in dist/ of the programs that are built, the tools and their wheel, the pages, and the log of their gate:'
	@echo '            LOG=gate.log names it (make gate 2>&1 | tee gate.log), KEY= a key of minisign (a file) or gpg (a name) for the checksums'
	@echo 'make packages  of that archive packages for Debian and RHEL (dpkg-deb, rpmbuild), and the checksums of all in dist/; KEY= as above'
	@echo 'make release  both, and a tag of git by the version, with these checksums'

# What the gate begins with.
form:
	@python3 tests/run.py --form

# Runs with checks in place of proofs. The map and the script are read here, so that they may be anywhere and be read once.
try:
	@echo 'Nothing is proved by this: the program is built with checks, run once, and not kept.' >&2
	@folder=$$(mktemp -d) && trap 'rm -r "$$folder"' EXIT && cat '$(MAP)' > "$$folder/map.json" && cat '$(SCRIPT)' > "$$folder/script.txt" && \
		cd crates/osdmapd && python3 ../../tools/going.py 15 'make try' rt try --data map.json="$$folder/map.json" --data script.txt="$$folder/script.txt" -- map.json script.txt

# Keeps the program that is built with checks in place of proofs.
checked:
	@python3 tools/checked.py

# The proofs go by on the screen, function by function; where one fails, nothing is run.
prove:
	@cd crates/osdmapd && rt run $(if $(CPU),--cpu $(CPU)) -- $(EXAMPLE)/map.json $(EXAMPLE)/script.txt >&2
	@python3 tools/proved.py $(PROGRAM)

run: prove
	@echo 'The proved program answers:' >&2
	@$(PROGRAM) '$(MAP)' '$(SCRIPT)'

judge:
	@cd crates/readmap && rt run $(if $(CPU),--cpu $(CPU)) -- --map data/flat >&2
	@python3 tools/proved.py $(JUDGE)

store:
	@cd crates/osdmapstore && rt run $(if $(CPU),--cpu $(CPU)) -- --help
	@python3 tools/proved.py $(STORE)

test: gate checked runs

gate:
	@bash .ci/gate

runs:
	@python3 tests/run.py $(PROGRAM) $(STORE)

# What is there is measured; where there is no program yet, it is proved and built first. A table that cannot be made does not end the rest.
bench:
	@test -x $(PROGRAM) || $(MAKE) prove
	@python3 bench/machine.py
	@export RESULTS='$(RESULTS)' OSDMAPSTORE='$(STORE)'; failed=; for name in $(BENCHES); do \
		python3 bench/$$name.py $(PROGRAM) || { printf '\nbench/%s.py has not come to its end.\n' $$name; failed=1; }; \
	done; \
	$(if $(OTHER),python3 bench/beside.py $(PROGRAM) '$(OTHER)' || failed=1;) \
	test -z "$$failed"

static:
	@python3 tools/static.py $(PROGRAM) $(STORE) $(JUDGE)

dist:
	@python3 tools/dist.py $(if $(KEY),--key '$(KEY)') '$(LOG)' dist $(PROGRAM) $(STORE) $(JUDGE)

packages:
	@python3 tools/packages.py $(if $(KEY),--key '$(KEY)') dist/rekhuso-*.tar.gz

release: dist packages
	@git tag -a "$$(python3 tools/rekhuso --version | cut -d' ' -f2)" -F dist/SHA256SUMS
