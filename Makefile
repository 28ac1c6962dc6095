# `make help` lists what there is. What each does stands in tools/ and tests/.

SCRIPT ?= examples/scene.flecsq
PREFIX ?= $(HOME)/.local
BENCHMARK := crates/bench_library/out/bench_library
SOURCES := crates.txt $(shell find crates -name out -prune -o -path '*/must-fail/*' -prune -o -type f \( -name '*.rt' -o -name '*.antt' \) -print)
BUILD := python3 tools/build.py
LIBRARY := python3 tools/library.py

.PHONY: help run build library proved install test gate demo edits bench check clean

.DEFAULT_GOAL := help

# (what is built and written stands under out/ alone)
export PYTHONDONTWRITEBYTECODE := 1

help:
	@echo "make run [SCRIPT=FILE]       Runs a script. Without a proved program it builds one without proofs, in some minutes, once"
	@echo "make build                   Builds that program, and tells where it stands"
	@echo "make library                 Builds the library for C, C++ and Python, and tells where it stands. docs/C.md has its use"
	@echo "make test                    All tests that need no proof, in minutes"
	@echo "make demo                    Proves a small crate, makes a wrong change to a copy, and shows that and why it is refused"
	@echo "make proved                  Proves and builds the program and the library, in half an hour or more"
	@echo "make install [PREFIX=FOLDER] Installs the proved program, its man page and the library under FOLDER, ~/.local if left out; UNPROVED=1 for others"
	@echo "make gate                    Every proof from nothing, in an hour and a half or more, then all tests against the proved program"
	@echo "make check                   Proves every crate, over what earlier runs kept"
	@echo "make edits [SINCE=COMMIT]    Edits that the check must refuse, and why it refuses each; also CRATES=\"..\", TIER=.."
	@echo "make bench [WORKLOADS=\"..\"]  Workloads through the program, and the benchmarks"
	@echo "make clean                   Removes all that was built"
	@echo "All of it needs Linux on x86-64, Python 3.8 or later, the Rattle toolchain's command rt on the path, and 4 GB of free memory."

run:
	@$(BUILD) run "$(SCRIPT)"

build:
	@$(BUILD) build

library:
	@$(LIBRARY) build

proved:
	@$(BUILD) proved
	@$(LIBRARY) proved

install:
	@$(BUILD) install "$(DESTDIR)$(PREFIX)"
	@$(LIBRARY) install "$(DESTDIR)$(PREFIX)"

# All tests that need no proof, against the proved program where it is up to date, else against one that is built without proofs.
test:
	@python3 tests/run.py test

# Every proof from nothing, the tests of crates, the named wrong bodies; then the same tests against the proved program.
gate:
	@python3 tests/run.py gate

demo:
	@$(BUILD) need
	@python3 tools/demo.py

# Edits that the check must refuse, and why it refuses each. Of the crates that changed since the commit SINCE; or of CRATES="..", or
# CRATES=all. TIER is edits (those of edits/CRATE.edits), must-fail (the named wrong bodies, which the gate tries too) or both. NAMES=".." are
# some of them. TEXTS=1 proves nothing: it tells which can't be applied.
edits:
	@$(BUILD) need
	@python3 tools/edits.py $(if $(SINCE),--since "$(SINCE)") $(if $(CRATES),--crates "$(CRATES)") $(if $(TIER),--tier "$(TIER)") $(if $(NAMES),--names "$(NAMES)") $(if $(TEXTS),--check-texts)

# Workloads through the program, and what bench_library measures. WORKLOADS=".." names some of them.
bench: proved $(BENCHMARK)
	@python3 bench/bench.py $(WORKLOADS)

$(BENCHMARK): $(SOURCES)
	@echo "Proving and building $(@F)." >&2
	@cd $(@D)/.. && rt run >&2
	@touch $@

# Every crate, over what earlier runs kept.
check:
	@$(BUILD) need
	@rt all check

clean:
	rm -rf crates/*/out out
