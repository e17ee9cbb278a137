# The entitlement desk. `make run` lists the table of a rule file, `make test` is the whole check, `make bench` measures.
SHELL := /bin/bash
.SHELLFLAGS := -o pipefail -ec

RT ?= rt
RULES ?= examples/p.rules
SEED ?= $(shell date +%s)
COUNT ?= 3000
CARGO ?= cargo

CRATE_FILES := $(shell find crates crates.txt -type f -not -path '*/out/*')
LISTING := crates/listing/out/listing
VECTORS := crates/vectors/out/vectors
ARCHIVE := crates/ludwavyn/out/libludwavyn.a
SECOND := build/second/release/second
SETS := $(wildcard bench/sets/*.rules)
EXAMPLES := p q ladder entitlements

.PHONY: run test bench yardstick second-program second-checks proofs fresh-cases listings c-example

# Lists the table of a file of rule records.
run: $(LISTING)
	@$(LISTING) <"$(RULES)"
	@echo "A file of your own: make run RULES=path"

# A program is proved on the way, and run once on no input.
$(LISTING) $(VECTORS): $(CRATE_FILES)
	@mkdir -p build
	@(cd crates/$(notdir $@) && $(RT) run </dev/null) >build/$(notdir $@).log 2>&1 || { cat build/$(notdir $@).log; exit 1; }
	@touch -c $@

# The whole check. The proofs' last line, 'N passed, 0 failed', is held back until all else has passed, and is the last line here.
test:
	@$(MAKE) --no-print-directory proofs
	@$(MAKE) --no-print-directory second-checks fresh-cases listings c-example
	@tail -n 1 build/proofs.log

# Proves all crates, runs the programs and tries the must-fail edits, each of which has to read and be refused.
proofs:
	@mkdir -p build
	@if $(RT) ci 2>&1 | tee build/proofs.log | sed -u '$$d'; then :; else tail -n 1 build/proofs.log; exit 1; fi
	@tail -n 1 build/proofs.log | grep -Eqx '[0-9]+ passed, 0 failed' || { tail -n 1 build/proofs.log; exit 1; }
	@if grep '^rt: ok' build/proofs.log | grep -Eq ', [0-9]+ bad'; then echo 'a must-fail edit does not read'; exit 1; fi

second-program:
	@$(CARGO) build --release --offline --quiet --manifest-path second/Cargo.toml --target-dir build/second

# The second program's own tests, its three ways held against each other, and what is committed of its making.
second-checks: second-program
	@$(CARGO) test --release --offline --quiet --manifest-path second/Cargo.toml --target-dir build/second
	$(SECOND) selfcheck $(SEED) 500
	$(SECOND) cases fixed | cmp - crates/vectors/stdin
	$(SECOND) answers <crates/vectors/stdin | cmp - crates/vectors/stdout
	for name in $(EXAMPLES); do $(SECOND) spell <examples/$$name.txt | cmp - examples/$$name.rules; done
	mkdir -p build/sets && $(SECOND) bench-sets build/sets && diff -r build/sets bench/sets

# Fresh cases on the program that the proofs built: make fresh-cases SEED=n COUNT=n repeats a run.
fresh-cases: second-program $(VECTORS)
	$(SECOND) cases random $(SEED) $(COUNT) >build/cases
	$(SECOND) answers <build/cases >build/expected
	$(VECTORS) <build/cases >build/answered
	cmp build/answered build/expected

# The listing program on each example and each set of the benchmark, against the second program's listing.
listings: second-program $(LISTING)
	for file in examples/*.rules $(SETS); do $(LISTING) <$$file | cmp - <($(SECOND) listing <$$file); done

$(ARCHIVE): $(CRATE_FILES)
	@mkdir -p build
	@(cd crates/ludwavyn && $(RT) lib) >build/ludwavyn.log 2>&1 || { cat build/ludwavyn.log; exit 1; }
	@touch -c $@

build/ask: examples/ask.c include/ludwavyn.h $(ARCHIVE)
	@mkdir -p build
	$(CC) -std=c11 -O2 -Wall -Wextra -Iinclude -o $@ examples/ask.c $(ARCHIVE)

# Builds and runs the C example and compares what it prints.
c-example: build/ask
	build/ask >build/ask.stdout
	cmp build/ask.stdout examples/ask.stdout

# The library against C of the same order of work, in one run.
bench: yardstick build/bench
	@build/bench $(shell uname -m) $(SETS)

# The yardstick answers the committed cases of closing as the second program does.
yardstick: build/check
	@build/check answers crates/vectors/stdout <crates/vectors/stdin

build/check: bench/check.c bench/close.c bench/close.h
	@mkdir -p build
	$(CC) -std=c11 -O3 -Wall -Wextra -o $@ bench/check.c bench/close.c

build/bench: bench/bench.c bench/close.c bench/close.h include/ludwavyn.h $(ARCHIVE)
	@mkdir -p build
	$(CC) -std=c11 -O3 -Wall -Wextra -o $@ bench/bench.c bench/close.c $(ARCHIVE)
