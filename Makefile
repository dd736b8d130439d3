# The two commands of the README: `make run` and `make test`. Each does all its own set-up.
SHELL := bash
.SHELLFLAGS := -o pipefail -c
TYPED ?= examples/lamp.rules
SECONDS ?= 60
SEED ?= 1

# All that a proof reads. What was made later than all of it was written is not made anew.
SOURCES := crates.txt $(wildcard HANDLES) $(shell find crates/*/src crates/*/specs crates/*/proofs)

SHOW := cargo run --offline --quiet --manifest-path rust/Cargo.toml -p show -- target/session

.PHONY: run test prove archive session typed rust examples soak bench fmt

# A session in words, and as the session program prints it. The commands are typed, make run TYPED=examples/lamp.rules, or
# cells, make run CELLS=examples/session.cells.
ifdef CELLS
run: session
	@$(SHOW) '$(CELLS)'
else
run: session typed
	@$(SHOW) target/typed '$(TYPED)'
endif

# Everything: the proofs, the must-fail edits and the programs (rt ci), then the archive beside the model, then the examples.
# The verdict of rt ci is printed once more as the last line, after all else has passed. An edit that is bad shows nothing of a
# contract, and rt ci passes all the same; here it fails.
test:
	@log=$$(mktemp); rt ci 2>&1 | tee $$log; status=$$?; mkdir -p target; mv $$log target/rt-ci.log; exit $$status
	@! grep '^rt: ok;.*, [1-9][0-9]* bad\b' target/rt-ci.log
	@$(MAKE) --no-print-directory rust examples
	@tail -n 1 target/rt-ci.log

# The proofs alone, over what earlier checks kept.
prove:
	rt all check

archive: target/staticlib/libclaggyfoot.a

# rt names an archive after its crate.
target/staticlib/libclaggyfoot.a: $(SOURCES)
	@mkdir -p target/staticlib
	@log='$(CURDIR)/target/staticlib.log'; cd crates/claggyfoot_c && rt lib >"$$log" 2>&1 || { cat "$$log"; exit 1; }
	@cp crates/claggyfoot_c/out/libclaggyfoot_c.a $@

# target/NAME runs target/bin/NAME.
runs = printf '\#!/bin/sh\nexec "%s/x86/run" "%s/target/bin/$(1)"\n' '$(CURDIR)' '$(CURDIR)' >target/$(1) && chmod +x target/$(1)

# The session program, which `make run` shows and the tests run beside the model.
session: target/bin/session
	@$(call runs,session)

target/bin/session: crates/session/out/session
	@mkdir -p target/bin
	@cp $< $@

# rt ci leaves the program that it proved and ran. Where there is none, or an older one, it is made here, and run on no input.
crates/session/out/session: $(SOURCES)
	@mkdir -p target
	@log='$(CURDIR)/target/session.log'; cd crates/session && rt run </dev/null >"$$log" 2>&1 || { cat "$$log"; exit 1; }
	@touch $@

# Typed commands into cells, by the archive.
typed: archive
	@mkdir -p target/bin
	@x86/cc target/bin/typed examples/c/typed.c target/staticlib/libclaggyfoot.a
	@$(call runs,typed)

rust: archive session
	cd rust && cargo test --offline --quiet

# The example programs and sessions, each beside what it has to print.
examples: archive session typed
	@x86/cc target/adventure examples/c/adventure.c target/staticlib/libclaggyfoot.a
	@x86/run target/adventure >target/adventure.out && diff examples/c/adventure.out target/adventure.out
	@cargo run --offline --quiet --manifest-path rust/Cargo.toml -p claggyfoot --example adventure >target/adventure.out
	@diff examples/c/adventure.out target/adventure.out
	@$(SHOW) examples/session.cells >target/session.out && diff examples/session.out target/session.out
	@$(SHOW) target/typed examples/lamp.rules >target/lamp.out && diff examples/lamp.out target/lamp.out
	@! $(SHOW) target/typed examples/wrong.rules 2>target/wrong.out && diff examples/wrong.out target/wrong.out
	@echo 'examples: each prints what it has to'

# The archive beside the model for as long as told: make soak SECONDS=600 SEED=7
soak: archive
	cd rust && env SECONDS=$(SECONDS) SEED=$(SEED) cargo run --offline --quiet --release -p soak

# How long the calls take, beside three other ways to hold the rules: tables, target/bench.csv, docs/performance.svg.
bench: archive
	cd rust && cargo run --offline --quiet --release -p bench

fmt:
	for crate in crates/*/; do (cd $$crate && rt fmt) || exit 1; done
	cd rust && cargo fmt
