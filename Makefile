# The commands of the README.
SHELL := /bin/bash
.SHELLFLAGS := -euo pipefail -c
RUST := cargo run --release --quiet --manifest-path compare/Cargo.toml --bin

.PHONY: help test programs compare compare-long compare-huge attack record bench bench-cmph benchmarks demo drawings tried library

help:
	@echo 'make test          everything that a merge needs: proofs, must-fail edits, programs, comparison with the Rust, attack'
	@echo 'make demo          both programs on the lists of examples/, and on an image that is cut by one byte'
	@echo 'make programs      both programs built, and tried on good, damaged and hostile files'
	@echo 'make compare       the comparison, then the attack; COMPARE_SEED sets the random inputs'
	@echo 'make attack        hostile inputs to the exports, each call held to a plain model; ATTACK_CALLS sets how many'
	@echo 'make compare-long  the attack with ten million calls, then ten minutes of the comparison with further seeds'
	@echo 'make compare-huge  builds of 2^27 keys beside the Rust, where 13 GB of memory are available; some ten minutes'
	@echo 'make record        the recorded answers of the Rust, made anew'
	@echo 'make bench         times beside the Rust'
	@echo 'make bench-cmph    times beside libcmph, where it is installed'
	@echo 'make benchmarks    both, and docs/BENCHMARKS.md with them'
	@echo 'make drawings      the drawings of docs/, made anew'
	@echo 'make tried         wrong code for every public function, which the check must refuse: docs/TRIED.md, made anew (an hour)'

# everything that a merge needs: layout, proofs, must-fail edits, programs, and the comparison with the Rust
test:
	@tools/test

# bdz.rs, unchanged, beside the proved functions, and then the attack; COMPARE_SEED sets the random inputs
compare: library
	cargo test --release --quiet --manifest-path compare/Cargo.toml
	$(RUST) compare
	$(RUST) attack

# hostile inputs to the proved functions, each call held to a plain model of document 01; no Rust source is needed
attack: library
	$(RUST) attack

# more of both: further calls, and further seeds
compare-long: library
	ATTACK_CALLS=10000000 $(RUST) attack
	COMPARE_MINUTES=10 $(RUST) compare

# builds of 2^27 keys of both kinds, compared and timed
compare-huge: library
	@tools/huge

# the Rust's answers that `recorded` replays, made anew
record: library
	tools/record

# times beside the Rust, in one run
bench: library
	@$(RUST) bench

# times beside libcmph, in one run
bench-cmph: library
	@$(RUST) bench_cmph

# the tables of docs/BENCHMARKS.md, made anew
benchmarks: library
	@tools/benchmarks

# both programs on the lists of examples/
demo:
	@tools/demo

# both programs on good, damaged and hostile files
programs:
	@tools/prove build_index tryall
	@python3 tools/programs

# the drawings of docs/
drawings:
	tools/draw

# wrong code for every public function, and where the check refuses it
tried:
	python3 tools/tried.py

# the static library that the Rust links, from proved code only
library:
	@tools/library
