# The commands of the README.
SHELL := /bin/bash
.SHELLFLAGS := -o pipefail -c
.PHONY: show test reference compared archive bindings failures bench fuzz lists cost picture

# Proves a crate and what it rests on, and builds it into target/: with `run` a program, which is given an empty input, with `lib` a static
# library. A line says so where it is proved, else the start of what is wrong. All on standard error, so that standard output has what a
# command is asked for and no more.
define prove
@echo "proving $(2) and what it rests on: some minutes the first time, on two cores, and seconds where nothing changed" >&2
@mkdir -p target/bin target/staticlib && cd crates/$(2) && log=$$(mktemp) && if rt $(1) < /dev/null > $$log 2>&1; then \
    grep '^logic=' $$log | tail -n 1 >&2; rm $$log; if test $(1) = lib; then cp out/lib$(2).a ../../target/staticlib/; else cp out/$(2) ../../target/bin/; fi; \
    else grep -v '^statements\|^library\|^logic /\|: proved$$' $$log | cut -c -400 | head -n 40 | sed 's/^/    /' >&2; rm $$log; false; fi
endef

# Runs the proved program on a school's day.
show:
	$(call prove,run,shelf)
	@target/bin/shelf < reference/data/school.in

# The gate: the second implementation's own tests and its stored rows, the stored pictures; the names in documents and comments, what must be
# believed, and what is opened where; then every proof, every must-fail edit and every program, with the layout of each file, and why each edit
# was refused; then the calls from C and from Rust, and the program where reads and writes fail. The last line is that of rt ci. An edit that
# could not be tried is no refusal: `rt ci` only counts it, and here it fails.
test: reference compared
	@tests/names
	@tests/believed
	@tests/seams
	@log=$$(mktemp) && rt ci | tee $$log && if grep '^rt: ok.*, [0-9][0-9]* bad' $$log; then false; fi && tests/edits $$log \
	    && make bindings failures && tail -n 1 $$log && rm $$log

reference:
	@cargo test --offline --release --quiet --manifest-path reference/Cargo.toml
	@cargo test --offline --release --quiet --manifest-path compare/Cargo.toml
	@cargo test --offline --release --quiet --manifest-path bench/Cargo.toml
	@cargo test --offline --release --quiet --manifest-path picture/Cargo.toml

# The rows that rt ci holds the program to are those of the second implementation, on its stored lists.
compared: reference
	@cargo build --offline --release --quiet --manifest-path reference/Cargo.toml
	@cat reference/data/*.in | cmp - crates/shelf/stdin
	@reference/target/release/shelf-reference < crates/shelf/stdin | cmp - crates/shelf/stdout

# Stores the rows anew, after a change of the lists.
lists:
	@cargo build --offline --release --quiet --manifest-path reference/Cargo.toml
	@cat reference/data/*.in > crates/shelf/stdin
	@reference/target/release/shelf-reference < crates/shelf/stdin > crates/shelf/stdout

# Draws the README's picture from the stored rows of a school's day: the plan of beacon 22, which has requests of all three kinds.
picture:
	@cargo build --offline --release --quiet --manifest-path picture/Cargo.toml
	@mkdir -p target
	@picture/target/release/plan-picture --calls reference/data/school.in --beacon 22 < reference/data/school.out > target/plan.svg
	@mv target/plan.svg docs/plan.svg

# Compares the program with the second implementation on fresh rows, legal and damaged, at once and in packets of 1 to 4,096 bytes.
ROWS ?= 200000
SEED ?=
fuzz:
	$(call prove,run,shelf)
	@echo "comparing with the second implementation on at least $(ROWS) fresh rows" >&2
	@cargo run --offline --release --quiet --manifest-path compare/Cargo.toml -- target/bin/shelf $(ROWS) $(SEED)

# The proved calls as a library for other languages.
archive:
	$(call prove,lib,gelmush)

# The exported calls: case 1 from C, held to its stored rows; random calls from C and from Rust, held to the second implementation; and the
# README's program in Rust.
bindings: archive
	@for program in case1 calls; do cc -std=c11 -Wall -Wextra -Werror -O2 -Ibindings/c -o target/$$program bindings/c/$$program.c \
	    target/staticlib/libgelmush.a || exit 1; done
	@target/case1 | diff bindings/c/case1.out -
	@cargo test --offline --release --quiet --manifest-path bindings/rust/Cargo.toml

# The program where reads and writes fail, wait or come in parts.
failures:
	$(call prove,run,shelf)
	@cargo test --offline --release --quiet --manifest-path compare/Cargo.toml --test failures -- --ignored

# The calls measured beside the second implementation and the published procedure: the tables of docs/PERFORMANCE.md, and its plots anew.
bench: archive
	@echo "measuring under valgrind's callgrind: about two minutes; writes the plots docs/growth-*.svg anew" >&2
	@cargo run --offline --release --quiet --manifest-path bench/Cargo.toml --features ours -- all docs

# Instructions that four beacons on the same 32 requests cost, first at 15 time units, then at 1,000 (valgrind's callgrind).
cost:
	$(call prove,run,demo_cost)
	@name=$$(nm target/bin/demo_cost | grep -o 'demo_cost::four_beacons.*' | head -n 1) && out=$$(mktemp -d) \
	    && valgrind -q --tool=callgrind --callgrind-out-file=$$out/cg --zero-before="$$name" --dump-after="$$name" target/bin/demo_cost > /dev/null \
	    && grep -h '^summary' $$out/cg.1 $$out/cg.2 && rm -r $$out
