# Targets that prove first (demo, example, pack, bench, linked) say on stderr which crate was proved and in what time; target/NAME.log has all of it.
# demo: builds the bench program and runs it on document 01's whole case.
# example: builds the library and runs the C program of c/example.c.
# pack FILE=..: checks a language pack from a file, and shows what is wrong with it and where.
# bench: times of the library and of ordinary Rust, side by side; SECTION=check (or read_number, select, print) for one section alone.
# test: the gate, which proves every crate that it has not passed on this machine, holds the files to their layout, tries the edits that must fail
#   and runs the programs;
#   then what links the library: the tries from C and the comparison with ordinary Rust. OKW_ROUNDS sets how long the comparison is.
SHELL := /bin/bash
.SHELLFLAGS := -eu -o pipefail -c
.PHONY: demo example pack bench test linked

SCREEN := target/staticlib/libscreen.a
SOURCES := crates.txt $(shell find crates -name out -prune -o \( -name '*.rt' -o -name '*.antt' \) -print)
CARGO := cargo --offline --quiet
RUST := --release --manifest-path rust/Cargo.toml
CC_FLAGS := -std=c11 -O2 -Wall -Wextra -Werror -Iinclude

demo:
	@.ci/progress run bench
	@target/bin/bench < demo/whole-case.jobs

# A static library: proved, then compiled.
target/staticlib/lib%.a: $(SOURCES)
	@.ci/progress lib $*

example: $(SCREEN)
	@mkdir -p target/c
	@cc $(CC_FLAGS) c/example.c $(SCREEN) -o target/c/example
	@target/c/example

pack: $(SCREEN)
	@test -n "$(FILE)" || { echo "make pack FILE=.. wants a file"; exit 2; }
	@$(CARGO) run $(RUST) -p packreport -- "$(FILE)"

bench: $(SCREEN)
	@$(CARGO) run $(RUST) -p compare --bin bench -- $(SECTION)

# What links the library: every entry from C with areas of every size, the C example, and the Rust side.
linked: $(SCREEN)
	@mkdir -p target/c
	@cc $(CC_FLAGS) c/areas.c $(SCREEN) -o target/c/areas
	@target/c/areas
	@cc $(CC_FLAGS) c/example.c $(SCREEN) -o target/c/example
	@target/c/example | diff - c/example.out
	@$(CARGO) test $(RUST)

# The gate's own last line is said again at the end. An edit that the gate could not try proves nothing, so it fails here.
test:
	@log=$$(mktemp); trap 'rm -f "$$log"' EXIT; \
	rt ci | tee "$$log"; \
	if grep -qE '^rt: ok.*, [1-9][0-9]* bad' "$$log"; then echo "an edit could not be tried"; exit 1; fi; \
	$(MAKE) --no-print-directory linked; \
	tail -n 1 "$$log"
