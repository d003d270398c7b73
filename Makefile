# Two commands: `make samples` proves and runs the programs over the sample frames and prints what they wrote, the frames as a table; `make
# test` passes everything, and its last line is rt's 'N passed, 0 failed'. Neither fetches anything.
SHELL := /bin/bash
.PHONY: samples test boundary c archive differential bench fuzz live kit

samples: kit
	@mkdir -p target/log
	@cd crates/samples && rt run >../../target/log/samples.stdout 2>../../target/log/samples.log || { cat ../../target/log/samples.log >&2; exit 1; }
	@cat target/log/samples.stdout
	@diff target/log/samples.stdout crates/samples/stdout
	@tools/run_vectors >target/log/vectors.stdout
	@diff target/log/vectors.stdout crates/vectors/stdout
	@tools/frames_table crates/vectors/data target/log/vectors.stdout

test: kit
	@tools/check_citations
	@tools/check_vectors
	@tools/check_codes
	@tools/check_crates
	@tools/check_rules
	@tools/check_quotes
	@tools/gate && $(MAKE) -s boundary && tail -n 1 target/log/ci.log

# the archives, used from C and from Rust
boundary: archive
	@$(MAKE) -s c
	@cd rust && cargo test --offline --release --quiet
	@cd rust && if cargo fmt --version >/dev/null 2>&1; then cargo fmt --all --check; else echo "cargo fmt is not installed: the form of rust/ is not checked"; fi
	@cd rust && if cargo clippy --version >/dev/null 2>&1; then cargo clippy --offline --quiet --all-targets -- -D warnings; \
		else echo "cargo clippy is not installed: rust/ is not linted"; fi

# the C side, on the archives as they stand: the tests (chunks, every_field and why as C99, C11 and C++17), the examples (the daemon is not run), and the
# seeds of the fuzzing; what takes no chunks is linked without libisis_gr_chunks.a, what asks no question without libisis_gr_why.a
WARN = -O1 -Wall -Wextra -Werror -Iinclude -Iexamples
LINK = -Ltarget/staticlib -lisis_gr
CHUNKS = -Ltarget/staticlib -lisis_gr_chunks -lisis_gr
ASKS = -Ltarget/staticlib -lisis_gr_why -lisis_gr
EVERY = -Ltarget/staticlib -lisis_gr_why -lisis_gr_chunks -lisis_gr
c:
	@mkdir -p target/c
	@for name in every_call levels limits old_software; do \
		case $$name in every_call|limits) link="$(CHUNKS)";; *) link="$(LINK)";; esac; \
		$(CC) -std=c99 -pedantic $(WARN) tests/c/$$name.c $$link -o target/c/$$name && target/c/$$name || exit 1; \
	done
	@for name in chunks every_field why; do \
		case $$name in why) link="$(EVERY)";; *) link="$(CHUNKS)";; esac; \
		for std in c99 c11; do \
			$(CC) -std=$$std -pedantic $(WARN) tests/c/$$name.c $$link -o target/c/$$name && target/c/$$name || exit 1; \
		done; \
		$(CXX) -x c++ -std=c++17 $(WARN) tests/c/$$name.c $$link -o target/c/$$name && target/c/$$name || exit 1; \
	done
	@$(CC) -std=c99 -pedantic $(WARN) tests/c/stack.c $(EVERY) -o target/c/stack && target/c/stack
	@set -o pipefail; for name in first two_ends radio why; do \
		case $$name in radio) link="$(CHUNKS)";; why) link="$(ASKS)";; *) link="$(LINK)";; esac; \
		$(CC) -std=c99 -pedantic $(WARN) examples/$$name.c $$link -o target/c/$$name \
			&& target/c/$$name | diff - examples/$$name.out && echo "examples/$$name.c: printed examples/$$name.out" || exit 1; \
	done
	@$(CC) -std=c99 -pedantic $(WARN) examples/daemon.c $(EVERY) -o target/c/daemon
	@$(CC) -std=c99 -pedantic $(WARN) tests/fuzz/receive.c tests/fuzz/replay.c $(EVERY) -o target/c/replay
	@tools/fuzz_seeds target/seeds && target/c/replay $$(find target/seeds tests/fuzz/cases -type f 2>/dev/null)

# the calls, frames in chunks, and why: crate NAME_c is NAME's archive
archive:
	@mkdir -p target/staticlib target/log
	@for name in isis_gr isis_gr_chunks isis_gr_why; do \
		tools/quietly target/log/$${name}_c.log crates/$${name}_c rt lib \
			&& cp crates/$${name}_c/out/lib$${name}_c.a target/staticlib/lib$$name.a || exit 1; \
	done

# ten million calls on the archives and on the reference, and the branches that they reached
differential: archive
	@cd rust && cargo run --offline --release --quiet -p isis-gr-differential -- 10000000

# the calls against the reference, five rounds pinned to one core; writes the table and the picture of docs/BENCH.md
bench: archive
	@cd rust && cargo build --offline --release --quiet -p isis-gr-bench
	@$$(command -v taskset >/dev/null && echo taskset -c 1) rust/target/release/isis-gr-bench docs/BENCH.md docs/pictures/bench.svg

# receive under clang's libFuzzer and AddressSanitizer, for FUZZ_SECONDS
FUZZ_SECONDS ?= 600
fuzz: archive
	@mkdir -p target/c && tools/fuzz_seeds target/corpus
	@clang -g -O1 -fsanitize=fuzzer,address -Wall -Wextra -Werror -Iinclude tests/fuzz/receive.c $(EVERY) -o target/c/fuzz_receive
	@target/c/fuzz_receive -max_total_time=$(FUZZ_SECONDS) -max_len=4096 target/corpus

# examples/daemon.c against FRR and against itself, in network namespaces of its own; as root, with Debian's frr and tshark
live: archive
	@$(MAKE) -s c
	@tools/live

# the Rattle kit that the proofs were made with
kit:
	@tools/check_kit
