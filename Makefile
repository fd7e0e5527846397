# test     the gate
# run      the program refine on its tetrahedron
# lib      target/staticlib/librawplinth.a, for C and Rust to link (include/)
# example  the examples in C, built with the library and run
# twin     the library and the program beside the second implementation (needs cargo); with -j its runs go side by side
# soak     the same for SECONDS=N of random rounds, from SEED=N
# bench    the calls measured, as the table of docs/BENCHMARKS.md (needs cargo, and valgrind to count instructions)
RT := $(shell command -v rt || echo /opt/rattle/bin/rt)
SECONDS := 600
SEED := 1
SOURCES := crates.txt $(shell find crates -name out -prune -o \( -name '*.rt' -o -name '*.antt' \) -print)
LIB = target/staticlib/librawplinth.a
# rt ci builds the program too, and leaves it here.
PROGRAM = crates/refine/out/refine
CFLAGS = -std=c99 -Wall -Wextra -Wpedantic -Werror -Iinclude
CARGO = RAWPLINTH_LIB='$(CURDIR)/target/staticlib' cargo
TWIN = --release --quiet --manifest-path twin/Cargo.toml --target-dir target/twin

.PHONY: test run lib example twin twin-run twin-faults twin-tests twin-program soak bench
test:
	bash .ci/run
run: $(PROGRAM)
	@cd crates/refine/data && ../out/refine
$(PROGRAM): $(SOURCES)
	@cd crates/refine && $(RT) run >/dev/null
	@touch $@
lib: $(LIB)
$(LIB): $(SOURCES)
	@cd crates/rawplinth && $(RT) lib >/dev/null
	@mkdir -p $(@D)
	@cp crates/rawplinth/out/librawplinth.a $@
example: lib
	@for name in tetrahedron octahedron list shell journal editor; do \
	    $(CC) $(CFLAGS) example/$$name.c $(LIB) -o target/$$name && target/$$name || exit 1; \
	done
twin: twin-run twin-faults twin-tests twin-program
twin-run: lib
	$(CARGO) run $(TWIN)
twin-faults: lib
	$(CARGO) run $(TWIN) -- --faults
twin-tests: lib
	$(CARGO) test $(TWIN)
twin-program: lib $(PROGRAM)
	$(CARGO) run $(TWIN) -- --program $(PROGRAM)
soak: lib
	$(CARGO) run $(TWIN) -- --seconds $(SECONDS) --seed $(SEED)
bench: lib
	@$(CARGO) run --release --quiet --manifest-path bench/Cargo.toml --target-dir target/bench
