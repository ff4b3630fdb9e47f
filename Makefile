# make, alone, says what there is to make.

.PHONY: help demo test edits lib test-face fuzz fuzz-face sessions bench install uninstall clean
.DEFAULT_GOAL := help

SECONDS ?= 60
SEED ?= 1
CALLS ?= 10000000
PREFIX ?= /usr/local
TO := $(DESTDIR)$(PREFIX)
LIB := target/staticlib/libwy50.a
COUNTER := target/staticlib/libwy50_counter.a
HEADERS := wy50.h wy50_counter.h
RUST := wy50 wy50-counter
# bench writes its tables and their pictures where git does not see them, unless they are to be saved
TABLE := $(if $(SAVE),docs,target)/BENCHMARKS.md
PICTURES := $(dir $(TABLE))pictures
TERMINAL := $(addprefix crates/,rules page state plan carry terminal)
sources = crates.txt $(shell find $(1) -name out -prune -o '(' -name '*.rt' -o -name '*.antt' ')' -print)

help: ## these lines
	@awk -F ':.*## ' '/^[a-z-]+:.*## / { printf "    make %-10s %s\n", $$1, $$2 }' $(MAKEFILE_LIST)

demo: ## plays two host streams: page, refusals, what members are sent with its text parts
	@tools/need rt
	@examples/demo

test: ## the gate: proves every crate, tries the must-fail edits, runs the tests
	@tools/need rt cargo
	@tests/gate

edits: ## tries all wrong programs, and says in tests/edits/RECORD where each is refused; CRATES="page plan"
	@tools/need rt cargo
	@tests/edits/run $(CRATES)

lib: $(LIB) $(COUNTER) ## libwy50.a and libwy50_counter.a, in target/staticlib

$(LIB): $(call sources,$(TERMINAL) crates/fields crates/saved crates/mend crates/repaint crates/session crates/wy50)
	@tools/prove wy50
	@mkdir -p $(@D) && cp crates/wy50/out/libwy50.a $@

# the crate of the calls from C stands on the library of the same calls, wy50_counter
$(COUNTER): $(call sources,$(TERMINAL) crates/counter crates/wy50_counter crates/wy50_counter_c)
	@tools/prove wy50_counter_c
	@mkdir -p $(@D) && cp crates/wy50_counter_c/out/libwy50_counter_c.a $@

test-face: lib ## tests of the libraries from C and Rust, the examples and the pages
	@tests/face/run

# over the replay that make test or tools/prove has built
fuzz: ## random scripts against the independent implementation; SECONDS=60 SEED=1
	@tools/need cargo
	@test -x crates/replay/out/replay || tools/prove replay
	@$$(tests/build-independent) compare crates/replay/out/replay $(SEED) --seconds $(SECONDS)

fuzz-face: $(LIB) ## random calls from C under the sanitizers; SECONDS=60
	@mkdir -p target/face
	$(CC) -std=c99 -Wall -Wextra -Werror -O1 -g -fsanitize=address,undefined -fno-sanitize-recover=all -Iinclude tests/face/fuzz.c $(LIB) -o target/face/fuzz
	target/face/fuzz $(SECONDS)

sessions: $(LIB) ## demand 3 over whole sessions: pairs of terminals through the C face; CALLS=10000000 SEED=1
	@mkdir -p target/face
	$(CC) -std=c99 -Wall -Wextra -Werror -O2 -Iinclude tests/face/sessions.c $(LIB) -o target/face/sessions
	target/face/sessions $(CALLS) $(SEED)

bench: lib ## times beside the peers, with bars, to target/BENCHMARKS.md; with SAVE=1 to docs/BENCHMARKS.md
	@tools/need cargo
	@echo '#include <vterm.h>' | $(CC) -E - >/dev/null 2>&1 || { echo 'make bench needs libvterm: apt-get update && apt-get install -y libvterm-dev'; exit 1; }
	@CARGO_TARGET_DIR=target/bench cargo build --release --offline --quiet --manifest-path tests/bench/Cargo.toml
	@target/bench/release/bench $(TABLE)
	@mkdir -p $(PICTURES)
	@for name in peers growth; do tools/draw $$name $(TABLE) > $(PICTURES)/$$name.svg || exit 1; done

install: lib ## libraries, headers, pkg-config files and the Rust crates' source; PREFIX=/usr/local
	install -d $(TO)/lib/pkgconfig $(TO)/include
	install -m 644 $(LIB) $(COUNTER) $(TO)/lib
	install -m 644 $(addprefix include/,$(HEADERS)) $(TO)/include
	for name in wy50 wy50_counter; do \
	    sed -e 's|@PREFIX@|$(PREFIX)|' -e "s|@VERSION@|$$(cat VERSION)|" $$name.pc.in > $(TO)/lib/pkgconfig/$$name.pc || exit 1; \
	done
	for crate in $(RUST); do \
	    install -d $(TO)/share/wy50/rust/$$crate/src && install -m 644 LICENSE rust/$$crate/Cargo.toml rust/$$crate/build.rs $(TO)/share/wy50/rust/$$crate \
	        && install -m 644 rust/$$crate/src/*.rs $(TO)/share/wy50/rust/$$crate/src || exit 1; \
	done
	install -d $(TO)/share/wy50/rust/wy50/examples
	install -m 644 rust/wy50/examples/*.rs $(TO)/share/wy50/rust/wy50/examples

uninstall: ## takes out what install put there; the same PREFIX
	rm -f $(addprefix $(TO)/lib/,$(notdir $(LIB) $(COUNTER))) $(addprefix $(TO)/include/,$(HEADERS)) $(TO)/lib/pkgconfig/wy50.pc $(TO)/lib/pkgconfig/wy50_counter.pc
	rm -rf $(TO)/share/wy50

clean: ## removes all that was built, the proofs too
	rm -rf target crates/*/out
