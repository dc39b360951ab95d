# make test: the gate, as .ci/run runs it. make demo: the session of document 01. make run FILMS=films.bin < commands: one's own.
# rt stands for the toolchain's command, which is on the PATH.
.PHONY: test demo run film-file sessions fmt lib archive examples differential

FILMS ?= films.bin
HALL := target/bin/hall

# The folder of what cargo builds.
CARGO := CARGO_TARGET_DIR=$(CURDIR)/target/cargo cargo

# A crate of the repository, and those on its line.
crates_of = $(1) $(shell sed -n 's/^$(1)[a-z ]*://p' crates.txt)
sources_of = $(foreach crate,$(call crates_of,$(1)),$(wildcard crates/$(crate)/src/*.rt crates/$(crate)/src/*/*.rt))

# $(call proved,CRATE,COMMAND): runs a command of rt in the crate's folder, which proves it and those on its line that have changed: minutes
# from nothing. Counts on standard error those that are proved, and shows all that rt said if the command fails. What rt leaves as it was,
# as its sources are the same though newer, is newer too then.
define proved
@rm -f target/$(1).status && echo "$(1): proving up to $(words $(call crates_of,$(1))) crates" >&2
@{ (cd crates/$(1) && $(2)) 2>&1; echo $$? > target/$(1).status; } | tee target/$(1).log | sed -un '/^logic=proved /p' | { \
	n=0; while read -r line; do n=$$((n + 1)); echo "proved: $$n" >&2; done; }
@[ "$$(cat target/$(1).status)" = 0 ] || { cat target/$(1).log; exit 1; }
@touch -c $@
endef

test:
	@.ci/run

$(HALL): crates/hall/out/hall
	@mkdir -p target/bin && cp $< $@

# Built anew when a source of hall, or of a crate on its line, is newer. rt runs what it built: here on no input and no film file.
crates/hall/out/hall: $(call sources_of,hall) | target
	$(call proved,hall,rt run </dev/null)

demo: $(HALL)
	@rm -rf target/demo && mkdir -p target/demo && cp crates/hall/data/films.bin target/demo/
	@while IFS= read -r line; do echo "$$line" >> target/demo/input; echo "> $$line"; \
		before=$$(cat target/demo/output 2>/dev/null | wc -l); \
		(cd target/demo && ../bin/hall < input > output); \
		tail -n +$$((before + 1)) target/demo/output; done < crates/hall/stdin

# Asked first, since building takes minutes. The program itself takes a missing file for an empty one.
film-file:
	@[ -f "$(FILMS)" ] || { echo "make run: there is no film file $(FILMS); FILMS=file names another" >&2; exit 1; }

run: film-file $(HALL)
	@rm -rf target/run && mkdir -p target/run && cp "$(FILMS)" target/run/films.bin && cd target/run && ../bin/hall

# make sessions: drawn sessions of the program itself against the second implementation, 200 of a seed from the clock.
# SEED=1 is the gate's.
SESSIONS ?= 200
sessions: $(HALL)
	@$(CARGO) run -q --release --manifest-path reference/Cargo.toml --bin drive -- $(HALL) $(SESSIONS) $(SEED)

target:
	@mkdir -p target

fmt:
	@for crate in $$(sed -n 's/^\([a-z0-9_]*\).*:.*/\1/p' crates.txt); do (cd crates/$$crate && rt fmt) || exit 1; done

# ---- The library for C and Rust

# The folder of the archive; another one may be named, and is then taken as it is.
PLAYBACK_LIB_DIR ?= $(CURDIR)/target/staticlib
export PLAYBACK_LIB_DIR
ARCHIVE := $(PLAYBACK_LIB_DIR)/liblent.a

# make lib: target/staticlib/liblent.a, where a source has changed.
lib: archive

$(CURDIR)/target/staticlib/liblent.a: crates/lent_c/out/liblent_c.a
	@mkdir -p target/staticlib && cp $< $@

crates/lent_c/out/liblent_c.a: $(call sources_of,lent_c) | target
	$(call proved,lent_c,rt lib)

archive: $(ARCHIVE)

# make examples: the C example and the Rust one print the same day; the Rust crate's tests and the examples of its documentation.
examples: $(ARCHIVE)
	@mkdir -p target/examples
	@$(CXX) -std=c++11 -Wall -Wextra -Wpedantic -Werror -fsyntax-only -x c++ include/playback.h
	@$(CC) -std=c11 -O2 -Wall -Wextra -Wpedantic -Werror -Iinclude examples/day.c $(ARCHIVE) -o target/examples/day
	@target/examples/day > target/examples/c.txt
	@cd bindings && $(CARGO) test -q --release
	@cd bindings && $(CARGO) run -q --release --example day > ../target/examples/rust.txt
	@cmp examples/day.txt target/examples/c.txt && cmp examples/day.txt target/examples/rust.txt
	@cat target/examples/c.txt && echo "C and Rust: as examples/day.txt"

# make differential: drawn calls of the library against the second implementation, 10,000 of a seed from the clock.
# CALLS=1500 SEED=1 is the gate's.
CALLS ?= 10000
SEED ?=
differential: $(ARCHIVE)
	@cd differential && $(CARGO) run -q --release -- $(CALLS) $(SEED)

# ---- Measured

.PHONY: bench bench-test study picture
MEASURE := $(CURDIR)/target/cargo/measure
BUILD_BENCH = @cd bench && $(CARGO) build -q --profile measure

# make bench-test: the library and both versions in Rust agree with the second implementation on drawn input.
bench-test: $(ARCHIVE)
	@cd bench && $(CARGO) test -q --release

# make bench: times beside two versions in Rust, growth, stack, instructions; under ten minutes. make study: the papers' comparison.
# With WRITE=1 their tables go into docs/BENCHMARKS.md and their pictures into docs/pictures. PARTS="files days .." takes some parts.
bench: $(ARCHIVE) $(HALL)
	$(BUILD_BENCH)
	@$(MEASURE)/bench $(if $(WRITE),--write docs/BENCHMARKS.md docs/pictures) --hall $(HALL) $(PARTS)

study: $(ARCHIVE)
	$(BUILD_BENCH)
	@$(MEASURE)/study $(if $(WRITE),--write docs/BENCHMARKS.md docs/pictures/study.svg)

# make picture: the example day of bench/day as docs/pictures/day.svg. One's own: DAY=folder OUT=picture.svg, the folder with films.bin
# and commands; or, for a journal, JOURNAL=file LIMITS="rounds disk memory" as well.
DAY ?= bench/day
OUT ?= docs/pictures/day.svg
picture: $(ARCHIVE)
	$(BUILD_BENCH)
	@$(MEASURE)/picture $(if $(JOURNAL),journal $(DAY)/films.bin $(JOURNAL) $(LIMITS),session $(DAY)/films.bin $(DAY)/commands) $(OUT)
