# `make run` surveys and lists the example barge, `make examples` does it in C and Rust; `make test` proves and tests everything;
# `make fuzz N=100` compares fresh scripts; `make bench` times the calls beside the same calls in plain Rust; `make install PREFIX=`
# brings header, archive and pkg-config file to a place.
KIT := rattle-kit-13f logic dac8208d650f15bf
PROGRAMS := survey sheetlist figures
ARCHIVE := target/staticlib/libfummidrake.a

# A line that hands its output on fails where its first command does.
SHELL := bash
.SHELLFLAGS := -o pipefail -ec

.PHONY: test proofs reference-tests run examples fuzz bench archive install stored kit $(PROGRAMS)

test: kit
	@tools/needs
	@python3 tools/promises.py
	@python3 tools/mapped.py
	@python3 tools/header.py
	@$(MAKE) -s --no-print-directory reference-tests
	@$(MAKE) -s --no-print-directory proofs
	@python3 tools/edits.py
	@python3 tools/lists.py > target/lists.log || { cat target/lists.log; exit 1; }
	@python3 tools/examples.py
	@python3 tools/installed.py
	@$(MAKE) -s --no-print-directory target/boundary target/stack
	@target/boundary
	@target/stack
	@$(MAKE) -s --no-print-directory target/bench
	@target/bench --check

# Every proof, edit, program and layout, with nothing before it and nothing beside it, since `rt` takes every processor. What it says is
# kept: it alone tells what each edit came to.
proofs: kit
	@rt ci | tee target/ci.log

# The second program's own tests, the picture's, and that what is stored is what the second program prints today.
reference-tests:
	@python3 -m unittest discover -q -s reference -t .
	@python3 -m unittest discover -q -s picture -t .
	@python3 tools/stored.py --check

# Proves the library and the programs over it, then plays the example barge's morning and lists the sheet that it wrote.
run: survey sheetlist
	@crates/survey/out/survey < examples/barge.txt
	@crates/sheetlist/out/sheetlist < examples/barge.day

# Proves a program and all that it stands on, over what was proved before, and builds it, crates/NAME/out/NAME; it is run on nothing.
$(PROGRAMS): kit
	@(cd crates/$@ && rt run < /dev/null) > target/$@.log 2>&1 || { cat target/$@.log; exit 1; }

# Builds and runs the programs in C and Rust by the README's lines, and compares what they print with the second program's answers.
examples: kit
	@tools/needs
	@$(MAKE) -s --no-print-directory survey
	@python3 tools/examples.py -v

# Plays N fresh scripts at random on the proved program and on the second one, and stops at the first difference.
N := 20
fuzz: survey
	@python3 tools/fuzz.py $(N)

# Times each call beside the same call in plain Rust, and how both grow with the spaces that stand (docs/PERFORMANCE.md).
bench: kit
	@$(MAKE) -s --no-print-directory target/bench
	@target/bench

# Both sides as a release has them: the kit compiles the archive at -O3 for x86-64 of level v2, and so is the plain side here.
target/bench: $(wildcard bench/*.rs bench/plain/*.rs) rust/fummidrake.rs $(ARCHIVE)
	@rustc --edition 2021 -C opt-level=3 -C codegen-units=1 -C target-cpu=x86-64-v2 -L target/staticlib -l static=fummidrake bench/main.rs -o $@

# Tests in C of what no proof reaches: the boundary between C and the calls, and the stack that each takes (`target/stack -v` prints it).
target/boundary target/stack: target/%: tools/%.c include/fummidrake.h $(ARCHIVE)
	@gcc -std=c11 -Wall -Wextra -Wpedantic -Werror -O1 -Iinclude $< $(ARCHIVE) -o $@

# Brings header, archive and pkg-config file to PREFIX.
PREFIX := /usr/local
VERSION := $(shell cat VERSION)
install: $(ARCHIVE)
	@install -d $(DESTDIR)$(PREFIX)/include $(DESTDIR)$(PREFIX)/lib/pkgconfig
	@install -m 644 include/fummidrake.h $(DESTDIR)$(PREFIX)/include
	@install -m 644 $(ARCHIVE) $(DESTDIR)$(PREFIX)/lib
	@sed 's|@PREFIX@|$(abspath $(PREFIX))|; s|@VERSION@|$(VERSION)|' include/fummidrake.pc.in > $(DESTDIR)$(PREFIX)/lib/pkgconfig/fummidrake.pc

# Proves the calls for C and Rust and all that they stand on, over what was proved before, and writes the archive.
archive: $(ARCHIVE)

$(ARCHIVE): crates.txt $(wildcard crates/*/src/*.rt) | kit
	@(cd crates/fummidrake_c && rt lib) > target/staticlib.log 2>&1 || { cat target/staticlib.log; exit 1; }
	@install -m 644 -D crates/fummidrake_c/out/libfummidrake_c.a $@

# Writes every stored input and expected output anew, from the second program.
stored:
	@python3 tools/stored.py

kit:
	@command -v rt > /dev/null || { echo "the Rattle kit is missing: no 'rt' on the path (proved with $(KIT))"; exit 1; }
	@test "$$(rt version)" = "$(KIT)" || echo "note: this is $$(rt version); proved with $(KIT)"
	@mkdir -p target
