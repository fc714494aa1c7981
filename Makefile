# What make builds goes into build/, and what rt builds is left in crates/*/out/.
RUST_SRC = ../shared/docs/src

MAKEFLAGS += --no-print-directory
CARGO = cd build/oracle && cargo build -q --release --offline --target-dir target

.PHONY: all test demo header wrapper vectors lengths oracle port differential differential-long teeth bench ct fuzz edits clean help workspace bench-packages FORCE

all: build/libborder.a

help:
	@echo 'make demo     a first walk: keys, a note in records, refusals, a long padding'
	@echo 'make          build/libborder.a, the library for C and Rust on x86-64'
	@echo 'make header   compare the C header and the Rust wrapper with the source'
	@echo 'make wrapper  test the safe Rust wrapper over the library'
	@echo 'make test     the gate: the form of the statements, the lists in docs/, every proof, where each edit is refused'
	@echo 'make vectors  prove and run the programs of published vectors'
	@echo 'make lengths  prove the program lengths, run it and try its edges'
	@echo 'make port     build/port: the library behind the line protocol'
	@echo 'make differential       compare the Rust, the port and a model (a few thousand cases); -long: a million'
	@echo 'make teeth    the Rust with errors that look right: the comparison must catch all but two, which change no answer'
	@echo 'make oracle   build the Rust, unchanged, behind the line protocol, and try it (RUST_SRC=DIR)'
	@echo 'make bench    time the code beside the Rust, OpenSSL and libgcrypt, in one run: build/bench.tsv, docs/bench.svg'
	@echo 'make ct       valgrind over the library: no jump and no address by a secret, but for one test (docs/BENCHMARKS.md)'
	@echo 'make fuzz     random calls between guard pages, held to a model, for a minute (SECONDS=3600 SEED=1)'
	@echo 'make edits    docs/EDITS.md: where each edit is refused, from what rt must-fail says'
	@echo 'make clean    remove build/; the proofs stay in crates/*/out/'

# The gate, whatever make was told: its last line is the last of the run.
test:
	@.ci/run

# The archive of a static library, proved and compiled by the kit.
archive = (cd crates/$(1) && rt lib) && mkdir -p $(dir $@) && { cmp -s crates/$(1)/out/lib$(1).a $@ || cp crates/$(1)/out/lib$(1).a $@; }

build/libborder.a build/native/libborder.a build/timing/libborder.a: FORCE
	$(call archive,border_c)

build/native/libprobes.a: FORCE
	$(call archive,probes_c)

build/timing/libsm4_timing.a: FORCE
	$(call archive,sm4_timing_c)

# The gate compares this list with the tree.
edits:
	@mkdir -p build
	rt must-fail >build/must-fail.log
	tools/edits

# C and Rust are told what the source says.
header:
	tools/header_check_test
	tools/header_check

demo: build/native/libborder.a
	$(CC) -std=c99 -Wall -Wextra -O2 -Iinclude examples/demo.c build/native/libborder.a -o build/demo
	build/demo

wrapper: build/native/libborder.a
	folder="$$PWD/build/native" && cd rust && NOUSTREL_LIB="$$folder" cargo test -q --offline --target-dir ../build/rust

PROGRAMS = vectors hmac_vectors sm4_vectors sm4_published key_schedule_vectors record_vectors step_vectors opening_vectors replay
vectors:
	@for program in $(PROGRAMS); do tools/program $$program && echo "== $$program" && tools/run_program $$program || exit 1; done
	@tools/replay_test

# The program of the scope's worked example, and its edges.
lengths:
	tools/program lengths
	tools/run_program lengths | cmp - crates/lengths/stdout
	tools/lengths_test

oracle: build/noustrel-oracle
	oracle/check build/noustrel-oracle

build/noustrel-oracle: workspace
	$(CARGO) -p noustrel-oracle
	cp build/oracle/target/release/noustrel-oracle $@

# The port behind the line protocol, and the comparison with the Rust and the model.
port: build/native/libborder.a build/native/libprobes.a
	$(CC) -O2 -Wall -Wextra -Iinclude differential/port.c build/native/libborder.a build/native/libprobes.a -o build/port

differential: oracle port
	differential/run build/noustrel-oracle build/port

differential-long: oracle port
	differential/run --long build/noustrel-oracle build/port

# The Rust with an error that looks right must be caught, but for two that change no answer.
teeth: port
	differential/teeth $(RUST_SRC) build/port build/teeth

# OpenSSL and libgcrypt are timed beside ours, and SM4 also beside a scan in plain C, by two compilers.
BESIDE = build/timing/beside.o build/timing/thread.o build/timing/scan-gcc.o build/timing/scan-clang.o
KIT_CLANG = $$(dirname "$$(rt doc)")/toolchain/bin/clang
bench: bench-packages workspace build/timing/libborder.a build/timing/libsm4_timing.a
	@$(CC) -O2 -Wall -Wextra -c bench/beside.c -o build/timing/beside.o
	@$(CC) -O2 -Wall -Wextra -c bench/thread.c -o build/timing/thread.o
	@$(CC) -O3 -DSCAN=gcc -c bench/scan.c -o build/timing/scan-gcc.o
	@$(KIT_CLANG) --target="$$(uname -m)-unknown-linux-gnu" --no-default-config -fPIC -O3 -DSCAN=clang -c bench/scan.c \
	    -o build/timing/scan-clang.o
	@rm -f build/timing/libbeside.a && ar crs build/timing/libbeside.a $(BESIDE)
	NOUSTREL_LIB="$$PWD/build/timing" && export NOUSTREL_LIB && $(CARGO) -p noustrel-bench
	build/oracle/target/release/noustrel-bench build/bench.tsv
	bench/plot build/bench.tsv docs/bench.svg

bench-packages:
	@for header in openssl/evp.h gcrypt.h; do echo "#include <$$header>" | $(CC) -E - >/dev/null 2>&1 || \
	    { echo "make bench: no $$header: install libssl-dev and libgcrypt20-dev (Debian's names)" >&2; exit 1; }; done

# What is claimed of the machine code, for this compiler's output: docs/BENCHMARKS.md.
ct: build/native/libborder.a build/native/libprobes.a
	ct/run build

# Random calls at the C border, each span between guard pages; first the faults that must be caught.
SECONDS = 60
SEED = 1
fuzz: build/native/libborder.a
	@mkdir -p build/fuzz
	$(CC) -std=c99 -O2 -g -Wall -Wextra -Iinclude fuzz/*.c build/native/libborder.a -lcrypto -o build/fuzz/driver
	build/fuzz/driver teeth
	build/fuzz/driver $(SECONDS) $(SEED)

workspace:
	oracle/prepare $(RUST_SRC) build

clean:
	rm -rf build

FORCE:
