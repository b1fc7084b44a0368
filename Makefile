# Two commands for everybody (run, test), three for C programmers (host, install, dist), the rest for those who work here.
.PHONY: test run host install dist fuzz soak soak-shelves stack sanitized bench goals nanopb figures peer fmt face quotes

PREFIX = /usr/local
CFLAGS = -O2
# What every C file here is compiled with, besides.
STRICT = -std=c99 -pedantic -Wall -Wextra -Wconversion -Wsign-conversion -Werror -Iinclude -Itools
ARCHIVE = target/staticlib/libbim.a
PROGRAMS = host lengths write startup explain holds lint mark pack table init fleet shelf report apart
TRIALS = refusals faults bits exact messages walk reports threads stack shelves cuts sources
# The programs whose C code runs under the sanitizers. Not stack: it brings a stack of its own, of which they know nothing.
SANITIZED = $(PROGRAMS) refusals faults bits exact messages walk reports threads header shelves cuts sources
SANITIZERS = -O1 -g -fsanitize=$(SANITIZE) -fno-sanitize-recover=all
export SANITIZE = address,undefined
# The header says which.
VERSION := $(shell awk '/^.define BIM_VERSION / { printf "%d.%d", $$3 / 100, $$3 % 100 }' include/bim.h)

# What is proved. Any change below crates/ proves it again; out/ is what rt made of it.
SOURCES := crates.txt $(shell find crates -name out -prune -o \( -path '*/src/*.rt' -o -path '*/specs/*.antt' -o -path '*/proofs/*.antt' \) -print)

# The archive is for x86-64. On another processor what is linked with it is compiled for that, and run under an emulator, by tests/emulated/bin.
ifneq ($(shell uname -m),x86_64)
# What does not touch the archive stays the machine's own; .ci/run sees to the rest itself.
test peer fmt: export PATH := $(PATH)
export PATH := $(CURDIR)/tests/emulated/bin:$(PATH)
# Not AddressSanitizer: the emulator would have to keep account of its 16 TB of shadow, and runs out of memory.
SANITIZE = undefined
endif

# The gate: what has to pass before anything is merged.
test:
	bash .ci/run

# Proves the C calls, a line for each crate, and lists one film to three receivers.
run: target/c/host
	@bash examples/film

# The small receiver, what gives a payload its lengths, the table curator's programs, where the bits go, and butted payloads apart, in target/c.
host: $(PROGRAMS:%=target/c/%)

vpath %.c examples examples/nanopb tools tests peer/src/bin/speed
target/c/%: %.c $(ARCHIVE) $(wildcard include/*.h tools/*.h tests/*.h)
	@mkdir -p target/c
	$(CC) $(STRICT) $(CFLAGS) $< $(ARCHIVE) -o $@

# Two threads, by POSIX.
target/c/threads target/sanitized/threads: STRICT += -pthread

# The program whose calls of the system it cuts is a part of it.
target/c/cuts target/sanitized/cuts: tools/shelf.c

target/sanitized/%: %.c $(ARCHIVE) $(wildcard include/*.h tools/*.h tests/*.h)
	@mkdir -p target/sanitized
	$(CC) $(STRICT) $(SANITIZERS) $< $(ARCHIVE) -o $@

# The C calls, proved and then compiled (crate bim_c): some minutes from nothing.
$(ARCHIVE): $(SOURCES)
	@bash dev/prove staticlib bim
	@touch $@

# The shared library: the archive's own machine code, which is position independent, and nothing besides.
SHARED = target/dist/libbim.so.$(VERSION)
$(SHARED): $(ARCHIVE) dist/libbim.map
	@mkdir -p target/dist
	$(CC) -shared -nostartfiles -Wl,--whole-archive $(ARCHIVE) -Wl,--no-whole-archive -Wl,--version-script=dist/libbim.map \
	    -Wl,-soname,libbim.so.$(basename $(VERSION)) -Wl,-z,defs -Wl,-z,now -Wl,-z,text -Wl,-z,noexecstack -o $@

# The programs under the names that they are installed by.
target/dist/bim-%: %.c $(ARCHIVE) $(wildcard include/*.h tools/*.h)
	@mkdir -p target/dist
	$(CC) $(STRICT) $(CFLAGS) -DNAMED='"bim-"' $< $(ARCHIVE) -o $@

# The proved listing program.
target/bin/list: $(SOURCES) | $(ARCHIVE)
	@bash dev/prove program list
	@touch $@

# Libraries, headers, package files, programs and man pages.
INSTALLED = $(PROGRAMS) list
TO_INSTALL = $(SHARED) $(PROGRAMS:%=target/dist/bim-%) target/bin/list
install: $(TO_INSTALL)
	bash dist/install "$(DESTDIR)$(PREFIX)" "$(abspath $(PREFIX))" $(VERSION) $(INSTALLED)

# The same with documents, examples and the proof's verdicts, as a tarball that needs no kit.
dist: $(TO_INSTALL)
	@bash dist/pack $(VERSION) $(INSTALLED)

# The headers, the C programs and what the documents quote of them: the gate's part for the C side.
face: host $(TRIALS:%=target/c/%) $(TO_INSTALL)
	bash tests/face

# Writes anew what the documents quote.
quotes: host $(TRIALS:%=target/c/%) $(TO_INSTALL)
	bash tests/quotes --write

# The C side under AddressSanitizer and UndefinedBehaviorSanitizer, the C calls and a sample of the comparison under valgrind: a part of the gate.
sanitized: peer/target/release/calls $(SANITIZED:%=target/sanitized/%) target/c/exact target/c/messages target/c/reports target/c/threads target/c/host target/c/write target/c/shelf target/c/shelves target/c/fleet target/c/lint target/c/holds
	bash tests/sanitized

# The stack that each call needs, held to BIM_STACK.
stack: target/c/stack
	target/c/stack examples/tables.txt examples/payloads.txt examples/lists.txt examples/settings.txt --messages examples/messages.txt
	bash tests/frames $(ARCHIVE)

# The proved C calls under libFuzzer, the peer judging: make fuzz SECONDS=600.
fuzz: SECONDS = 60
fuzz: $(ARCHIVE)
	bash tests/fuzz $(SECONDS)

# The proved C calls against the peer on seeded cases: make soak CASES=20000000 SEED=1. Prints rows of docs/FIGURES.md.
soak: CASES = 20000000
soak: SEED = $(shell date +%s)
soak: peer/target/release/calls
	bash tests/soak $(CASES) $(SEED)

# Damaged shelf files alone, at least a million of them: make soak-shelves FILES=1000000 SEED=1. Prints rows of docs/FIGURES.md.
soak-shelves: FILES = 1000000
soak-shelves: SEED = $(shell date +%s)
soak-shelves: peer/target/release/calls
	bash tests/soak --shelves $(FILES) $(SEED)

peer/target/release/calls: $(ARCHIVE) $(shell find peer/src peer/build.rs peer/Cargo.toml) $(wildcard examples/*.txt)
	cd peer && cargo build --release --locked --offline --quiet --features host_write --bin calls
	@touch $@

# nanopb, which the bench compares with: where Debian's nanopb and libnanopb-dev are, on the archive's own processor. Elsewhere its rows are skipped.
NANOPB := $(if $(filter x86_64,$(shell uname -m)),$(and $(wildcard /usr/include/pb_decode.h),$(wildcard /usr/bin/nanopb_generator.py)))

# What its generator makes of the guide's messages. Its code is its own: it is not held to our warnings.
target/nanopb/guide.pb.c: examples/nanopb/guide.proto examples/nanopb/guide.options
	@mkdir -p target/nanopb
	@nanopb_generator.py -q -D target/nanopb -I examples/nanopb guide.proto

target/nanopb/guide.pb.o: target/nanopb/guide.pb.c
	$(CC) -O3 -Itarget/nanopb -c $< -o $@

target/nanopb/%.o: %.c target/nanopb/guide.pb.c $(wildcard include/*.h examples/nanopb/*.h)
	$(CC) $(STRICT) -O3 -isystem target/nanopb -c $< -o $@

# What the bench asks of nanopb.
target/nanopb/libguide.a: target/nanopb/nanopb.o target/nanopb/guide.pb.o
	@rm -f $@
	ar rcs $@ $^

# The guide of examples/nanopb from BiM to nanopb, printed.
ifeq ($(NANOPB),)
nanopb:
	@echo "SKIPPED: nanopb is not on this machine"
else
nanopb: target/nanopb/guide
	@target/nanopb/guide examples/nanopb/guide.table examples/nanopb/guide.bim
endif
target/nanopb/guide: target/nanopb/guide.o target/nanopb/guide.pb.o $(ARCHIVE)
	$(CC) $^ -lprotobuf-nanopb -o $@

# The bench's program, with what it is linked with.
define SPEED
@$(MAKE) --no-print-directory $(ARCHIVE) $(if $(NANOPB),target/nanopb/libguide.a) >&2
@cd peer && cargo build --profile speed --locked --offline --quiet --features $(if $(NANOPB),nanopb,host_write) --bin speed && target/speed/speed
endef

# The proved C calls against the peer's fast ones and nanopb: times, instruction counts and growth. A part of docs/FIGURES.md.
bench:
	$(SPEED)

# The instruction counts alone, of the rows that have a goal (peer/src/bin/speed/goals.rs): a part of the gate.
goals:
	$(SPEED) goals

# docs/FIGURES.md anew, or only some of its parts: make figures PARTS="lines stack" (lines gate stack goals speed split soak shelves fuzz).
figures: PARTS =
figures: target/c/stack peer/target/release/calls
	@bash dev/figures $(PARTS) >target/figures.md && mv target/figures.md docs/FIGURES.md

# The second, independent implementation: its tests, the demands as properties, and the vectors asked again.
peer:
	cd peer && cargo test --release --quiet && cargo run --release --quiet --bin properties && cargo run --release --quiet --bin vectors -- --check

fmt:
	for crate in crates/*/; do (cd $$crate && rt fmt) || exit 1; done
	cd peer && cargo fmt
