# `make` says what there is to do. What is built stands in build/, also what `rt` made of a crate, since `rt ci` clears crates/NAME/out; what each step printed, in build/log/.
.PHONY: help test demo install install-files bench fuzz fuzz-programs outside clean tools rt-tool FORCE
ifndef V
.SILENT:
endif

help:
	echo "make test      the whole gate: layout, every proof from nothing, the edits that must be refused, every program, and the library tried from outside;"
	echo "               about 35 minutes on two cores, the last line is 'N passed, 0 failed'"
	echo "make demo      proves what it shows (about 5 minutes, once), judges the records in samples/, prints a sheet and a slip, reads a game in Portable"
	echo "               Bridge Notation, merges two sections both ways, and makes a club's page"
	echo "make python    the shared libraries and the Python package clubscore, to run from the checkout; make python-test tries it, in 2 minutes"
	echo "make engines   the PostgreSQL extension duplicate_bridge and the MPI program standings-mpi; make engines-test tries both, in 1 minute"
	echo "make install   headers, archives, shared libraries and pkg-config files under PREFIX; 5 minutes where nothing is proved yet"
	echo "make bench     the speed of the proved judge, writer and merges beside Rust's; 2 minutes once built"
	echo "make fuzz      compares on random input for FUZZ_SECONDS (60), from SEED where given, and feeds the C programs for as long again; what is found is kept"
	echo "make jumps     which instructions and jumps of the archives and programs the trials run, by callgrind, and what is left; 3 minutes once built"
	echo "make other-ways    the same trials on processors of other kinds by qemu-user, and each program run in other ways; 5 minutes once built"
	echo "make reproducible  the archives built again from nothing in another folder, compared byte for byte"
	echo "make clean     removes build/ and what rt keeps of each crate"
	echo "V=1 shows each command."

# The seconds that each line of progress tells are counted from here, also in a make that this one calls.
BEGAN := $(or $(BEGAN),$(shell date +%s))
export BEGAN
STEP = make/progress.py step

PREFIX = /usr/local
FUZZ_SECONDS = 60
SEED =
RECORDS = 1000000
PENALTIES = 400000
WRITES = 500000
TALLIES = 1000000
TREES = 20000
SHEETS = 3000
SLIPS = 10000
TEAMS = 3000
ENDINGS = 32000
PBNS = 120000
BLOCKS = 20000
PBN_BLOCKS = 5000
PBN_GAMES = 3000

# The archive that judges, writes, tells best play, reads Portable Bridge Notation, and knows slips and boards, a member for each; build/stand-in/libjudge.a has the Rust ones
# behind the same interface, as build/stand-in/libtally.a has the Rust tally behind that of build/libtally.a.
ARCHIVE = build/libjudge.a
TALLY_ARCHIVE = build/libtally.a
TREE = build/bin/tree
SHEET = build/bin/sheet
CELLS = build/bin/cells
SLIP = build/bin/slip
BEST = build/bin/best
PBN = build/bin/pbn
TEAM = build/bin/team
MERGES = build/bin/try_merges

CC = cc
CXX = c++
WARNINGS = -Wall -Wextra -Wpedantic -Wconversion -Werror
CFLAGS = -std=c99 -O2 $(WARNINGS)
CXXFLAGS = -std=c++11 -O2 $(WARNINGS)

RUST = build/rust/release
CARGO = cd tests && JUDGE_ARCHIVE=$(abspath $(ARCHIVE)) TALLY_ARCHIVE=$(abspath $(TALLY_ARCHIVE)) CARGO_TARGET_DIR=$(abspath build/rust) cargo
SEED_WORDS = $(if $(SEED),--seed $(SEED))

# `rt ci` proves everything, and refuses files that are not laid out; what is tried from outside uses the programs that it left in crates/NAME/out.
PROGRAMS = $(patsubst crates/%/src/main.rt,%,$(wildcard crates/*/src/main.rt))
test: tools
	$(STEP) labels tests/labels.py
	make/progress.py ci ci
	mkdir -p build/bin
	for program in $(PROGRAMS); do cp crates/$$program/out/$$program build/bin/$$program || exit 1; done
	$(MAKE) --no-print-directory outside
	cat build/log/passed

# A tool that is missing is named, and nothing is skipped.
need = @for tool in $(1); do command -v $$tool >/dev/null || { echo "make: the command $$tool is missing; README.md says what is needed"; exit 1; }; done

rt-tool:
	$(call need,rt)

tools: rt-tool
	$(call need,$(CC) $(CXX) $(AR) cargo python3 valgrind objdump)

$(ARCHIVE) $(TALLY_ARCHIVE) $(TREE) $(SHEET) $(CELLS) $(SLIP) $(BEST) $(PBN) $(TEAM) $(MERGES): | rt-tool

SOURCES = crates.txt $(shell find crates -name out -prune -o '(' -name '*.rt' -o -name '*.antt' ')' -print)

# One after the other, since the crates stand on the same ones.
ifndef AT_ONCE
.NOTPARALLEL:
endif

# A member of an archive, from the static library of the crate that exports it to C.
build/members/%.o: $(SOURCES) | rt-tool
	$(call need,$(AR))
	@mkdir -p $(@D)
	$(STEP) archive-$* sh -c 'cd crates/$*_c && rt lib'
	$(AR) p crates/$*_c/out/lib$*_c.a $*_c.o >$@

# Judge, writer, best play, the reader of texts, slips and boards are compiled apart: docs/PERFORMANCE.md says why. The calls on tallies have a crate of their own.
JUDGE_MEMBERS = judge writer_call best_record pbn_record slip_text board_call
TALLY_MEMBERS = tally_calls
build/libjudge.a: $(JUDGE_MEMBERS:%=build/members/%.o)
build/libtally.a: $(TALLY_MEMBERS:%=build/members/%.o)
build/libjudge.a build/libtally.a:
	@rm -f $@
	$(AR) rcsD $@ $^

# A program that `make test` has not taken from `rt ci`, or that has grown old. `rt run` builds it and runs it, on no input here.
build/bin/%: $(SOURCES) | rt-tool
	@mkdir -p $(@D)
	$(STEP) program-$* sh -c 'cd crates/$* && rt check && { rt run </dev/null; test -x out/$*; }'
	cp crates/$*/out/$* $@

build/stand-in/libjudge.a build/stand-in/libtally.a: FORCE
	$(CARGO) rustc --release --offline --locked --quiet --lib --crate-type staticlib --features stand_in
	mkdir -p $(@D)
	cp $(RUST)/liboutside.a $@

# Plain C around the archives, in objects that any program or shared library can take: the words of refusals, and what the programs share.
WORDS_ARCHIVE = build/libjudge_words.a
COMMON = build/libcommon.a
PLAIN_HEADERS = $(wildcard include/*.h common/*.h)

build/c/%.o: %.c $(PLAIN_HEADERS)
	$(call need,$(CC))
	@mkdir -p $(@D)
	$(CC) $(CFLAGS) -fPIC -Iinclude -Icommon -c $< -o $@

$(WORDS_ARCHIVE): build/c/library/judge_words.o
$(COMMON): $(patsubst %.c,build/c/%.o,$(wildcard common/*.c))
$(WORDS_ARCHIVE) $(COMMON):
	$(call need,$(AR))
	@rm -f $@
	$(AR) rcs $@ $^

# The shared libraries: from the archives, with the functions that the headers declare and no other name to be seen.
build/lib%.map: include/%.h include/judge_words.h
	@mkdir -p build
	(echo '{ global:'; sed -nE 's/^(uint32_t|size_t) ([a-z_]+)\(.*/    \2;/p' $^; echo 'local: *; };') >$@

build/lib%.so: build/lib%.a build/lib%.map build/c/library/judge_words.o
	$(CC) -shared -Wl,-soname,lib$*.so.$(call number,$*,MAJOR) -Wl,--version-script,build/lib$*.map -Wl,-z,defs,-z,relro,-z,now \
	    -Wl,--whole-archive $< -Wl,--no-whole-archive build/c/library/judge_words.o -o $@
	ln -sf lib$*.so build/lib$*.so.$(call number,$*,MAJOR)

SHARED = build/libjudge.so build/libtally.so
VALGRIND = $(addprefix build/valgrind/,terminal section standings)
.SECONDARY: build/libjudge.map build/libtally.map

build/terminal: $(ARCHIVE) $(COMMON) $(WORDS_ARCHIVE) $(wildcard terminal/*) $(PLAIN_HEADERS)
	$(CC) $(CFLAGS) -Iinclude -Icommon terminal/*.c $(COMMON) $(WORDS_ARCHIVE) $(ARCHIVE) -o $@

# From records to standings: `section` judges and tallies, `standings` merges.
build/section: $(ARCHIVE) $(TALLY_ARCHIVE) $(COMMON) $(WORDS_ARCHIVE) scoring/section.c $(PLAIN_HEADERS)
	$(CC) $(CFLAGS) -Iinclude -Icommon scoring/section.c $(COMMON) $(WORDS_ARCHIVE) $(ARCHIVE) $(TALLY_ARCHIVE) -o $@

build/standings: $(TALLY_ARCHIVE) $(COMMON) $(WORDS_ARCHIVE) scoring/standings.c $(PLAIN_HEADERS)
	$(CC) $(CFLAGS) -Iinclude -Icommon scoring/standings.c $(COMMON) $(WORDS_ARCHIVE) $(TALLY_ARCHIVE) -o $@

# The C programs and the headers' helpers with sanitizers, as one target of libFuzzer, which Debian's clang has. It starts from tests/corpus, and from the samples.
CLANG = clang
SANITIZERS = -std=c99 -g -O1 -fno-sanitize-recover=all -Iinclude -Icommon -Iterminal
FUZZED = $(wildcard common/*.c library/*.c) $(filter-out terminal/main.c,$(wildcard terminal/*.c))
GATE_FUZZ_SECONDS = 20

build/fuzz/terminal.o: terminal/main.c
build/fuzz/section.o: scoring/section.c
build/fuzz/standings.o: scoring/standings.c
build/fuzz/%.o: $(PLAIN_HEADERS) $(wildcard terminal/*.h)
	$(call need,$(CLANG))
	@mkdir -p $(@D)
	$(CLANG) $(SANITIZERS) -fsanitize=address,undefined,fuzzer-no-link -Dmain=$*_main -c $(filter %.c,$^) -o $@

build/fuzz/programs: build/fuzz/terminal.o build/fuzz/section.o build/fuzz/standings.o tests/fuzz/programs.c $(FUZZED) $(PLAIN_HEADERS) $(ARCHIVE) $(TALLY_ARCHIVE)
	$(CLANG) $(SANITIZERS) -Wall -Wextra -fsanitize=address,undefined,fuzzer $(filter %.c %.o,$^) $(ARCHIVE) $(TALLY_ARCHIVE) -o $@

# fuzz-programs SECONDS SEED: a finding is kept in build/fuzz; what is learnt stays in build/fuzz/corpus. The seed 0 is any.
define fuzz-programs
	mkdir -p build/fuzz/corpus
	tests/fuzz/seeds.sh build/fuzz/seeds build/terminal build/section
	$(STEP) fuzz-programs build/fuzz/programs -max_total_time=$(1) -timeout=10 -max_len=8192 -rss_limit_mb=2048 -verbosity=0 -print_final_stats=1 -artifact_prefix=$(abspath build/fuzz)/ \
	    -seed=$(or $(SEED),$(2)) $(abspath build/fuzz/corpus tests/corpus build/fuzz/seeds)
endef

fuzz-programs: build/fuzz/programs build/terminal build/section
	$(call fuzz-programs,$(FUZZ_SECONDS),$(if $(AT_ONCE),64,0))

# The programs under valgrind, as the scripts call them: a fault or a leak is a status that no script expects.
build/valgrind/%: build/%
	$(call need,valgrind)
	@mkdir -p $(@D)
	printf '#!/bin/sh\nexec valgrind --quiet --error-exitcode=99 --leak-check=full --errors-for-leak-kinds=all %s "$$@"\n' $(abspath $<) >$@
	chmod +x $@

demo: build/terminal build/section build/standings $(SHEET) $(CELLS) $(SLIP) $(BEST) $(PBN) python
	@echo "Records that are accepted:"
	@build/terminal $(sort $(filter-out samples/refused-%,$(wildcard samples/*.hex)))
	@echo "Records that are refused:"
	@build/terminal $(sort $(wildcard samples/refused-*.hex)); test $$? = 1
	@echo "The sheet of a board:"
	@$(SHEET) <samples/scores
	@echo "The same with percentages:"
	@$(CELLS) <samples/scores
	@echo "The slip of a record:"
	@$(SLIP) <crates/try_slip/data/east-west
	@echo "What best play would give from a record:"
	@$(BEST) <crates/try_best/data/claim-best-play
	@mkdir -p build/work/demo
	@echo "The record of samples/pbn/ending.pbn, a game in Portable Bridge Notation, judged:"
	@(echo 3; cat samples/pbn/ending.pbn) | $(PBN) >build/work/demo/ending
	@build/terminal -b build/work/demo/ending
	@echo "Its slip:"
	@$(SLIP) <build/work/demo/ending
	@echo "What best play would have given of its last four tricks:"
	@build/terminal -w samples/claim-best-play.txt | $(BEST)
	@echo "The same game as it was exported, with tags and words that are not of the subset:"
	@(echo 3; cat samples/pbn/ending.export) | $(PBN)
	@echo "The same file by the Python package, which brings it into the subset:"
	@$(CLUBSCORE) import samples/pbn/ending.export --table 3 -o build/work/demo/imported
	@cmp build/work/demo/ending build/work/demo/imported/board-001-table-003.record
	@for text in samples/sections/*.txt; do build/terminal -w $$text >build/work/demo/$$(basename $$text .txt) || exit 1; done
	@build/section -o build/work/demo/A build/work/demo/a-*
	@build/section -o build/work/demo/B build/work/demo/b-*
	@echo "Two sections, A before B:"
	@build/standings build/work/demo/A build/work/demo/B; test $$? = 1
	@echo "And B before A:"
	@build/standings build/work/demo/B build/work/demo/A; test $$? = 1
	@echo "An evening of the sample club, 24 boards at 13 tables, from its records to its page; what is left out stands at its head:"
	@rm -rf build/work/demo/club
	@PYTHONPATH=python $(PYTHON) samples/club/make.py build/work/demo/club
	@$(CLUBSCORE) results build/work/demo/club/*.record --pairs build/work/demo/club/pairs.csv -o build/club.json; test $$? = 1
	@$(CLUBSCORE) page build/club.json -o build/club.html
	@echo "The page is build/club.html"

install: $(ARCHIVE) $(TALLY_ARCHIVE) $(WORDS_ARCHIVE) $(SHARED)
	@$(MAKE) --no-print-directory install-files
	@sha256sum $(DESTDIR)$(PREFIX)/lib/libjudge.a $(DESTDIR)$(PREFIX)/lib/libtally.a

# The version is the header's.
number = $(shell sed -n 's/^.define [A-Z]*_VERSION_$(2) //p' include/$(1).h)
version = $(call number,$(1),MAJOR).$(call number,$(1),MINOR).0
pc = sed 's|@PREFIX@|$(abspath $(PREFIX))|; s|@VERSION@|$(call version,$(2))|' include/$(1).pc.in >$(DESTDIR)$(PREFIX)/lib/pkgconfig/$(1).pc

# A shared library under its whole version, and the names by which it is loaded and linked.
shared = cp build/lib$(1).so $(DESTDIR)$(PREFIX)/lib/lib$(1).so.$(call version,$(1)) && cd $(DESTDIR)$(PREFIX)/lib && \
    ln -sf lib$(1).so.$(call version,$(1)) lib$(1).so.$(call number,$(1),MAJOR) && ln -sf lib$(1).so.$(call number,$(1),MAJOR) lib$(1).so

install-files:
	mkdir -p $(DESTDIR)$(PREFIX)/include $(DESTDIR)$(PREFIX)/lib/pkgconfig
	cp include/judge.h include/judge_words.h include/tally.h $(DESTDIR)$(PREFIX)/include
	cp $(ARCHIVE) $(DESTDIR)$(PREFIX)/lib/libjudge.a
	cp $(TALLY_ARCHIVE) $(DESTDIR)$(PREFIX)/lib/libtally.a
	cp $(WORDS_ARCHIVE) $(DESTDIR)$(PREFIX)/lib/libjudge_words.a
	$(call shared,judge)
	$(call shared,tally)
	$(call pc,judge,judge)
	$(call pc,tally,tally)
	$(call pc,judge_words,judge)

# The Rust programs, linked with the archives.
build/rust-built: $(ARCHIVE) $(TALLY_ARCHIVE) FORCE | tools
	$(CARGO) build --release --offline --locked --quiet

# What is tried from outside is built here, one after the other, and then tried, as many at a time as there are processors.
OUTSIDE = build/rust-built build/terminal build/section build/standings build/fuzz/programs $(VALGRIND) $(SHARED) $(TREE) $(SHEET) $(CELLS) $(SLIP) $(BEST) $(PBN) $(TEAM)
outside: tools $(OUTSIDE) python chromium engines build/engines/left-count-mpi
	mkdir -p build/work
	$(MAKE) --no-print-directory --output-sync=target -j$(shell nproc) AT_ONCE=1 FUZZ_SECONDS=$(GATE_FUZZ_SECONDS) trials

include make/trials.mk

TESTS = examples refusals faults write_refusals write_faults penalty_cards penalty_bounds penalty_faults pbn_texts pbn_faults \
    tally_bytes tally_faults boards jumps jumps_in_texts

# A tenth of the time each for records, records with penalty cards, contents, texts, tallies, trees, sheets, slips, endings and team matches, and as long again
# for the C programs. The seed is said first; what is found is kept in build/fuzz/found, in a file that the last line before make's own names.
.PHONY: fuzz-seed
fuzz: SEED := $(or $(SEED),$(shell date +%s))
fuzz: fuzz-seed build/rust-built fuzz-programs $(TREE) $(SHEET) $(CELLS) $(SLIP) $(BEST) $(PBN) $(TEAM)
	mkdir -p build/fuzz/found
	$(MAKE) --no-print-directory SEED=$(SEED) $(COMPARISONS:%=fuzz-%)

fuzz-seed:
	@echo SEED=$(SEED)

bench: build/rust-built $(MERGES)
	$(RUST)/bench --merges $(MERGES)

# The Python package `clubscore`: the shared libraries stand beside its modules, so that it runs from the checkout. `python-test` tries it, and the page in chromium.
PYTHON = python3
CLUBSCORE = PYTHONPATH=python $(PYTHON) -m clubscore
.PHONY: python python-test chromium
python: python/clubscore/libjudge.so python/clubscore/libtally.so
	$(call need,$(PYTHON))

python/clubscore/lib%.so: build/lib%.so
	cp $< $@

# The page is tried in Debian's chromium, which is installed where it is missing and can be.
chromium:
	@command -v chromium >/dev/null || test "$$(id -u)" != 0 || ! command -v apt-get >/dev/null || \
	    { apt-get update -qq && apt-get install -y -qq --no-install-recommends chromium >/dev/null; }
	$(call need,chromium)

python-test: python build/rust-built chromium
	mkdir -p build/work
	$(RUST)/games $(or $(SEED),114) $(PBN_GAMES) >build/work/games
	$(STEP) clubscore sh -c 'cd python && $(PYTHON) -W error -m unittest -q'

# What no proof covers: the instructions and jumps of the object code that the trials run. tests/README.md says how, docs/JUMPS.md what is left and why.
.PHONY: jumps jumps-short
jumps-short = $(STEP) jumps tests/jumps/jumps.py --short --bounds tests/jumps/bounds
outside: build/jumps/calls build/jumps/again.so
JUMPS = $(TREE) $(SHEET) $(CELLS) $(SLIP) $(BEST) $(PBN) $(TEAM) build/rust-built build/jumps/calls build/jumps/again.so

build/jumps/calls: tests/jumps/calls.c $(ARCHIVE) $(TALLY_ARCHIVE) $(wildcard include/*.h)
	@mkdir -p $(@D)
	$(CC) $(CFLAGS) -Iinclude $(filter %.c %.a,$^) -Wl,-Map=$@.map -o $@

build/jumps/again.so: tests/jumps/again.c
	@mkdir -p $(@D)
	$(CC) $(CFLAGS) -fPIC -shared $< -o $@

jumps: tools $(JUMPS) $(PROGRAMS:%=build/bin/%)
	tests/jumps/jumps.py $(SEED_WORDS)
	grep -v 'never ran$$' build/jumps/left | cut -f 1,2,4 | grep '^lib'

jumps-short: tools $(JUMPS)
	$(jumps-short)

# The same calls on processors of other kinds, as qemu-user has them; and every program by the kit's other ways to run it: on an interpreter, and compiled with checks.
# Not by the kit: try_merges, which needs more steps than its interpreter allows.
PROCESSORS = qemu64 Conroe Nehalem Haswell EPYC-Rome
NOT_TRIED = try_merges
.PHONY: other-ways qemu
qemu:
	@command -v qemu-x86_64 >/dev/null || test "$$(id -u)" != 0 || ! command -v apt-get >/dev/null || \
	    { apt-get update -qq && apt-get install -y -qq --no-install-recommends qemu-user >/dev/null; }
	$(call need,qemu-x86_64)

other-ways: qemu jumps-short
	for cpu in $(PROCESSORS); do $(STEP) calls-on-$$cpu qemu-x86_64 -cpu $$cpu build/jumps/calls $(CURDIR)/build/jumps/*.calls || exit 1; done
	for crate in $(filter-out $(NOT_TRIED),$(PROGRAMS)); do $(STEP) try-$$crate make/tried.sh $$crate || exit 1; done
	echo "not run in other ways: $(NOT_TRIED)"

# The archives built from nothing in another folder, of what is committed, have the same bytes.
.PHONY: reproducible
reproducible: $(ARCHIVE) $(TALLY_ARCHIVE)
	$(call need,git sha256sum)
	@git diff --quiet HEAD -- crates crates.txt Makefile make || { echo "make reproducible: crates/ or the Makefile differ from what is committed"; exit 1; }
	rm -rf $(REPRODUCED)
	git clone --quiet --no-hardlinks . $(REPRODUCED)
	$(MAKE) --no-print-directory -C $(REPRODUCED) $(ARCHIVE) $(TALLY_ARCHIVE)
	sha256sum $(ARCHIVE) $(REPRODUCED)/$(ARCHIVE) $(TALLY_ARCHIVE) $(REPRODUCED)/$(TALLY_ARCHIVE)
	cmp $(ARCHIVE) $(REPRODUCED)/$(ARCHIVE)
	cmp $(TALLY_ARCHIVE) $(REPRODUCED)/$(TALLY_ARCHIVE)
	echo "the archives are the same, byte for byte"
REPRODUCED = $(or $(TMPDIR),/tmp)/bridge-archives-again

# The merge where a reduction is declared: the PostgreSQL extension `duplicate_bridge` and the MPI program `standings-mpi`, around the archives. Debian's packages
# are installed where they are missing and can be.
.PHONY: engines engines-tools engines-install engines-test engines-bench
PG_CONFIG = /usr/lib/postgresql/15/bin/pg_config
MPICC = mpicc
ENGINES = postgresql-15 postgresql-server-dev-15 openmpi-bin libopenmpi-dev
ENGINE_ARCHIVES = $(COMMON) $(WORDS_ARCHIVE) $(ARCHIVE) $(TALLY_ARCHIVE)
EXTENSION_MAKE = $(MAKE) --no-print-directory -C build/engines/postgresql -f $(abspath engines/postgresql/Makefile) PG_CONFIG=$(PG_CONFIG) BUILD=$(abspath build)
MPI_CC = $(MPICC) $(CFLAGS) -Iinclude -Icommon -Iengines/mpi

engines-tools:
	@{ test -x $(PG_CONFIG) && command -v mpirun && command -v $(MPICC); } >/dev/null || test "$$(id -u)" != 0 || ! command -v apt-get >/dev/null || \
	    { apt-get update -qq && DEBIAN_FRONTEND=noninteractive apt-get install -y -qq --no-install-recommends $(ENGINES) >/dev/null; }
	$(call need,$(PG_CONFIG) mpirun $(MPICC))

engines: engines-tools build/standings-mpi $(ENGINE_ARCHIVES)
	@mkdir -p build/engines/postgresql
	$(STEP) extension $(EXTENSION_MAKE)

engines-install: engines
	$(EXTENSION_MAKE) install

build/standings-mpi: engines/mpi/standings_mpi.c engines/mpi/operation.c engines/mpi/operation.h $(ENGINE_ARCHIVES) $(PLAIN_HEADERS) | engines-tools
	$(MPI_CC) $(filter %.c,$^) $(ENGINE_ARCHIVES) -o $@

# The same program with an operation that has the old fault.
build/engines/left-count-mpi: engines/mpi/standings_mpi.c tests/engines/left_count.c engines/mpi/operation.h $(ENGINE_ARCHIVES) $(PLAIN_HEADERS) | engines-tools
	@mkdir -p $(@D)
	$(MPI_CC) $(filter %.c,$^) $(ENGINE_ARCHIVES) -o $@

engines-test: engines build/engines/left-count-mpi build/rust-built build/section build/standings build/terminal
	rm -rf build/work/engines
	mkdir -p build/work/engines/sections/records
	$(RUST)/sections $(or $(SEED),39) build/work/engines/sections
	$(RUST)/field $(or $(SEED),39) 30 40 >build/work/engines/field
	$(RUST)/blocks $(or $(SEED),39) 6000 >build/work/engines/blocks
	$(RUST)/tally_blocks $(or $(SEED),39) 12000 >build/work/engines/tally_blocks
	$(STEP) mpi $(PYTHON) tests/engines/mpi.py build/work/engines
	$(STEP) postgresql $(PYTHON) tests/engines/postgresql.py $(PG_CONFIG) build/work/engines -- $(EXTENSION_MAKE)

engines-bench: engines build/rust-built build/section build/standings
	mkdir -p build/work/engines
	$(RUST)/field $(or $(SEED),39) 127 128 >build/work/engines/whole-field
	$(CC) $(CFLAGS) -Iinclude -Icommon tests/engines/shares.c $(ENGINE_ARCHIVES) -o build/engines/shares
	build/engines/shares build/work/engines/whole-field
	$(PYTHON) tests/engines/bench.py $(PG_CONFIG) build/work/engines/whole-field -- $(EXTENSION_MAKE)

clean:
	rm -rf build crates/*/out python/clubscore/*.so

FORCE:
