# The trials from outside, each a target of its own, so that as many run at a time as there are processors: `make outside` builds what they need and then makes
# `trials`. The longest come first.
COMPARISONS = records penalties writes tallies trees sheets slips endings pbns teams
BLOCKS_OF = blocks write_blocks pbn_blocks tally_blocks
HEADERS = header tally_header words
TRIALS = examples-and-faults $(BLOCKS_OF) $(COMPARISONS) terminal standings pbn pbn-rust install samples stack $(HEADERS:%=%-c) $(HEADERS:%=%-c++)
.PHONY: trials $(TRIALS:%=try-%) $(COMPARISONS:%=fuzz-%)
trials: python-test jumps-short engines-test $(TRIALS:%=try-%) fuzz-programs

# What each comparison is asked for, and the program that it runs.
COUNT_OF_records = $(RECORDS)
COUNT_OF_penalties = $(PENALTIES)
COUNT_OF_writes = $(WRITES)
COUNT_OF_tallies = $(TALLIES)
COUNT_OF_trees = $(TREES)
COUNT_OF_sheets = $(SHEETS)
COUNT_OF_slips = $(SLIPS)
COUNT_OF_endings = $(ENDINGS)
COUNT_OF_pbns = $(PBNS)
COUNT_OF_teams = $(TEAMS)
PROGRAM_OF_trees = --program $(TREE)
PROGRAM_OF_sheets = --program $(SHEET) --cells $(CELLS)
PROGRAM_OF_slips = --program $(SLIP)
PROGRAM_OF_endings = --program $(BEST)
PROGRAM_OF_pbns = --program $(PBN)
PROGRAM_OF_teams = --program $(TEAM)

$(COMPARISONS:%=try-%): try-%:
	$(STEP) $* $(RUST)/$* $(PROGRAM_OF_$*) --count $(COUNT_OF_$*) $(SEED_WORDS)

# A tenth of the time for each; what is found is kept in build/fuzz/found.
$(COMPARISONS:%=fuzz-%): fuzz-%:
	FOUND=build/fuzz/found/$*-$(SEED) $(RUST)/$* $(PROGRAM_OF_$*) --seconds $$(($(FUZZ_SECONDS) / 10)) $(SEED_WORDS)

# A program of tests/c that calls an archive on slices of blocks of their own, each as long as it says, under valgrind.
BLOCKS_IN_pbn_blocks = $(PBN_BLOCKS)
CALLED_BY_tally_blocks = $(TALLY_ARCHIVE)
$(BLOCKS_OF:%=try-%): try-%:
	$(RUST)/$* $(or $(SEED),64) $(or $(BLOCKS_IN_$*),$(BLOCKS)) >build/work/$*.input
	$(CC) $(CFLAGS) -g -Iinclude tests/c/$*.c $(or $(CALLED_BY_$*),$(ARCHIVE)) -o build/$*
	$(STEP) $* valgrind --quiet --error-exitcode=1 --leak-check=full build/$* build/work/$*.input

try-stack: try-blocks
	$(CC) $(CFLAGS) -Iinclude tests/c/stack.c $(ARCHIVE) -o build/stack
	$(STEP) stack build/stack build/work/blocks.input

# The headers and the words of refusals, in C under valgrind and in C++.
ARCHIVE_OF_header = $(ARCHIVE)
ARCHIVE_OF_tally_header = $(TALLY_ARCHIVE)
ARCHIVE_OF_words = $(WORDS_ARCHIVE)
$(HEADERS:%=try-%-c): try-%-c:
	$(CC) $(CFLAGS) -Iinclude tests/c/$*.c $(ARCHIVE_OF_$*) -o build/$*-c
	$(STEP) $*-c valgrind --quiet --error-exitcode=1 build/$*-c
$(HEADERS:%=try-%-c++): try-%-c++:
	$(CXX) $(CXXFLAGS) -Iinclude -x c++ tests/c/$*.c -x none $(ARCHIVE_OF_$*) -o build/$*-c++
	$(STEP) $*-c++ build/$*-c++

try-samples:
	$(STEP) samples tests/samples.sh $(RUST)/write_record

try-terminal:
	mkdir -p build/work/terminal
	$(STEP) terminal tests/terminal.sh build/valgrind/terminal build/work/terminal

# The games of samples/pbn by the proved program and by the Rust reader.
READER_OF_pbn = $(PBN)
READER_OF_pbn-rust = $(RUST)/read_pbn
try-pbn try-pbn-rust: try-%:
	mkdir -p build/work/$*
	$(STEP) $* tests/pbn.sh $(READER_OF_$*) $(RUST)/write_record build/terminal build/work/$*

try-standings:
	rm -rf build/work/sections
	mkdir -p build/work/sections/records
	$(RUST)/sections $(or $(SEED),87) build/work/sections
	$(STEP) standings tests/standings.sh build/valgrind/section build/valgrind/standings build/terminal build/work/sections

try-install:
	rm -rf build/installed
	$(MAKE) --no-print-directory install-files PREFIX=$(abspath build/installed)
	$(STEP) install tests/install.sh $(abspath build/installed) $(CC)

try-examples-and-faults:
	$(STEP) examples-and-faults sh -c '$(CARGO) test --release --offline --locked --quiet $(TESTS:%=--test %)'
