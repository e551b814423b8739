# Short ways to everything. All is built below target/, C programs below target/c/; what `rt` proves and builds of a crate lies in
# the crate's out/, and is copied from there. No links are made: `rt ci` takes none in the tree.
SHELL = /bin/bash
.SHELLFLAGS = -o pipefail -c
.DELETE_ON_ERROR:
CC = gcc
CXX = g++
WARNINGS = -Wall -Wextra -Wpedantic -Werror
CFLAGS = -std=c11 -O2 $(WARNINGS)
CXXFLAGS = -std=c++11 -O2 $(WARNINGS)
SANITIZE = -std=c11 -O1 -g $(WARNINGS) -fsanitize=address,undefined -fno-sanitize-recover=all
COVER = -std=c11 -O0 $(WARNINGS) --coverage

# The Rattle kit compiles for x86-64 alone. So on any other machine the C programs that link its libraries are compiled for
# x86-64 too, and what stands in the place of each, and of the kit's own programs, is a script that runs it under an emulator.
# AddressSanitizer doesn't run there. C programs that link none of the libraries are the machine's own everywhere.
MACHINE := $(shell uname -m)
ifeq ($(MACHINE),x86_64)
EMULATED =
LIBRARY_CC = $(CC)
LIBRARY_CXX = $(CXX)
LIBRARY_FLAGS =
else
EMULATED = yes
LIBRARY_CC = tools/cross gcc
LIBRARY_CXX = tools/cross g++
LIBRARY_FLAGS = -fno-sanitize=address
endif

RATTLE := crates.txt $(shell find crates -name out -prune -o \( -name '*.rt' -o -name '*.antt' \) -print)
LIBRARY = target/lib/libkungthevi.a
INNER = target/inner/libinner.a
REPLAY = target/run/replay
FATES = target/run/fates
CAPTURES = $(patsubst captures/%.records,target/captures/%,$(wildcard captures/*.records))

.PHONY: all check demo replay fates lib run c sanitized captures tested test entries example texts alike saps harness selftest \
	paper definitions coverage compare bench instructions install uninstall clean

all: c captures

# the gate, which makes `tested` alone
check:
	.ci/run

# the measured example of the rule paper, and what became of four cranes that rang in at once
demo: $(REPLAY) $(FATES) target/c/kungthevi target/captures/measured target/captures/four-cranes-and-what-became-of-each
	$(REPLAY) < target/captures/measured
	target/c/kungthevi replay target/captures/four-cranes-and-what-became-of-each || test $$? -eq 1
	$(FATES) < target/captures/four-cranes-and-what-became-of-each

# one capture: its bytes, or their readable form
replay fates: %: target/run/%
	@case "$(FILE)" in \
	*.records) python3 captures/assemble.py "$(FILE)" | target/run/$@ ;; \
	?*) target/run/$@ < "$(FILE)" ;; \
	*) echo 'usage: make $@ FILE=capture' >&2; exit 2 ;; esac

# ---- what is proved

# What is not proved yet is proved first, crate by crate, which takes some minutes, and `rt` works on all cores: under `make -j`
# one of two that need the same crates waits for the other. What this machine lacks is said first.
CRATE = $(patsubst lib%.a,%,$(@F))
PROVE = env -C crates/$(CRATE) rt
PROVED = tee target/$(@F).log | { grep '^rt: ' || :; } || { cat target/$(@F).log; exit 1; }

# the library and its header in one folder, target/lib/
lib: $(LIBRARY) target/lib/kungthevi.h

$(LIBRARY) $(INNER): $(RATTLE)
	@mkdir -p $(@D) && .ci/setup --check
	$(PROVE) lib 2>&1 | $(PROVED)
	cp crates/$(CRATE)/out/$(@F) $@

target/lib/kungthevi.h: c/kungthevi.h
	@mkdir -p $(@D)
	cp $< $@

# `rt` builds a program if it is proved, and then runs it, here on no input. Where only the run fails, as on another machine than
# x86-64, the program is there.
target/bin/replay target/bin/fates: $(RATTLE)
	@mkdir -p $(@D) && .ci/setup --check
	rm -f crates/$(CRATE)/out/$(@F)
	{ $(PROVE) run < /dev/null || test -e crates/$(CRATE)/out/$(@F); } 2>&1 > /dev/null | $(PROVED)
	install crates/$(CRATE)/out/$(@F) $@

# what is run, on any machine: target/run/NAME for the kit's program target/bin/NAME
run: $(REPLAY) $(FATES)

target/run/%: target/bin/%
	@mkdir -p $(@D)
ifdef EMULATED
	install $< $@.x86-64
	install tools/emulated $@
else
	install $< $@
endif

# ---- C programs

HEADERS = $(wildcard c/*.h c/*/*.h c/*/*/*.h)
SECOND = $(filter-out c/second/main.c,$(wildcard c/second/*.c))
GENERATE = $(filter-out c/generate/main.c,$(wildcard c/generate/*.c))

# What each is made of. One that has an archive of the kit among its parts is compiled for x86-64.
PARTS.second = $(SECOND) c/second/main.c
PARTS.selftest = $(SECOND) $(wildcard c/second/test/*.c)
PARTS.generate = $(GENERATE) c/generate/main.c $(SECOND)
PARTS.kungthevi = $(wildcard c/harness/*.c) $(LIBRARY)
PARTS.entries = $(wildcard c/entries/*.c) $(LIBRARY)
PARTS.compare = $(wildcard c/compare/*.c) $(GENERATE) $(SECOND) $(LIBRARY)
PARTS.bench = $(wildcard c/bench/*.c) $(GENERATE) $(SECOND) $(LIBRARY) $(INNER)

# Each plain; some under AddressSanitizer and UndefinedBehaviorSanitizer; one for x86-64 on any machine, to be timed beside the
# library; two with the lines and branches of c/second counted as they run.
PLAIN = $(addprefix target/c/,second selftest generate kungthevi entries compare bench)
SANITIZED = $(addprefix target/c/sanitized/,second selftest kungthevi entries compare)
TIMED = target/c/x86-64/second
COVERED = $(addprefix target/c/covered/,second compare)

c: $(PLAIN) target/c/include

sanitized: $(SANITIZED)
ifdef EMULATED
	@echo 'skipped: AddressSanitizer in kungthevi, entries and compare, as it does not run under the emulator'
endif

FLAGS = $(CFLAGS)
$(SANITIZED): FLAGS = $(SANITIZE)
$(TIMED): CC := $(LIBRARY_CC)

# The second expansion finds the parts by the program's name.
.SECONDEXPANSION:
$(PLAIN) $(SANITIZED) $(TIMED): $$(PARTS.$$(@F)) $(HEADERS)
	@mkdir -p $(@D)
	$(if $(filter %.a,$^),$(LIBRARY_CC) $(FLAGS) $(LIBRARY_FLAGS),$(CC) $(FLAGS)) -o $@ $(filter %.c %.a,$^)

# What is counted is compiled once, for both of them, and so for x86-64.
$(COVERED): $$(patsubst c/second/%.c,target/c/covered/%.o,$$(PARTS.$$(@F))) $(HEADERS)
	$(LIBRARY_CC) $(CFLAGS) -o $@ $(filter %.c %.o %.a,$^) -lgcov

target/c/covered/%.o: c/second/%.c $(HEADERS)
	@mkdir -p $(@D)
	$(LIBRARY_CC) $(COVER) -c -o $@ $<

# the header in C++
target/c/include: c/entries/include.cc $(LIBRARY) $(HEADERS)
	@mkdir -p $(@D)
	$(LIBRARY_CXX) $(CXXFLAGS) -o $@ $(filter %.cc %.a,$^)

# ---- captures

# the bytes of the readable captures
captures: $(CAPTURES)

target/captures/%: captures/%.records captures/assemble.py
	@mkdir -p $(@D)
	python3 captures/assemble.py $< > $@

# ---- tests: tools/tests has the list

# all of them, and what they run
test: tested
	tools/tests

tested: lib run c sanitized $(COVERED) captures

# those of one group
entries: target/c/entries target/c/sanitized/entries target/c/include
example: lib target/c/kungthevi captures
texts: run target/c/second target/c/sanitized/second captures
alike: run target/c/kungthevi target/c/second target/c/generate
saps: target/c/kungthevi target/c/second
harness: target/c/kungthevi target/c/sanitized/kungthevi target/c/second target/c/generate captures
selftest: target/c/selftest target/c/sanitized/selftest
entries example texts alike saps harness selftest paper:
	tools/tests $@

# the named captures by the definitions: a matter of the checker's, and no test of the C side
definitions:
	.ci/setup --check
	tools/definitions.py

# lines and branches of the second program that generated captures and the comparison reach
coverage: $(COVERED) target/c/generate
	tools/coverage.py

# N calls to the library and to the second program, from the captures of SEED on
N = 1000000
SEED = 1
compare: target/c/compare
	@mkdir -p target/differences
	target/c/compare -d target/differences $(N) $(SEED)

# ---- times

# calls a second and MB/s beside the second program's
bench: target/c/bench target/c/kungthevi $(TIMED) $(REPLAY)
	@mkdir -p target/bench
ifdef EMULATED
	@echo 'All is compiled for x86-64 and runs under the emulator here: compare ratios with those of other such runs, and no times.'
endif
	target/c/bench target/bench $(TIMED) $(REPLAY) 'target/c/kungthevi replay'

# instructions a call takes; needs valgrind
ifdef EMULATED
instructions:
	@echo 'make $@: nothing to count on $(MACHINE): the library is for x86-64' >&2; exit 1
else
instructions: target/c/bench
	@mkdir -p target/bench
	c/bench/instructions target/c/bench target/bench
endif

# ---- installing

# Files are put THERE, to be used in their PLACE: below DESTDIR a package is made of them.
VERSION = 0.1.0
PREFIX = /usr/local
PLACE = $(abspath $(PREFIX))
THERE = $(DESTDIR)$(PLACE)
FILLED_IN = sed -e 's|@PREFIX@|$(PLACE)|' -e 's|@VERSION@|$(VERSION)|'

# Where the command is a script for the emulator, its program goes beside it.
COMMAND = kungthevi $(if $(EMULATED),kungthevi.x86-64)

install: lib target/c/kungthevi
	install -D -t $(THERE)/bin $(COMMAND:%=target/c/%)
	install -D -m 644 -t $(THERE)/include target/lib/kungthevi.h
	install -D -m 644 -t $(THERE)/lib $(LIBRARY)
	$(FILLED_IN) c/install/kungthevi.pc.in | install -D -m 644 /dev/stdin $(THERE)/lib/pkgconfig/kungthevi.pc
	$(FILLED_IN) c/install/kungthevi.1.in | install -D -m 644 /dev/stdin $(THERE)/share/man/man1/kungthevi.1
	$(FILLED_IN) c/install/kungthevi.3.in | install -D -m 644 /dev/stdin $(THERE)/share/man/man3/kungthevi.3

uninstall:
	rm -f $(COMMAND:%=$(THERE)/bin/%) $(THERE)/include/kungthevi.h $(THERE)/lib/libkungthevi.a \
		$(THERE)/lib/pkgconfig/kungthevi.pc $(THERE)/share/man/man1/kungthevi.1 $(THERE)/share/man/man3/kungthevi.3

clean:
	rm -rf target
