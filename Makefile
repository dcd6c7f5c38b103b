# The C side of Moonbleat: the archive, the tool, its tests, and the comparison with the second
# implementation. Everything is built in target/.
#
#   make            the tool, the examples and unhex, in target/tool/
#   make demo       print the tape of strip 4 and carry it out; compare three cards
#   make archive    the library, target/staticlib/libmoonbleat.a
#   make ready      fail if a program is missing that check needs, and name it
#   make deps       name the programs that are missing for any of these, as one line that installs them
#   make install    the tool and unhex, the library, its header, manual page, completion, docs/SHEETS.md
#                   and docs/NIGHT.md, below PREFIX
#   make uninstall  take them away again
#   make dist       the sources of the last commit, target/moonbleat-VERSION.tar.gz
#   make tool-test  run the tool's tests and the examples of docs/SHEETS.md
#   make test       these, those of the header's promises, and those of an installed library
#   make text-test  try the text form and the diagnoses, with sanitizers: on all sheets of the
#                   comparison, and on TEXTS damaged texts
#   make compare    hold the archive to the second implementation on SHEETS sheets of each edition,
#                   with stores in other orders and exchanged too; SHEETS=n SEED=n for other sheets
#   make bench      time the archive beside it
#   make night-speed  time a night of NIGHT sheets with eight cards
#   make page-test  look at a night's page in headless Chromium, where that is installed; no part of check
#   make lint       cppcheck, warnings as errors, and the header as C++
#   make check      lint, test, text-test and compare: all but the proofs
#   make edits-apart  try each part of a must-fail edit that has several alone, each a whole check of
#                   its crate; not part of the gate, which tries them together
#   make memcheck   the tool's tests with sanitizers, then with each third call (of masks, diff and
#                   night: each ninth) under valgrind, then 500 sheets of each edition of the comparison
#                   under it: some 13 minutes
#
# The archive is made by `rt lib` in crates/moonbleat_c, which proves what is not proved yet: some
# minutes the first time. ARCHIVE=path names another one.

TOOL = target/tool
ARCHIVE = target/staticlib/libmoonbleat.a
SHEETS = 20000
SEED = 1
TEXTS = 30000
NIGHT = 10000

PREFIX = /usr/local
BINDIR = $(PREFIX)/bin
LIBDIR = $(PREFIX)/lib
INCLUDEDIR = $(PREFIX)/include
MANDIR = $(PREFIX)/share/man/man1
COMPLETIONDIR = $(PREFIX)/share/bash-completion/completions
DOCDIR = $(PREFIX)/share/doc/moonbleat

CFLAGS = -O2 -g
WARNINGS = -std=c11 -Wall -Wextra -Wpedantic -Werror
SANITIZED = TOOL=target/sanitized CFLAGS='$(CFLAGS) -fsanitize=address,undefined -fno-sanitize-recover=all'
VALGRIND = valgrind -q --vgdb=no --error-exitcode=99
LEAKS = --leak-check=full --show-leak-kinds=all --errors-for-leak-kinds=all
COMPILE = $(CC) $(WARNINGS) $(CFLAGS) -Iinclude -Iharness

HEADERS = include/moonbleat.h $(wildcard harness/*.h)
PROGRAMS = harness/example.c harness/unhex.c harness/moonbleat.c
OBJECTS = $(patsubst harness/%.c,$(TOOL)/%.o,$(filter-out $(PROGRAMS),$(wildcard harness/*.c)))
SHEET_FILES = target/sheets/$(SEED)-$(SHEETS)
LDLIBS = -lm
VERSION = $(shell sed -n 's/^.define MOONBLEAT_VERSION_[A-Z]* //p' include/moonbleat.h | paste -s -d. -)

# Cargo needs no network, writes to target/ alone, and links the archive by its absolute path.
CARGO = CARGO_HOME='$(abspath target/cargo)' CARGO_TARGET_DIR='$(abspath target/compare)' \
	MOONBLEAT_ARCHIVE='$(abspath $(ARCHIVE))' cargo
CARGO_WORDS = --quiet --release --locked --offline --manifest-path compare/Cargo.toml

# The programs that a goal needs are looked for before anything is done: rt where there is no library yet.
NEEDS_archive = rt
NEEDS_library = $(if $(wildcard $(ARCHIVE)),,rt)
NEEDS_all = $(firstword $(CC)) $(NEEDS_library)
NEEDS_demo = $(NEEDS_all) python3
NEEDS_install = $(NEEDS_all)
NEEDS_tool-test = $(NEEDS_all) jq python3
NEEDS_test = $(NEEDS_tool-test) cargo groff pkg-config
NEEDS_text-test = $(NEEDS_all) cargo
NEEDS_compare = $(NEEDS_library) cargo
NEEDS_bench = $(NEEDS_compare)
NEEDS_night-speed = $(NEEDS_demo)
NEEDS_page-test = $(NEEDS_demo)
NEEDS_lint = $(firstword $(CC)) g++ cppcheck
NEEDS_check = $(NEEDS_lint) $(NEEDS_test)
NEEDS_ready = $(NEEDS_check)
NEEDS_memcheck = $(NEEDS_tool-test) cargo valgrind
NEEDS_dist = git

lacking = $(strip $(foreach program,$(1),$(if $(shell command -v $(program) 2> /dev/null),,$(program))))
LACKING := $(call lacking,$(sort $(foreach goal,$(or $(MAKECMDGOALS),all),$(NEEDS_$(goal)))))
RT_ORIGIN = rt comes with the Rattle kit; it proves and builds the library, and ARCHIVE=path names one that is built
ifneq ($(LACKING),)
$(error not on the path: $(LACKING)$(if $(filter rt,$(LACKING)), ($(RT_ORIGIN))); make deps says how to install what is missing)
endif

all: $(addprefix $(TOOL)/,moonbleat example readme unhex)

ready:

# What any goal may need, and the Debian packages that have it, where they are called otherwise.
PACKAGED = cc python3 jq groff pkg-config cargo g++ cppcheck valgrind git
PACKAGE_cc = gcc
deps: UNPACKED = $(call lacking,$(PACKAGED))
deps:
	@echo '$(if $(UNPACKED),apt install $(foreach program,$(UNPACKED),$(or $(PACKAGE_$(program)),$(program))),every package is there)'
	@echo '$(if $(call lacking,rt),rt is not on the path: $(RT_ORIGIN),rt is there)'

# rt keeps what it has proved, in each crate's out/; the time stamp tells make that it looked.
target/staticlib/libmoonbleat.a: crates.txt $(shell find crates -name out -prune -o \( -name '*.rt' -o -name '*.antt' \) -print)
	@echo 'proving the library, some minutes the first time'
	@cd crates/moonbleat_c && bash -o pipefail -c 'rt lib 2>&1 | awk -f ../../harness/progress.awk ../../crates.txt -'
	@mkdir -p $(@D)
	@cp crates/moonbleat_c/out/libmoonbleat_c.a $@

archive: target/staticlib/libmoonbleat.a

edits-apart:
	tools/edits --apart

$(TOOL):
	mkdir -p $@

$(TOOL)/%.o: harness/%.c $(HEADERS) | $(TOOL)
	$(COMPILE) -c $< -o $@

$(TOOL)/moonbleat: harness/moonbleat.c $(OBJECTS) $(ARCHIVE)
	$(COMPILE) $^ $(LDLIBS) -o $@

$(TOOL)/example: harness/example.c include/moonbleat.h $(ARCHIVE) | $(TOOL)
	$(COMPILE) harness/example.c $(ARCHIVE) $(LDLIBS) -o $@

# The lines of C that README.md shows.
$(TOOL)/readme: README.md include/moonbleat.h $(ARCHIVE) | $(TOOL)
	sed -n '/^```c$$/,/^```$$/{/^```/!p;}' README.md > $@.c
	$(COMPILE) $@.c $(ARCHIVE) $(LDLIBS) -o $@

$(TOOL)/unhex: harness/unhex.c | $(TOOL)
	$(COMPILE) harness/unhex.c -o $@

$(TOOL)/test-%: tests/%.c $(wildcard tests/*.h) $(OBJECTS) $(ARCHIVE)
	$(COMPILE) $(filter-out %.h,$^) $(LDLIBS) -o $@

# Help and manual page have one source, the tool itself.
$(TOOL)/moonbleat.1: $(TOOL)/moonbleat
	$< help --man > $@

$(TOOL)/moonbleat.pc: harness/moonbleat.pc.in include/moonbleat.h FORCE | $(TOOL)
	sed -e 's|@PREFIX@|$(PREFIX)|' -e 's|@INCLUDEDIR@|$(INCLUDEDIR)|' -e 's|@LIBDIR@|$(LIBDIR)|' \
		-e 's|@VERSION@|$(VERSION)|' $< > $@

# What install puts there and uninstall takes away.
INSTALLED = $(BINDIR)/moonbleat $(BINDIR)/unhex $(LIBDIR)/libmoonbleat.a $(LIBDIR)/pkgconfig/moonbleat.pc \
	$(INCLUDEDIR)/moonbleat.h $(MANDIR)/moonbleat.1 $(COMPLETIONDIR)/moonbleat \
	$(DOCDIR)/SHEETS.md $(DOCDIR)/NIGHT.md $(DOCDIR)/night.png

install: all $(TOOL)/moonbleat.1 $(TOOL)/moonbleat.pc
	install -D -m 755 $(TOOL)/moonbleat '$(DESTDIR)$(BINDIR)/moonbleat'
	install -D -m 755 $(TOOL)/unhex '$(DESTDIR)$(BINDIR)/unhex'
	install -D -m 644 $(ARCHIVE) '$(DESTDIR)$(LIBDIR)/libmoonbleat.a'
	install -D -m 644 $(TOOL)/moonbleat.pc '$(DESTDIR)$(LIBDIR)/pkgconfig/moonbleat.pc'
	install -D -m 644 include/moonbleat.h '$(DESTDIR)$(INCLUDEDIR)/moonbleat.h'
	install -D -m 644 $(TOOL)/moonbleat.1 '$(DESTDIR)$(MANDIR)/moonbleat.1'
	install -D -m 644 harness/completion.bash '$(DESTDIR)$(COMPLETIONDIR)/moonbleat'
	install -D -m 644 -t '$(DESTDIR)$(DOCDIR)' docs/SHEETS.md docs/NIGHT.md docs/night.png

uninstall:
	for file in $(INSTALLED); do rm -f '$(DESTDIR)'"$$file"; done

dist:
	git archive --format=tar.gz --prefix=moonbleat-$(VERSION)/ -o target/moonbleat-$(VERSION).tar.gz HEAD

demo: all
	@echo '-- the sheet'
	@grep -v '^#' strips/04-mirror-repeat/sheet.txt
	@$(TOOL)/moonbleat asm strips/04-mirror-repeat/sheet.txt -o $(TOOL)/strip4.sheet
	@$(TOOL)/unhex < strips/04-mirror-repeat/memory.hex > $(TOOL)/strip4.memory
	@echo '-- its tape'
	@$(TOOL)/moonbleat tape $(TOOL)/strip4.sheet
	@echo '-- carried out on a memory whose byte i holds i'
	@$(TOOL)/moonbleat run $(TOOL)/strip4.sheet $(TOOL)/strip4.memory
	@echo '-- a night of three cards: birch reads mirrored edges wrongly, cedar stores where it must not'
	@rm -rf $(TOOL)/night
	@python3 examples/night/make_night.py $(TOOL)/night
	@$(TOOL)/moonbleat night $(TOOL)/night --html $(TOOL)/night.html || test $$? -eq 1
	@echo '-- the same as a page: $(TOOL)/night.html'

tool-test: all
	tests/tool.sh $(TOOL)
	tests/edges.sh $(TOOL)
	tests/where.sh $(TOOL)
	tests/masks.sh $(TOOL)
	tests/examples.sh $(TOOL)
	tests/night.sh $(TOOL)
	tests/causes.sh $(TOOL)
	tests/nights.sh $(TOOL)

test: tool-test $(addprefix $(TOOL)/test-,null outcome masks where stack) $(SHEET_FILES)
	$(TOOL)/test-null
	$(TOOL)/test-outcome
	$(TOOL)/test-masks
	$(TOOL)/test-where
	$(TOOL)/test-stack $(SHEET_FILES)/00???-*.sheet
	tests/install.sh

memcheck: all
	$(MAKE) $(SANITIZED) tool-test
	RUNNER='$(VALGRIND) $(LEAKS)' EVERY=3 tests/tool.sh $(TOOL)
	RUNNER='$(VALGRIND) $(LEAKS)' EVERY=3 tests/edges.sh $(TOOL)
	RUNNER='$(VALGRIND) $(LEAKS)' EVERY=3 tests/where.sh $(TOOL)
	RUNNER='$(VALGRIND) $(LEAKS)' EVERY=9 tests/masks.sh $(TOOL)
	RUNNER='$(VALGRIND) $(LEAKS)' EVERY=9 tests/night.sh $(TOOL)
	RUNNER='$(VALGRIND) $(LEAKS)' tests/causes.sh $(TOOL)
	RUNNER='$(VALGRIND) $(LEAKS)' EVERY=9 tests/nights.sh $(TOOL)
	CARGO_TARGET_X86_64_UNKNOWN_LINUX_GNU_RUNNER='$(VALGRIND)' $(CARGO) run $(CARGO_WORDS) -- --sheets 500

# The sheets of the comparison as files.
$(SHEET_FILES): $(ARCHIVE) $(wildcard compare/src/*.rs compare/src/reference/*.rs)
	rm -rf $@ $@.part
	mkdir -p $@.part
	$(CARGO) run $(CARGO_WORDS) -- dump $@.part --sheets $(SHEETS) --seed $(SEED)
	mv $@.part $@

text-test: $(SHEET_FILES)
	$(MAKE) $(SANITIZED) $(addprefix target/sanitized/test-,sheets fuzz_text null outcome masks where)
	target/sanitized/test-null
	target/sanitized/test-outcome
	target/sanitized/test-masks
	target/sanitized/test-where
	target/sanitized/test-sheets $(SHEET_FILES)
	target/sanitized/test-fuzz_text $(TEXTS) strips/*/sheet.txt

compare: $(ARCHIVE)
	$(CARGO) test $(CARGO_WORDS) --lib
	$(CARGO) run $(CARGO_WORDS) -- --sheets $(SHEETS) --seed $(SEED)

bench: $(ARCHIVE)
	$(CARGO) run $(CARGO_WORDS) -- bench

night-speed: all
	python3 tests/night_speed.py $(TOOL)/moonbleat target/night-speed-$(NIGHT) $(NIGHT)

# Pictures and a print of the page are left in target/page-test.
page-test: all
	python3 tests/page.py $(TOOL)/moonbleat target/page-test

lint:
	cppcheck --quiet --std=c11 --enable=warning,style,performance,portability --inconclusive \
		--error-exitcode=1 --suppress=missingIncludeSystem -Iinclude -Iharness harness tests
	$(CC) $(WARNINGS) -Wshadow -Wconversion -Wstrict-prototypes -Iinclude -Iharness -fsyntax-only harness/*.c tests/*.c
	$(CC) -x c++ -std=c++11 -Wall -Wextra -Wpedantic -Werror -fsyntax-only include/moonbleat.h

check: lint test text-test compare

clean:
	rm -rf $(TOOL) target/sanitized target/cargo target/compare target/sheets

FORCE:

.PHONY: all archive ready deps edits-apart install uninstall dist demo tool-test test text-test memcheck compare bench night-speed lint check clean page-test FORCE
