# make              builds the program and leaves it as ./pauseless
# make try          runs examples/first.script, or SCRIPT=.., by a build that proves nothing and is kept; MODE=check
#                   verifies the heap after each step, MODE=threads gives each actor a thread of the system
# make run          builds the program and runs examples/first.script
# make new NAME=..  starts a program of one's own, on the library
# make app NAME=..  builds that program, optimized, and runs it on ARGS=..; with TRY=1 by a build that proves nothing
# make check CRATE=..       proves one crate; with ONLY=.. one function of it
# make test-crate CRATE=..  runs the tests of one crate, and those of the crates of tests that depend on it
# make format       formats all crates: the prover rejects a crate that isn't, and so all crates above it
# make test         the complete test command; its last line is 'N passed, M failed, K skipped'
# make edits        tries all mutants that the prover has to reject, or with CRATES="page heap" those of these crates,
#                   and records in tests/refused.txt the crates of which each was rejected; with CHECK=1 it tries
#                   nothing, and prints which crates aren't recorded
# make lib          builds the static library for C and leaves it as ./libpauseless.a; with TRY=1 as
#                   target/unproved/libpauseless.a, by a build that proves nothing
# make install      installs the program in PREFIX/bin, and the library, its headers and its pkg-config file
# make bench        times the program and the library, counts their instructions, compares both with a plain heap,
#                   bdwgc and the JVM's ZGC, and writes bench/results.json and the tables of the pages; with TRY=1 of
#                   builds that prove nothing; PARTS="calls boehm" measures these parts alone
# make film         makes film.html of examples/moving.script, or of SCRIPT=..; FILM=.. names another file; with TRY=1
#                   by a build that proves nothing and is kept
# make plot         makes plot.html of a long run, or of SCRIPT=..; PLOT=.. names another file; EVERY=.. counts after
#                   every so many commands; TRY=1 as for a film
# make soak         drives heaps by 10,000,000 random steps each, or SOAK_STEPS=.., verified at intervals; and makes
#                   100,000,000 objects that nobody keeps, or SOAK_OBJECTS=.., in the smallest heaps; and has threads
#                   share a heap alongside a collector: two, four and eight for 10,000,000 turns each, with lists that
#                   they read of each other, and eight in C for 40,000,000 each; SOAK_TURNS=.. sets the latter, and the
#                   former are a quarter of it
# make fuzz         runs the program on changed scripts for 600 seconds, or FUZZ_SECONDS=..
# make clean        removes the program, the library, the log and all that earlier builds and checks kept
#
# The program is proved before it is built, so a first build takes minutes. Without a proof: 'make try'.

RT = rt
PYTHON = python3
INSTALL = install
AR = ar
CC = cc
PREFIX = /usr/local
DESTDIR =

# What the prover and the compiler print.
LOG = build.log

# The version, which the header defines.
VERSION = $(shell sed -n 's/^\#define PAUSELESS_VERSION "\(.*\)"/\1/p' include/pauseless.h)

# The files that the program is made of, with the proofs.
SOURCES := crates.txt $(shell find crates -type d -name out -prune -o \
	-type f \( -name '*.rt' -o -name '*.antt' \) -print)

# The toolchain is there, or what is needed is printed.
needs_toolchain = command -v '$(firstword $(RT))' > /dev/null || { \
	echo "make: the Rattle toolchain isn't there: no command '$(firstword $(RT))'." >&2; \
	echo "make: README.md says under 'A first script' what is needed; RT=.. names another path." >&2; \
	exit 1; }

# A step failed: shows how its log ends.
show_log = { echo 'make: this failed; the end of $(LOG):' >&2; tail -n 20 '$(LOG)' >&2; exit 1; }

# A variable that the command needs is set, or the command is shown with it.
needs = [ -n '$($(1))' ] || { echo "make: try 'make $@ $(1)=$(2)'" >&2; exit 1; }

# Runs a command, and shows on a terminal how far it is.
PROGRESS = $(PYTHON) tools/progress.py

# built CRATE,WORDS: proves and builds a crate's program, and runs it on these words. 'rt run' keeps it in out/.
built = $(PROGRESS) --crate $(1) --log '$(CURDIR)/$(LOG)' -- $(RT) run -- $(2) || $(show_log)

# unproved CRATE: builds a program without a proof, and keeps it as target/unproved/CRATE while no source changes.
unproved = RT='$(RT)' $(PYTHON) tools/unproved.py

# part WORDS: says which part of a long command begins. What follows it is run with a line that has its time.
part = echo '$@: $(1)' >&2; $(PROGRESS) --say '$@: $(1)' --

.PHONY: all lib try run new app check test-crate format test edits install bench bench-programs film plot soak fuzz clean

all: pauseless

pauseless: $(SOURCES)
	@$(needs_toolchain)
	@echo 'Proving the program, then building it. The first time takes about 30 minutes; the log is $(LOG).'
	@$(call built,report,run '$(CURDIR)/examples/first.script')
	@$(INSTALL) -m 755 crates/report/out/report $@

# What makes crates/foreign/out/libforeign.a.
LIBRARY = $(PROGRESS) --crate foreign --log '$(CURDIR)/$(LOG)' -- $(RT) lib

# That, with the toolchain's functions around malloc, realloc and free.
libpauseless.a: $(SOURCES)
	@$(needs_toolchain)
	@echo 'Proving the library, then building it. The first time takes about 20 minutes; the log is $(LOG).'
	@$(LIBRARY) || $(show_log)
	@printf 'create %s\naddlib %s\naddlib %s\nsave\nend\n' $@ crates/foreign/out/libforeign.a \
		"$$(dirname "$$($(RT) doc)")/c/liblibc_c.a" | $(AR) -M

ifdef TRY
lib:
	@AR='$(AR)' $(unproved) foreign
	@echo 'The library is target/unproved/libpauseless.a.'
else
lib: libpauseless.a
endif

run: pauseless
	@./pauseless run examples/first.script

try: SCRIPT = examples/first.script
try: MODE = run
try:
	@$(unproved) report
	@target/unproved/report '$(MODE)' '$(SCRIPT)'

new:
	@$(call needs,NAME,mycache)
	@$(PYTHON) tools/new.py '$(NAME)'

# What 'make app' runs its program on.
ARGS =

app:
	@$(call needs,NAME,mycache)
ifdef TRY
	@$(unproved) --fast '$(NAME)'
	@'target/unproved/$(NAME)-fast' $(ARGS) || { status=$$?; [ $$status != 132 ] || \
		echo "make: a test of the code stopped it; 'rt try' in crates/$(NAME) prints where" >&2; exit $$status; }
else
	@$(needs_toolchain)
	@$(PROGRESS) --crate '$(NAME)' --run --log '$(CURDIR)/$(LOG)' -- $(RT) run -- $(ARGS)
endif

check:
	@$(needs_toolchain)
	@$(call needs,CRATE,heap)
	@$(PROGRESS) --crate '$(CRATE)' -- $(RT) check $(if $(ONLY),--only '$(ONLY)')

test-crate:
	@$(needs_toolchain)
	@$(call needs,CRATE,heap)
	@RT='$(RT)' $(PYTHON) tools/test_crate.py $(if $(TRY),--try) '$(CRATE)'

format:
	@$(needs_toolchain)
	@for crate in $$(sed -n 's/^\([a-z_]*\)\( [a-z]*\)*:.*/\1/p' crates.txt); do \
		(cd "crates/$$crate" && $(RT) fmt) || exit 1; \
	done

test:
	@$(needs_toolchain)
	@RT='$(RT)' INSTALL='$(INSTALL)' PYTHON='$(PYTHON)' sh tests/all.sh

# The crates whose mutants 'make edits' tries; none: all that have any.
CRATES =

edits:
	@$(needs_toolchain)
ifdef CHECK
	@$(PYTHON) tests/edits.py check $(CRATES)
else
	@RT='$(RT)' $(PROGRESS) --say 'trying mutants' -- $(PYTHON) tests/edits.py try $(CRATES)
endif

install: pauseless libpauseless.a
	$(INSTALL) -d '$(DESTDIR)$(PREFIX)/bin' '$(DESTDIR)$(PREFIX)/include' '$(DESTDIR)$(PREFIX)/lib/pkgconfig'
	$(INSTALL) -m 755 pauseless '$(DESTDIR)$(PREFIX)/bin/pauseless'
	$(INSTALL) -m 644 include/pauseless.h include/pauseless_shared.h '$(DESTDIR)$(PREFIX)/include'
	$(INSTALL) -m 644 libpauseless.a '$(DESTDIR)$(PREFIX)/lib/libpauseless.a'
	sed 's|@PREFIX@|$(PREFIX)|; s|@VERSION@|$(VERSION)|' include/pauseless.pc.in \
		> '$(DESTDIR)$(PREFIX)/lib/pkgconfig/pauseless.pc'

# The parts of the bench, which are programs of bench/.
PARTS = c_calls lisp calls commands run boehm waves crowds zgc pauses large cache data

ifdef TRY
bench-programs:
	@for crate in foreign report bench_calls benches; do \
		AR='$(AR)' $(unproved) --unchecked $$crate || exit 1; \
	done
else
bench-programs: pauseless libpauseless.a
	@$(call built,bench_calls,copies 64 3 2)
	@$(call built,benches,collections mark-list 10 2 1 1)
endif

bench: bench-programs
	@number=0; for part in $(PARTS); do \
		number=$$((number + 1)); \
		what="bench: $$number of $(words $(PARTS)): $$part"; \
		echo "$$what" >&2; \
		CC='$(CC)' $(PROGRESS) --say "$$what" -- $(PYTHON) bench/$$part.py $(if $(TRY),--unproved) || exit 1; \
	done
	@$(PYTHON) bench/tables.py write
	@$(PYTHON) tests/figures.py write

# The program that writes the states of a script's heap, with TRY=1 as a build that proves nothing.
ifdef TRY
STATES = target/unproved/script_states
else
STATES = crates/script_states/out/script_states
endif

crates/script_states/out/script_states: $(SOURCES)
	@$(needs_toolchain)
	@echo 'Proving the program, then building it. The first time takes about 30 minutes; the log is $(LOG).'
	@$(call built,script_states,'$(CURDIR)/examples/first.script')

FILM = film.html
PLOT = plot.html
EVERY = 1

# Builds the program. A script with a fault is to be rejected in a minute and not after a proof of half an hour: so if
# the proved program has to be built first, the script is read by one that isn't proved.
ifdef TRY
states = $(unproved) script_states
else
states = $(MAKE) --no-print-directory -q $(STATES) 2> /dev/null || { \
	$(unproved) script_states && target/unproved/script_states '$(SCRIPT)' 1000000 > /dev/null && \
	$(MAKE) --no-print-directory $(STATES); }
endif

# drawn PROGRAM,FILE,WORDS: writes a page of the states that a script's heap has, by a program of film/. If that fails
# the page stays as it was, and nothing else is left.
drawn = trap 'rm -f "$(2).states" "$(2).part"' EXIT; trap 'exit 1' HUP INT TERM; \
	$(STATES) '$(SCRIPT)' $(3) > '$(2).states' && \
	$(PYTHON) $(1) '$(SCRIPT)' < '$(2).states' > '$(2).part' && mv '$(2).part' '$(2)'

film: SCRIPT = examples/moving.script
film:
	@$(states)
	@$(call drawn,film/film.py,$(FILM))
	@echo 'The film is $(FILM).'

plot: SCRIPT = rounds.script
plot:
	@[ '$(SCRIPT)' != rounds.script ] || $(PYTHON) film/rounds.py > rounds.script
	@$(states)
	@$(call drawn,film/plot.py,$(PLOT),$(EVERY))
	@echo 'The plot is $(PLOT).'

# The heaps that are driven, and the steps of each; and how many threads share a heap.
SOAKED = rows rolling smallest several long many
SOAK_STEPS = 10000000
SOAK_OBJECTS = 100000000
SOAK_TURNS = 40000000
SOAK_THREADS = 2 4 8

soak: libpauseless.a
	@$(needs_toolchain)
	@$(call built,benches,steps rolling 1 100000 1)
	@$(call part,1 of $(words x $(SOAKED)): $(SOAK_OBJECTS) objects that nobody keeps) \
		crates/benches/out/benches steps waste $(SOAK_OBJECTS)
	@number=1; for heap in $(SOAKED); do \
		number=$$((number + 1)); \
		what="soak: $$number of $(words x $(SOAKED)): $(SOAK_STEPS) steps on the heap '$$heap'"; \
		echo "$$what" >&2; \
		$(PROGRESS) --say "$$what" -- crates/benches/out/benches steps $$heap 1 $(SOAK_STEPS) 1000 1 || exit 1; \
	done
	@for threads in $(SOAK_THREADS); do \
		what="soak: $$threads threads that share a heap"; \
		echo "$$what" >&2; \
		$(PROGRESS) --say "$$what" -- crates/benches/out/benches threads timed turns $$threads \
			$$(($(SOAK_TURNS) / 4)) || exit 1; \
	done
	@mkdir -p target
	@$(CC) -std=c11 -O2 -Iinclude tests/c/shared.c libpauseless.a -pthread -o target/shared
	@$(call part,the last: eight threads that share a heap in C) target/shared $(SOAK_TURNS)

FUZZ_SECONDS = 600

fuzz: pauseless
	@FUZZ_SECONDS='$(FUZZ_SECONDS)' PYTHON='$(PYTHON)' sh tests/fuzz.sh

clean:
	rm -f pauseless libpauseless.a '$(LOG)' '$(FILM)' '$(PLOT)' rounds.script
	rm -rf crates/*/out target
