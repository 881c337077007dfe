# Proves, builds, shows and installs asancol. The toolchain's command `rt` has to be on the PATH, but not for the
# recorder, which is C.

PREFIX ?= /usr/local
TOP := .
include install.mk
CC ?= cc
HAS_CC := $(shell command -v $(firstword $(CC)) 2> /dev/null)
HAS_PYTHON := $(shell command -v python3 2> /dev/null)

SOURCES := crates.txt HANDLES $(shell find crates -name out -prune -o -type f \( -name '*.rt' -o -name '*.antt' \) -print)
EXAMPLE := examples/one_byte_past_the_end.trace
REDZONES := examples/stack_and_global_poison.trace

.PHONY: all demo check check-mutants check-mutants-alone stress fuzz fuzz-parsers failures bench soak install \
        uninstall clean recorder docs install-docs check-recorder check-real check-suites bench-record bench-suites \
        stress-record stress-segments install-recorder run check-run check-farm bench-run bench-scale install-run \
        install-units options dist deb tarball check-packages check-bare lint release test races check-compilers count

# The program, proved.
all: asancol

# `rt run` proves what has changed, builds the program and runs it: here it only prints its help.
asancol: $(SOURCES)
	@command -v rt > /dev/null || { echo "make: asancol is proved and built by the command rt of the toolchain that" \
	    "README.md names, and it is not on the PATH; 'make recorder run' needs only a C compiler" >&2; exit 1; }
	cd crates/asancol && rt run -- --help > /dev/null
	cp crates/asancol/out/asancol $@

# The two lines of README's first screen: a store that runs past its block. Without a C compiler it is that of a stored
# trace, and then a load in a redzone on the stack and a store in a global's. They are checked by ./asancol if that is up
# to date. Else one is built for this alone, without its proof, in a minute or two, and is not kept.
ifneq ($(HAS_CC),)
demo:
	+@$(MAKE) -s $(if $(filter -j%,$(MAKEFLAGS)),,-j$(shell nproc)) LLVM_CONFIGS= recorder run
	ASANCOL_CC='$(CC)' recorder/asancol-cc -g examples/bug.c -o bug
	@$(SHOW) -- ./bug Alice
else
demo:
	@$(SHOW) $(EXAMPLE) $(REDZONES)
endif

SHOW = if $(MAKE) -q asancol > /dev/null 2>&1; then program=./asancol; else program=-; fi; tools/demo.py $$program

# Tests of all parts, in seven minutes on four processors from a fresh clone. It proves nothing, and says at the end
# what it left out. With CHECKED=1, after `make check`, it leaves out what that has run.
test:
	tools/quick.py $(if $(CHECKED),--checked)

# Proves everything from nothing, tries the mutants, and runs the tests and the program. What has passed is then
# the program here, so that nothing is proved again for it.
check:
	tools/gate.py
	@cp crates/asancol/out/asancol asancol

# The mutants, several in one check: the prover has to refuse each. What it refused before is not tried again.
check-mutants:
	tools/planted.py
	tools/mutants.py

# The same bodies, each tried by itself by the toolchain: two hours of one processor.
check-mutants-alone:
	tools/mutants_alone.py

# Looks over C, shell scripts, Python and the tree with the linters that are there, within two minutes. Of the layout of
# C it asks on the lines that differ from where the branch left main, or from BASE=..
lint:
	tools/lint.py $(if $(BASE),--base $(BASE))

# Many traces at once, again and again, for as many minutes: each text has to be that of its trace
# checked alone.
MINUTES := 10

stress: asancol
	tests/stress.py --minutes $(MINUTES) ./asancol

# So many drawn traces, good and damaged, by files, pipes and sockets, beside a slow checker that was written from the
# documents alone: 100,000 take a minute or two. SEED=.. draws the same ones again.
DRAWS := 100000
SEED :=

fuzz: asancol
	tests/fuzz.py --draws $(DRAWS) $(if $(SEED),--seed $(SEED)) ./asancol

# Memory, threads and descriptors that run short, peers that die, full outputs: within a minute or two.
failures: asancol
	tests/failures.py ./asancol

# The recorder: plain C, built with cc, gcc or clang (CC=..). It needs no asancol. If Python is there, the page of the
# calls that it checks is made too.
recorder:
	$(MAKE) -C recorder
	$(if $(HAS_PYTHON),-@$(MAKE) -s docs)

# What is made among the documents, and not committed: what is recorded of each function of the C library.
docs: docs/CALLS.md

docs/CALLS.md: recorder/calls/calls.def recorder/tests/calls_page.py recorder/tests/calls.py
	recorder/tests/calls_page.py > $@ || { rm -f $@; exit 1; }

# Small programs under each compiler that is there, recorded and checked. Tests that need a compiler, an AddressSanitizer
# or a symbolizer that is not there are left out, and it says which. With SANITIZE=1 its parsers and its stream also run
# under the compilers' own sanitizers. With REST=1 it leaves out what `make test` has run. With TARGET=aarch64 it runs
# those of programs for ARM alone, with ARM_DRAWS drawn bugs beside AddressSanitizer's reports of them.
ARM_DRAWS := 300

check-recorder: asancol recorder run
	$(if $(SANITIZE),SANITIZE=1) $(if $(TARGET),ARM_DRAWS=$(ARM_DRAWS)) recorder/tests/check.py $(if $(REST),--rest) \
	    ./asancol $(if $(TARGET),arm:)

# Each version of GCC and Clang that is there, with each linker, level and library of C++: bugs are found at their lines,
# and one in twenty of the quick tests passes, other ones for each. It ends with a table, after some ten minutes.
check-compilers: asancol recorder run
	recorder/tests/compilers.py ./asancol

# What parses strangers' words, objects, formats, settings and messages, in the recorder and in asancol-run: libFuzzer
# draws inputs for each of them, for so many seconds.
SECONDS := 60

fuzz-parsers: recorder
	tests/fuzzers.py --seconds $(SECONDS)

# What threads share in the recorder, under the ThreadSanitizer of each compiler that is there: under a minute.
races:
	tests/fuzzers.py races

# What checking costs, with PEER=PROGRAM beside a program with the same output: some minutes, on a machine with nothing
# else to do. It writes the tables of docs/SPEED.md.
bench: asancol
	tests/bench/bench.py $(if $(PEER),--peer $(PEER)) --page docs/SPEED.md ./asancol

# What recording costs, beside AddressSanitizer: some twenty minutes, on a machine with nothing else to do. The sources
# of the real programs come as for check-real, or these are left out.
bench-record: asancol recorder run
	recorder/tests/bench.py ./asancol

# How many instructions recorded programs take, and how much code they have: no more than instructions.txt says. A busy
# machine counts the same, within a minute. With UPDATE=1 it writes that file.
count: recorder
	recorder/tests/instructions.py $(if $(UPDATE),--update)

# What the suites of check-real and four more cost under asancol-run, beside AddressSanitizer: some two hours, on a
# machine with nothing else to do.
bench-suites: asancol recorder run
	recorder/tests/bench_suites.py ./asancol

# The command that runs and checks others: plain C. It needs asancol when it runs.
run:
	$(MAKE) -C run

# Programs under it, as a user would run them, within two minutes. Tests of tools that are not there are left out, and
# it says which. With SANITIZE=1 asancol-run is one that the compiler's own sanitizers watch. REST=1 is as above.
check-run: asancol recorder run
	$(if $(SANITIZE),$(MAKE) -C run asancol-run-sanitized)
	$(if $(SANITIZE),SANITIZE=1) run/tests/check.py $(if $(REST),--rest) ./asancol

# Small projects in CI jobs, under GNU parallel, ssh, Slurm and in sandboxes; and one with jobs for AddressSanitizer,
# whose compiler alone is changed: within three minutes. What needs a tool that is not there is left out, and it says
# which. With buildah and mmdebstrap an image is made, too, of packages that are fetched, in some minutes.
check-farm: asancol recorder run
	tests/farms.py ./asancol

# What one process, one connection and one result cost: the figures of docs/SCALE.md, in some minutes.
bench-scale: asancol recorder run
	run/tests/bench_scale.py ./asancol

# Recorded programs against an endless service, for as many hours: each has its verdict or a word, each planted bug is
# found, and what serves does not grow. It prints a line a minute. First 100,000 programs that check themselves, of which
# half are killed: nothing is left of them.
HOURS := 1

soak: asancol recorder run
	run/tests/soak_own.py ./asancol
	run/tests/soak.py --hours $(HOURS) ./asancol

# What a run costs beside the same command without it: a minute, on a machine with nothing else to do.
bench-run: asancol recorder run
	run/tests/bench.py ./asancol
	run/tests/bench_report.py

# The test suites of real programs under asancol-run: each passes as without it, and has no report. The sources
# come from Debian by `apt-get source` the first time; it takes some minutes. SUITES="nginx tmux" runs those alone, and
# SUITES=long those that take longer. Without it the commands of docs/FOUND.md are run, too.
SUITES :=

check-real: asancol recorder run
	recorder/tests/real.py ./asancol $(SUITES)
	$(if $(SUITES),,recorder/tests/found.py ./asancol)

# AddressSanitizer's own tests, of compiler-rt and of GCC, recorded: each has the report that it has with the real
# runtime. The sources come as for check-real. Allow it an hour, and more beside other work. With TARGET=aarch64 it runs
# GCC's tests, and the unit tests, for ARM.
check-suites: asancol recorder run
	recorder/tests/suites.py ./asancol

# Threads under load, recorded so many times: each run ends, and reports what was planted.
TIMES := 1000

stress-record: asancol recorder
	recorder/tests/stress.py --times $(TIMES) ./asancol

# 200 million mallocs and frees in four threads, and one bug at their end, under asancol-run: some minutes.
stress-segments: asancol recorder run
	recorder/tests/segments_stress.py ./asancol

# Where the pages are installed.
DOCUMENTS := $(ROOT)/share/doc/asancol

install-recorder: install-docs
	$(MAKE) -C recorder install PREFIX=$(PREFIX) DESTDIR=$(DESTDIR)

# The pages as they lie in the tree, so that their links hold; one to code is its text alone.
TO_CODE := \]\((\.\./)*(\.ci|crates|common|run|recorder|report|man|testing|tests|tools|packaging|options)(/[^)]*)?\)

install-docs: $(if $(HAS_PYTHON),docs)
	install -d $(DOCUMENTS)/docs/inside
	install -m 644 README.md CHANGELOG.md CONTRIBUTING.md $(DOCUMENTS)
	install -m 644 $(sort $(wildcard docs/*.md docs/*.png) $(if $(HAS_PYTHON),docs/CALLS.md)) $(DOCUMENTS)/docs
	install -m 644 docs/inside/*.md $(DOCUMENTS)/docs/inside
	cp -r examples $(DOCUMENTS)
	find $(DOCUMENTS) -name '*.md' -exec sed -i -z -E 's,\[([^]]*)$(TO_CODE),\1,g' {} +

install-run:
	$(MAKE) -C run install PREFIX=$(PREFIX) DESTDIR=$(DESTDIR)
	$(MAKE) -C report install PREFIX=$(PREFIX) DESTDIR=$(DESTDIR)
	$(MAKE) -C listen install PREFIX=$(PREFIX) DESTDIR=$(DESTDIR)

# The units of systemd for an endless service. None of them is enabled.
UNITS := asancol.socket asancol@.service asancol.slice

install-units:
	install -d $(ROOT)/lib/systemd/system
	$(foreach it,$(UNITS),sed 's,@BIN@,$(PREFIX)/bin,' packaging/systemd/$(it) > $(ROOT)/lib/systemd/system/$(it);)
	chmod 644 $(UNITS:%=$(ROOT)/lib/systemd/system/%)

# With the recorder and the command that runs others, where a C compiler is there.
install: asancol install-units $(if $(HAS_CC),install-recorder install-run)
	install -D asancol $(ROOT)/bin/asancol
	$(call install-page,man/asancol.1)
	$(call install-page,man/asancol-trace.5)
	$(call install-completions,completions,asancol)

# Takes away what `make install` has put there, with the same PREFIX and DESTDIR.
PROGRAMS := asancol asancol-run asancol-report asancol-listen

uninstall:
	$(MAKE) -C recorder uninstall PREFIX=$(PREFIX) DESTDIR=$(DESTDIR)
	rm -rf $(ROOT)/lib/asancol $(DOCUMENTS)
	rm -f $(foreach it,$(PROGRAMS),$(ROOT)/bin/$(it) $(ROOT)/share/man/man1/$(it).1)
	rm -f $(ROOT)/share/man/man5/asancol-trace.5 $(ROOT)/share/man/man5/asancol-results.5
	rm -f $(UNITS:%=$(ROOT)/lib/systemd/system/%)
	rm -f $(foreach it,$(PROGRAMS),$(call completions-of,$(it)))

# Completions, lists of manual pages and code, from the tables of options.
options:
	options/make.py

# The sources as they are committed, and docs/CALLS.md, in an archive that is the same whoever makes it.
dist:
	packaging/dist.py

# A package for Debian and its like, built without root. It has what `make install` installs.
deb: asancol recorder run
	packaging/deb.py

# The same for other systems: an archive that works wherever it is unpacked.
tarball: asancol recorder run
	packaging/tarball.py

# The tag of what VERSION says, the archives and the package, if the tree is clean and CHANGELOG.md has a section for it.
# It pushes nothing.
release:
	packaging/release.py

# The archive and the package are built, unpacked and used; pages and completions have each option of the help.
check-packages: asancol recorder run
	tests/packages.py ./asancol

# The package on two minimal systems, which mmdebstrap makes of Debian's archive. It needs root, and some minutes.
check-bare: asancol recorder run
	tests/packages.py ./asancol "bare machine"

# Leaves what was proved so far, in crates/*/out, for the next build.
clean:
	rm -f asancol bug docs/CALLS.md asancol-*.tar.* asancol_*.deb
	$(MAKE) -C recorder clean
	$(MAKE) -C run clean
