# Builds, checks and installs ipfw_replay and report_view. 'make help' lists what can be made.

RT = rt
PREFIX = /usr/local
DESTDIR =

PROGRAM = bin/ipfw_replay
VIEW = bin/report_view
LOCK_BENCH = bin/lock_bench
STATES_BENCH = bin/states_bench
REPORT_BENCH = bin/report_bench
EDIT_BENCH = bin/edit_bench
WORLD_BENCH = bin/world_bench
REPLAY_BENCH = bin/replay_bench
BENCHES = $(LOCK_BENCH) $(STATES_BENCH) $(REPORT_BENCH) $(EDIT_BENCH) $(WORLD_BENCH) $(REPLAY_BENCH)

# Fails with one line where the toolchain's command is missing.
need_rt = @command -v $(RT) >/dev/null || { \
	echo "make: the Rattle toolchain's command '$(RT)' is needed to prove and build the crates; it was looked for in PATH ($$PATH)" >&2; exit 1; }

all: $(PROGRAM) $(VIEW)

# rt ci proves the programs and the crates below them, once for both, links them and runs each on what lies beside it.
$(PROGRAM) $(VIEW) &: bin/sources
	$(need_rt)
	@echo "proving the crates and linking $(PROGRAM) and $(VIEW): a first build takes minutes, and each proved crate has its lines"
	RT=$(RT) build/run ipfw_cli report_view
	@mv bin/ipfw_cli $(PROGRAM)
	@echo "built $(PROGRAM) and $(VIEW)"

# The programs that measure, once for all.
$(BENCHES) &: bin/sources
	$(need_rt)
	RT=$(RT) build/run $(notdir $(BENCHES))
	@echo "built $(BENCHES)"

# The checksum of each source. The file is replaced only where one of them changed, so that nothing is built
# anew else. Wrong bodies are no part of a program.
bin/sources: FORCE
	@mkdir -p bin
	@find crates crates.txt HANDLES \( -name out -o -name must-fail \) -prune -o -type f -exec sha256sum {} + | LC_ALL=C sort >$@.new
	@if cmp -s $@.new $@; then rm $@.new; else mv $@.new $@; fi

example: $(PROGRAM)
	$(PROGRAM) serial examples/first/rules out:em0:examples/first/session.pcap

# rt ci proves the sources as they stand, so nothing may change them before it ends. It links the program that it
# proved, and leaves it there. It ends well over a wrong body that the prover can't read, which tries no contract.
test: bin/sources
	$(need_rt)
	@bash -o pipefail -c '$(RT) ci 2>&1 | tee bin/gate'
	@if grep "BAD EDIT" bin/gate; then echo "make: these wrong bodies tried no contract" >&2; exit 1; fi
	@cp crates/ipfw_cli/out/ipfw_cli $(PROGRAM).new && mv $(PROGRAM).new $(PROGRAM)
	@cp crates/report_view/out/report_view $(VIEW).new && mv $(VIEW).new $(VIEW)
	tests/run $(PROGRAM)

# Those in crates/*/must-fail are the gate's.
wrong-bodies:
	$(need_rt)
	RT=$(RT) wrong-bodies/run

bench: $(PROGRAM) $(BENCHES)
	bench/run $(PROGRAM) $(EDIT_BENCH)
	$(STATES_BENCH) 1000000
	$(REPORT_BENCH) 1000000
	$(LOCK_BENCH) 10000000
	$(WORLD_BENCH) 1000000
	$(REPLAY_BENCH) 1000000

# The pages of the examples as pictures below pictures/, by headless Chromium, light and dark and at two widths.
pictures: $(VIEW)
	tests/pictures $(VIEW)

install: $(PROGRAM) $(VIEW)
	install -d $(DESTDIR)$(PREFIX)/bin
	install -m 755 $(PROGRAM) $(DESTDIR)$(PREFIX)/bin/ipfw_replay
	install -m 755 $(VIEW) $(DESTDIR)$(PREFIX)/bin/report_view
	install -d $(DESTDIR)$(PREFIX)/share/man/man1
	install -m 644 docs/ipfw_replay.1 docs/report_view.1 $(DESTDIR)$(PREFIX)/share/man/man1
	install -d $(DESTDIR)$(PREFIX)/share/doc/ipfw_replay
	install -m 644 docs/RULES.md docs/RECIPES.md $(DESTDIR)$(PREFIX)/share/doc/ipfw_replay

clean:
	rm -rf bin pictures crates/*/out

help:
	@echo "make            proves the crates and builds bin/ipfw_replay and bin/report_view, where something changed"
	@echo "make example    builds, and replays examples/first: a real capture beside a script of rules"
	@echo "make test       proves and tests every crate (rt ci), then runs the program's own checks (tests/run)"
	@echo "make wrong-bodies  tries the wrong bodies that the gate leaves out: the prover must refuse each"
	@echo "make bench      builds, and times the program on large captures, beside tcpdump where it is installed (needs python3), the states' asks, the report's lines, edits of a configuration, the lock's sections, the shared world's, and both replays without their reports"
	@echo "make pictures   builds, and makes pictures of the examples' pages below pictures/ (needs chromium)"
	@echo "make install    builds, and copies the programs, their manual pages, docs/RULES.md and docs/RECIPES.md below DESTDIR/PREFIX ($(PREFIX))"
	@echo "make clean      removes all that was built here"
	@echo
	@echo "RT=COMMAND names another command than rt for the Rattle toolchain. RT_JOBS=N in the environment has it do N things at a"
	@echo "time, in place of one for each processor where memory is free."

.PHONY: all example test wrong-bodies bench pictures install clean help FORCE
