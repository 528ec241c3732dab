# Two commands for newcomers: `make demo` shows the engine at work, `make test` runs the gate.
.PHONY: demo test compare times

# Proves and builds what is needed, then inspects a lawful file and a refused one, and replays a short script.
demo: target/bin/inspect target/bin/replay
	@echo "A request file of three billers:"
	@cd samples/three-billers && ../../target/bin/inspect
	@echo
	@echo "The same kind of file with a trailer whose amount is one yen too high:"
	@cd samples/gas-wrong-amount && ../../target/bin/inspect
	@echo
	@echo "A script of calls on hosts and registers, and its answers:"
	@cd samples/stop-above-mandates && cat SCRIPT.TXT && ../../target/bin/replay

SOURCES = $(shell find crates -path '*/out' -prune -o \( -name '*.rt' -o -name '*.antt' \) -print)

target/bin/inspect target/bin/replay &: $(SOURCES)
	tools/build

test:
	.ci/run

# More cases than the gate runs: make compare CASES=1000000 START=7
CASES = 40000
START = 1
compare: target/bin/inspect target/bin/replay
	tools/compare $(CASES) $(START)

# The time to prove each crate from nothing, recorded in docs/TIMES.md.
times:
	tools/times
