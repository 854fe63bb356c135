# The second program: its own tests, the comparison with the proved library,
# and the benchmark.

CARGO_FLAGS ?=
LOCKED := --offline --locked $(CARGO_FLAGS)

# Given to cargo only, not to the toolchain. The comparison and the benchmark
# link the archive made here, whatever the environment says.
IN_REFERENCE := cd reference && CARGO_TARGET_DIR=$(CURDIR)/build/reference \
	LEAFGRAPH_LIB_DIR=$(CURDIR)/$(patsubst %/,%,$(dir $(ARCHIVE))) $(CARGO)
REFERENCE_BIN := build/reference/release

.PHONY: reference-tests run-only-test comparison benchmark benchmark-report

reference-tests:
	$(IN_REFERENCE) test $(LOCKED) -p leafgraph_reference

# Document 01's examples that are run: the second program must say what the
# proved one said.
run-only-test: | build
	$(IN_REFERENCE) build $(LOCKED) --release -p leafgraph_reference
	$(REFERENCE_BIN)/run_examples > build/run_only
	diff crates/worked_examples/stdout build/run_only

comparison: run-only-test $(ARCHIVE)
	$(IN_REFERENCE) build $(LOCKED) --release -p compare
	$(REFERENCE_BIN)/compare checks
	$(REFERENCE_BIN)/compare matching
	$(REFERENCE_BIN)/compare rewriting
	$(REFERENCE_BIN)/compare cleanups
	$(REFERENCE_BIN)/compare readers
	$(REFERENCE_BIN)/compare listings
	$(REFERENCE_BIN)/compare mixed

# The proved library's speed beside the second program's, compiled alike. No
# part of the gate: a figure is no fault. With CSV=file the rows are written
# there too.
CSV :=
benchmark: $(ARCHIVE)
	$(IN_REFERENCE) build $(LOCKED) --profile benchmark -p bench
	build/reference/benchmark/benchmark $(if $(CSV),--csv $(CSV))

# A run whose rows are kept, and the pictures and tables of docs/PERFORMANCE.md
# made of them. The figures count where nothing else runs on the machine.
benchmark-report:
	$(MAKE) benchmark CSV=docs/performance/results.csv
	$(PYTHON) docs/performance/plot.py
