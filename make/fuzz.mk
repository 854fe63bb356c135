# Fuzzing: any bytes at the C entry points, with the second program beside them.
# fuzz/README.md tells more.

# How long `make fuzz` runs; other flags for libFuzzer.
SECONDS ?= 60
FUZZ_FLAGS ?=
# The clang that links libFuzzer.
FUZZ_CLANG ?= clang
# With INSTRUMENTED=1 the library itself is compiled once more, with counters, so
# that its own branches guide the fuzzer and not only the second program's.
INSTRUMENTED ?=
FUZZ_INSTRUMENTED := build/fuzz/instrumented/libleafgraph.a
FUZZ_ARCHIVE := $(if $(filter 1 yes,$(INSTRUMENTED)),$(FUZZ_INSTRUMENTED),$(ARCHIVE))

.PHONY: fuzz fuzz-replay fuzz-replay-build fuzz-corpus

# No part of the gate. Fails on a difference, and where there is no libFuzzer.
fuzz: $(FUZZ_ARCHIVE)
	CARGO="$(CARGO)" CLANG="$(FUZZ_CLANG)" fuzz/run.sh $(SECONDS) $(dir $(FUZZ_ARCHIVE)) $(FUZZ_FLAGS)
ifneq ($(FUZZ_ARCHIVE),$(ARCHIVE))
	@# What was found with the instrumented library, run with the shipped one.
	$(MAKE) fuzz-replay-build
	$(REFERENCE_BIN)/fuzz_replay fuzz/corpus build/fuzz/corpus
endif

$(FUZZ_INSTRUMENTED): $(ARCHIVE) fuzz/instrument.sh make/archive.py
	PYTHON="$(PYTHON)" fuzz/instrument.sh $(dir $@)

# Part of the gate, and needs cargo only: every kept input once.
fuzz-replay: fuzz-replay-build
	$(REFERENCE_BIN)/fuzz_replay fuzz/corpus fuzz/regressions

fuzz-replay-build: $(ARCHIVE)
	$(IN_REFERENCE) test $(LOCKED) --release -p fuzz -p leafgraph_proved
	$(IN_REFERENCE) build $(LOCKED) --release -p fuzz -p leafgraph_proved

# The seeds anew; inputs that the fuzzer found stay.
fuzz-corpus: fuzz-replay-build
	$(REFERENCE_BIN)/fuzz_seeds fuzz/corpus
