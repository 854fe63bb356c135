# Host side of leafgraph: the demo, the tests and the gate.
#
# The toolchain keeps its work in crates/*/out/, and everything built here goes
# to build/. What each part needs stands in make/, a file for each.

SHELL := bash
.SHELLFLAGS := -euo pipefail -c
MAKEFLAGS += --no-print-directory
.DEFAULT_GOAL := demo
.DELETE_ON_ERROR:

CC ?= cc
CXX ?= c++
CARGO ?= cargo
PYTHON ?= python3
# Not taken from the environment: the gate runs the toolchain itself.
RT := rt

WARNINGS := -Wall -Wextra -Werror -pedantic
CXX_WARNINGS := $(WARNINGS) -Wshadow -Wconversion -Wold-style-cast
CFLAGS ?= -O2
CXXFLAGS ?= -O2

# The library for C, under the name that its users link.
ARCHIVE := build/lib/libleafgraph.a
HEADERS := include/leafgraph.h include/leafgraph.hpp
RT_LOG := build/rt-ci.log
RT_BEGUN := build/rt-ci.begun

include make/host.mk
include make/package.mk
include make/tool.mk
include make/examples.mk
include make/reference.mk
include make/fuzz.mk
include make/docs.mk

.PHONY: help test tests-beside clean

help:
	@echo 'make demo              rewrite the leaf pipeline, and show that its number stays'
	@echo 'make test              the gate: every proof, every wrong program, every test'
	@echo 'make tests-beside      every test that is no proof'
	@echo 'make tool              the command-line tool, build/leafgraph'
	@echo 'make install           library, headers, tool and package files, below PREFIX=/usr/local'
	@echo 'make benchmark         the speed beside the second program'"'"'s, as a table'
	@echo 'make benchmark-report  the same, into docs/PERFORMANCE.md with its plots'
	@echo 'make fuzz              look for a difference for SECONDS=60'
	@echo 'make blocks            the example blocks anew from their sources'
	@echo 'make clean             remove build/, and what the toolchain keeps in crates/*/out/'

# The gate. `rt ci` comes first, on the checkout as it is. Each step is a line of
# its own, so that none can hide another's failure.
test: | build
	@touch $(RT_BEGUN)
	time { $(RT) ci 2>&1 | tee $(RT_LOG); }
	$(PYTHON) -B make/must_fail_reasons.py $(RT_LOG)
	$(PYTHON) -B make/archive.py $(ARCHIVE) --since $(RT_BEGUN) || echo 'an archive that is missing or old is made by rt lib'
	$(MAKE) reference-tests
	$(MAKE) tests-beside
	@# Last, the toolchain's own verdict again; with a failure it is one.
	@tail -n 1 $(RT_LOG) > build/verdict
	@cat build/verdict
	@grep -qxE '[0-9]+ passed, 0 failed' build/verdict

# Every test that is no proof, in a minute or two: what a change of the host
# side wants.
tests-beside: $(ARCHIVE)
	$(MAKE) host-tests
	$(MAKE) package-tests
	$(MAKE) examples-tests
	$(MAKE) tool-tests
	$(MAKE) docs-tests
	$(MAKE) fuzz-replay
	$(MAKE) comparison

# Anew when a source is newer than the archive. Every crate below it is proved
# first, which takes minutes; the screen gets a line for each.
$(ARCHIVE): $(shell find crates crates.txt -name out -prune -o -type f -print 2>/dev/null) | build
	@echo 'proving and compiling the library; the whole log is build/library.log'
	@{ cd crates/leafgraph_c && $(RT) lib --cpu=x86-64; } 2>&1 | tee build/library.log \
		| $(PYTHON) -B make/progress.py leafgraph_c || { cat build/library.log; exit 1; }
	@mkdir -p $(@D)
	@cp crates/leafgraph_c/out/libleafgraph_c.a $@

build:
	mkdir -p $@

clean:
	rm -rf build crates/*/out
