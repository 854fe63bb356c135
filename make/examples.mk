# The examples: readable sources, the blocks and calls made from them, and the demo.

# The demo reads blocks as the tool does.
READING := examples/demo/graph.cpp tool/blocks.cpp tool/names.cpp
DEMO_PARTS := $(READING) examples/demo/listing.cpp examples/demo/meaning.cpp
DEMO_HEADERS := $(wildcard examples/demo/*.hpp) tool/blocks.hpp tool/fields.hpp tool/names.hpp $(HEADERS)
BUILD_EXAMPLE = $(CXX) -std=c++17 $(CXX_WARNINGS) $(CXXFLAGS) -Iinclude -I. -o $@ $(filter %.cpp %.a,$^)

.PHONY: blocks demo examples-tests

# The blocks, and the calls of the program crates/worked_examples, anew from the sources. They
# are committed, so that nobody needs to.
blocks:
	$(PYTHON) -B examples/assemble.py examples/blocks examples/source/*.txt
	$(PYTHON) -B examples/assemble.py --version-1 examples/blocks examples/source/leaf_pipeline.txt
	$(PYTHON) -B examples/worked_examples.py

demo: build/leaf_demo
	@build/leaf_demo examples/blocks

examples-tests: build/leaf_demo build/check_blocks build/leafgraph
	$(PYTHON) -B examples/test_examples.py
	$(PYTHON) -B examples/worked_examples.py --check

build/leaf_demo: examples/leaf_demo.cpp $(DEMO_PARTS) $(DEMO_HEADERS) $(ARCHIVE) | build
	$(BUILD_EXAMPLE)

build/check_blocks: examples/check_blocks.cpp $(READING) $(DEMO_HEADERS) $(ARCHIVE) | build
	$(BUILD_EXAMPLE)
