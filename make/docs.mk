# The documents: what they quote and draw must be so.

.PHONY: docs-tests pictures

# The pictures and tables that are made from something else, made anew.
pictures:
	$(PYTHON) docs/pictures/crates.py
	$(PYTHON) docs/performance/plot.py

docs-tests: build/readme_example build/leafgraph
	build/readme_example examples/blocks/e1.lgt examples/blocks/relu_over_relu.lgr \
		| diff docs/tests/readme_example.stdout -
	$(PYTHON) docs/tests/references.py
	$(PYTHON) docs/tests/formats.py build/leafgraph
	$(PYTHON) docs/tests/toolchain.py $(RT)
	$(PYTHON) docs/pictures/crates.py --check
	$(PYTHON) docs/performance/plot.py --check

build/readme_example.cpp: README.md docs/tests/readme_example.py | build
	$(PYTHON) docs/tests/readme_example.py $@

build/readme_example: build/readme_example.cpp host/blocks.hpp $(HEADERS) $(ARCHIVE)
	$(CXX) -std=c++17 $(CXX_WARNINGS) $(CXXFLAGS) -Iinclude -I. -o $@ $< $(ARCHIVE)
