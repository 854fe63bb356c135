# The C header and the C++ wrapper, tried from C and C++.

TEST_CALLS := host/counts.h host/faults.h host/imports.h host/listing.h host/read_elsewhere.h \
		host/shared_constants.h host/sweep_squeeze.h
HEADER_TEST := host/test_blocks.h $(TEST_CALLS) include/leafgraph.h
WRAPPER_TEST := host/test_wrapper.cpp host/blocks.hpp $(TEST_CALLS) $(HEADERS)
BUILD_WRAPPER_TEST = $(CXX) $(CXX_WARNINGS) $(CXXFLAGS) -Iinclude -o $@ $< $(ARCHIVE) -lpthread
SANITIZERS := -g -fsanitize=address,undefined -fno-sanitize-recover=all

# The compiler that plugin-symbols is about.
GXX ?= g++

.PHONY: host-tests wrapper-sanitized wrapper-valgrind plugin-symbols

host-tests: build/test_header_c build/test_header_cpp build/test_stack \
		build/test_wrapper_17 build/test_wrapper_20
	build/test_header_c
	build/test_header_cpp
	build/test_stack
	build/test_wrapper_17
	build/test_wrapper_20
	$(MAKE) wrapper-sanitized
	$(MAKE) wrapper-valgrind
	$(MAKE) plugin-symbols

build/test_header_c: host/test_header.c $(HEADER_TEST) $(ARCHIVE) | build
	$(CC) -std=c99 $(WARNINGS) $(CFLAGS) -Iinclude -o $@ $< $(ARCHIVE)

build/test_header_cpp: host/test_header.cpp $(HEADER_TEST) $(ARCHIVE) | build
	$(CXX) -std=c++11 $(WARNINGS) $(CXXFLAGS) -Iinclude -o $@ $< $(ARCHIVE)

# Measures a stack, so it needs threads.
build/test_stack: host/test_stack.c host/counts.h include/leafgraph.h $(ARCHIVE) | build
	$(CC) -std=c11 $(WARNINGS) $(CFLAGS) -Iinclude -o $@ $< $(ARCHIVE) -lpthread

build/test_wrapper_17: CXXFLAGS += -std=c++17 -fno-exceptions -fno-rtti
build/test_wrapper_17: $(WRAPPER_TEST) $(ARCHIVE) | build
	$(BUILD_WRAPPER_TEST)

# With std::span.
build/test_wrapper_20: CXXFLAGS += -std=c++20
build/test_wrapper_20: $(WRAPPER_TEST) $(ARCHIVE) | build
	$(BUILD_WRAPPER_TEST)

build/test_wrapper_sanitized: CXXFLAGS += -std=c++17 $(SANITIZERS)
build/test_wrapper_sanitized: $(WRAPPER_TEST) $(ARCHIVE) | build
	$(BUILD_WRAPPER_TEST)

# The sanitizers see the wrapper and its test. The archive's own code is
# compiled without them.
wrapper-sanitized: | build
	@if echo 'int main() { return 0; }' \
			| $(CXX) $(SANITIZERS) -x c++ -o build/sanitizers - 2> /dev/null; then \
		$(MAKE) build/test_wrapper_sanitized && build/test_wrapper_sanitized; \
	else \
		echo "sanitizers: $(CXX) has no runtime for them here, so this test is left out"; \
	fi

# Valgrind sees every load and store, also the archive's: the buffers are on
# the heap, with their exact lengths.
wrapper-valgrind: build/test_wrapper_17
	@if command -v valgrind > /dev/null; then \
		valgrind -q --error-exitcode=1 build/test_wrapper_17; \
	else \
		echo "valgrind: not on this machine, so this test is left out"; \
	fi

# A plugin with a symbol that must be unique in the process (nm's type u) is never
# unloaded, and g++ makes one of each variable that a header defines. Without
# optimization, so that none is left out.
plugin-symbols: | build
	@if command -v nm > /dev/null && command -v $(GXX) > /dev/null; then \
		$(GXX) -std=c++17 $(CXX_WARNINGS) -O0 -Iinclude -c -o build/plugin.o host/plugin.cpp; \
		nm -C build/plugin.o > build/plugin.symbols; \
		grep -q 'leafgraph::rewrite' build/plugin.symbols; \
		grep -q 'leafgraph::squeeze' build/plugin.symbols; \
		grep -q 'leafgraph::import_graph' build/plugin.symbols; \
		grep -q 'leafgraph::is_read_elsewhere' build/plugin.symbols; \
		grep -q 'leafgraph::write_listing' build/plugin.symbols; \
		grep -q 'leafgraph::read_listing' build/plugin.symbols; \
		if grep ' u ' build/plugin.symbols; then \
			echo "plugin: these symbols of the wrapper keep a plugin from being unloaded"; \
			exit 1; \
		fi; \
		echo "plugin: the wrapper has no symbol that keeps it from being unloaded"; \
	else \
		echo "plugin: nm or $(GXX) is not on this machine, so this test is left out"; \
	fi
