# The command-line tool leafgraph, the sessions that it is tested with, and tests of what
# it says of refused blocks and of what reads a matched slot.

TOOL := build/leafgraph
TOOL_SOURCES := $(wildcard tool/*.cpp)
TOOL_OBJECTS := $(TOOL_SOURCES:tool/%.cpp=build/tool/%.o)

.PHONY: tool tool-tests

tool: $(TOOL)

tool-tests: $(TOOL) build/test_faults build/test_readers
	$(PYTHON) -B tool/tests/run_sessions.py --tool $(TOOL)
	build/test_faults examples/blocks/*.lgt examples/blocks/*.lgr
	build/test_readers examples/blocks/e1.lgt examples/blocks/leaf_pipeline.lgt examples/blocks/*.lgr

$(TOOL): $(TOOL_OBJECTS) $(ARCHIVE)
	$(CXX) $(CXXFLAGS) -o $@ $^

# All of the tool but its main.
build/test_faults build/test_readers: build/%: tool/tests/%.cpp \
		$(filter-out build/tool/main.o,$(TOOL_OBJECTS)) $(ARCHIVE) \
		$(wildcard tool/*.hpp tool/tests/*.hpp) host/counts.h $(HEADERS)
	$(CXX) -std=c++17 $(CXX_WARNINGS) $(CXXFLAGS) -Iinclude -Itool -I. -o $@ $(filter-out %.hpp %.h,$^)

# The compiler notes which headers each object was made from (-MMD), so that it
# is made anew when one of them changes.
build/tool/%.o: tool/%.cpp make/tool.mk | build/tool
	$(CXX) -std=c++17 $(CXX_WARNINGS) $(CXXFLAGS) -Iinclude -MMD -MP -c -o $@ $<

build/tool:
	mkdir -p $@

-include $(TOOL_OBJECTS:.o=.d)
