# Installing the library, its headers, the tool, and the files by which CMake
# and pkg-config find them.

PREFIX ?= /usr/local
DESTDIR ?=
INSTALL ?= install

# Said once, in the C header.
VERSION := $(shell sed -n 's/^.define LEAFGRAPH_VERSION "\(.*\)"/\1/p' include/leafgraph.h)
INSTALLED := $(DESTDIR)$(PREFIX)

.PHONY: install uninstall package-tests

install: $(ARCHIVE) build/leafgraph build/leafgraph.pc build/leafgraphConfigVersion.cmake
	$(INSTALL) -d "$(INSTALLED)/bin" "$(INSTALLED)/include" \
		"$(INSTALLED)/lib/pkgconfig" "$(INSTALLED)/lib/cmake/leafgraph"
	$(INSTALL) -m 755 build/leafgraph "$(INSTALLED)/bin"
	$(INSTALL) -m 644 $(HEADERS) "$(INSTALLED)/include"
	$(INSTALL) -m 644 $(ARCHIVE) "$(INSTALLED)/lib"
	$(INSTALL) -m 644 build/leafgraph.pc "$(INSTALLED)/lib/pkgconfig"
	$(INSTALL) -m 644 packaging/leafgraphConfig.cmake build/leafgraphConfigVersion.cmake \
		"$(INSTALLED)/lib/cmake/leafgraph"

uninstall:
	cd "$(INSTALLED)" && rm -f bin/leafgraph $(HEADERS) lib/libleafgraph.a lib/pkgconfig/leafgraph.pc
	rm -rf "$(INSTALLED)/lib/cmake/leafgraph"

build/leafgraph.pc: packaging/leafgraph.pc.in include/leafgraph.h | build
	sed 's/@VERSION@/$(VERSION)/' $< > $@

build/leafgraphConfigVersion.cmake: packaging/leafgraphConfigVersion.cmake.in include/leafgraph.h | build
	sed 's/@VERSION@/$(VERSION)/' $< > $@

# Installs, moves the folder, and builds a project from there.
package-tests:
	packaging/test/run "$(CURDIR)/build/package"
