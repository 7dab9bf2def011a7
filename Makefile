# The library for C: how it is built, installed and tried. docs/C.md says more.
#
#   make library                          builds it: proves what changed, then compiles
#   make install PREFIX=/usr/local        installs it with its headers; DESTDIR goes before all
#   make uninstall PREFIX=/usr/local
#   make check                            the programs of examples/c
#
# TARGET is x86_64-unknown-linux-gnu or aarch64-unknown-linux-gnu.
TARGET ?= x86_64-unknown-linux-gnu
PREFIX ?= /usr/local
VERSION = 0.1.0

archive = out/$(TARGET)/librafkudin.a
libraries = rafkudin rafkudin_region rafkudin_place
archives = $(libraries:%=out/$(TARGET)/lib%.a)
headers = rafkudin.h rafkudin_null.h rafkudin_place.h rafkudin_region.h rafkudin_efi_names.h
root = $(DESTDIR)$(PREFIX)
filled = sed -e 's|@PREFIX@|$(abspath $(PREFIX))|' -e 's|@VERSION@|$(VERSION)|'

library:
	tools/c-library --target $(TARGET)

$(archive): $(wildcard crates/*/src/*.rt) crates.txt c/heap.c
	tools/c-library --target $(TARGET)

install: $(archive)
	install -d $(root)/include $(root)/lib/pkgconfig $(root)/lib/cmake/Rafkudin
	install -m 644 $(headers:%=include/%) $(root)/include
	install -m 644 $(archives) $(root)/lib
	for library in $(libraries); do $(filled) -e "s|@LIBRARY@|$$library|" c/rafkudin.pc.in \
	  > $(root)/lib/pkgconfig/$$library.pc || exit 1; done
	$(filled) c/RafkudinConfig.cmake.in > $(root)/lib/cmake/Rafkudin/RafkudinConfig.cmake
	$(filled) c/RafkudinConfigVersion.cmake.in > $(root)/lib/cmake/Rafkudin/RafkudinConfigVersion.cmake

uninstall:
	rm -f $(headers:%=$(root)/include/%) $(libraries:%=$(root)/lib/lib%.a) \
	  $(libraries:%=$(root)/lib/pkgconfig/%.pc)
	rm -rf $(root)/lib/cmake/Rafkudin

check:
	$(MAKE) -C examples/c check

.PHONY: library install uninstall check
