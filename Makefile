# Builds, tests and installs the library jellyplain. docs/for-engineers.md walks through it.
#   make             proves the library and writes to target/lib: libjellyplain.a, libjellyplain.so and jellyplain.pc; needs rt, the Rattle toolchain's command, and a C compiler
#   make static      the static library alone, without a C compiler
#   make check       the tests of the boundary in C, C++ and Rust (tools/boundary.sh)
#   make install     copies what `make` has written, the header and NOTICE below PREFIX; DESTDIR stands in front of it. It builds nothing
#   make uninstall   removes those files again
#   make clean       removes target/lib and what the tests have built; what is proved stays, in crates/*/out
# All of them are run here. What is newer than target/lib, by make's own timestamps, is proved and built again; `make -B` does so in any case, as after another toolchain was installed.
# The version is written here, in c/jellyplain.h, in rust/Cargo.toml and in crates/api; `make check` holds them to one another.
VERSION = 2.0.0
SONAME = libjellyplain.so.2

# They may have spaces and commas; a relative one is meant from here.
PREFIX = /usr/local
includedir = $(PREFIX)/include
libdir = $(PREFIX)/lib
pkgconfigdir = $(libdir)/pkgconfig
docdir = $(PREFIX)/share/doc/jellyplain

CC = cc
INSTALL = install
LIB = target/lib
SHARED = libjellyplain.so.$(VERSION)

# No rule of make's own is looked for at each of the 1,900 files below.
MAKEFLAGS += --no-builtin-rules

# What the library is proved and built from; the folders tell of files that were taken away.
SOURCES := $(shell find crates \( -name must-fail -o -name wrong -o -name out \) -prune -o \( -type f -o -type d \) -print) crates.txt Makefile

all: static shared $(LIB)/jellyplain.pc
static: $(LIB)/libjellyplain.a
shared: $(LIB)/libjellyplain.so

# rt itself sees what has changed and has to be proved again. Where a proof fails no library is left, so that none of older sources is installed. tools/library is `rt lib` in crates/api_c, or, right after
# `rt ci` has passed here, a build over what that proved.
$(LIB)/libjellyplain.a: $(SOURCES)
	@command -v rt >/dev/null || { echo "rt, the Rattle toolchain's command, is not on the PATH: nothing is proved and nothing built" >&2; exit 2; }
	@rm -f $(LIB)/libjellyplain.*
	tools/library
	@mkdir -p $(LIB)
	cp crates/api_c/out/libapi_c.a $@

# The archive's code is position independent as it is (-z text: or the linker says so), and only the library's own names are exported.
$(LIB)/libjellyplain.so: $(LIB)/libjellyplain.a c/exports.map
	@command -v $(CC) >/dev/null || { echo "$(CC), the C compiler, is not on the PATH: the shared library needs it, the static one is $(LIB)/libjellyplain.a" >&2; exit 2; }
	$(CC) -shared -nostartfiles -Wl,-soname,$(SONAME) -Wl,--version-script=c/exports.map -Wl,-z,text -Wl,-z,defs -Wl,-z,now \
	    -Wl,--whole-archive $(LIB)/libjellyplain.a -Wl,--no-whole-archive -o $(LIB)/$(SHARED)
	cd $(LIB) && ln -sf $(SHARED) $(SONAME) && ln -sf $(SONAME) libjellyplain.so

# The folders go through the environment, so that no word of them is read as make's, the shell's or sed's.
absolute = $(if $(filter /%,$(firstword $(1))),$(1),$(CURDIR)/$(1))
export TO_INCLUDE = $(call absolute,$(includedir))
export TO_LIB = $(call absolute,$(libdir))
export TO_PKGCONFIG = $(call absolute,$(pkgconfigdir))
export TO_DOC = $(call absolute,$(docdir))
export DESTDIR

PC = { printf 'includedir=%s\nlibdir=%s\n' "$$TO_INCLUDE" "$$TO_LIB"; sed -e 's,@VERSION@,$(VERSION),' c/jellyplain.pc.in; }

$(LIB)/jellyplain.pc: c/jellyplain.pc.in Makefile
	@mkdir -p $(LIB)
	$(PC) >$@

check: all
	tools/boundary.sh --built

install:
	@for file in libjellyplain.a $(SHARED); do \
	    [ -f $(LIB)/$$file ] || { echo "$(LIB)/$$file is missing: run make first" >&2; exit 2; }; \
	done
	$(INSTALL) -d "$$DESTDIR$$TO_INCLUDE" "$$DESTDIR$$TO_LIB" "$$DESTDIR$$TO_PKGCONFIG" "$$DESTDIR$$TO_DOC"
	$(INSTALL) -m 644 c/jellyplain.h "$$DESTDIR$$TO_INCLUDE/jellyplain.h"
	$(INSTALL) -m 644 $(LIB)/libjellyplain.a "$$DESTDIR$$TO_LIB/libjellyplain.a"
	$(INSTALL) -m 755 $(LIB)/$(SHARED) "$$DESTDIR$$TO_LIB/$(SHARED)"
	cd "$$DESTDIR$$TO_LIB" && ln -sf $(SHARED) $(SONAME) && ln -sf $(SONAME) libjellyplain.so
	$(PC) >"$$DESTDIR$$TO_PKGCONFIG/jellyplain.pc"
	$(INSTALL) -m 644 NOTICE "$$DESTDIR$$TO_DOC/NOTICE"

uninstall:
	rm -f "$$DESTDIR$$TO_INCLUDE/jellyplain.h" "$$DESTDIR$$TO_LIB/libjellyplain.a" "$$DESTDIR$$TO_LIB/$(SHARED)" "$$DESTDIR$$TO_LIB/$(SONAME)" \
	    "$$DESTDIR$$TO_LIB/libjellyplain.so" "$$DESTDIR$$TO_PKGCONFIG/jellyplain.pc" "$$DESTDIR$$TO_DOC/NOTICE"

clean:
	rm -rf $(LIB) target/cargo

.PHONY: all static shared check install uninstall clean
