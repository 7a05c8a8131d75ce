# The library for a C program: target/host/libtubarexi.a, proved by `rt lib` in crates/host_c and built with include/tubarexi.c, and
# include/tubarexi.h. `make` builds it; `make install PREFIX=/usr DESTDIR=/somewhere` installs both, with a pkg-config file; LIBDIR is where
# the library goes. `make check` compares C programs over the library with the independent program. The version is the header's.
# Once `make` has built the library, `make install` needs neither rt in PATH nor leave to write here, as it may be under sudo.
PREFIX ?= /usr/local
LIBDIR ?= $(PREFIX)/lib
INCLUDEDIR ?= $(PREFIX)/include
DESTDIR ?=
VERSION := $(shell sed -n 's/^.define TBX_VERSION "\(.*\)"/\1/p' include/tubarexi.h)
BUILT := target/host
LIBRARY := $(DESTDIR)$(LIBDIR)/libtubarexi.a
HEADER := $(DESTDIR)$(INCLUDEDIR)/tubarexi.h
PACKAGE := $(DESTDIR)$(LIBDIR)/pkgconfig/tubarexi.pc

all:
	bin/build-host

install: all
	install -d "$(DESTDIR)$(LIBDIR)/pkgconfig" "$(DESTDIR)$(INCLUDEDIR)"
	install -m 644 $(BUILT)/libtubarexi.a "$(LIBRARY)"
	install -m 644 include/tubarexi.h "$(HEADER)"
	sed 's,@PREFIX@,$(PREFIX),; s,@LIBDIR@,$(LIBDIR),; s,@INCLUDEDIR@,$(INCLUDEDIR),; s,@VERSION@,$(VERSION),' tubarexi.pc.in >"$(PACKAGE)"
	chmod 644 "$(PACKAGE)"

uninstall:
	rm -f "$(LIBRARY)" "$(HEADER)" "$(PACKAGE)"

check: all
	python3 tests/checks/host.py

clean:
	rm -rf $(BUILT)

.PHONY: all install uninstall check clean
