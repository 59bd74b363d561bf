# libgsym.a, libgsym_write.a, libgsym.so.0, the tool gsym-addr2line and gsym.pc, for hosts without the Rattle
# toolchain's build; and `gsym` and `report_main`, the programs in Rattle, where the library is made too.
#   make                            builds them here; the libraries are proved first (rt on the PATH, of README's kit)
#   make LIBGSYM=path/libgsym.a     the same over a library that is there, without the toolchain, and over the
#                                   libgsym_write.a beside it, if there is one; so in the archive of `make dist`, which
#                                   has both beside this file and no sources of them
#   make install                    PREFIX=/usr/local DESTDIR= ; BINDIR, INCLUDEDIR, LIBDIR, MANDIR, DOCDIR too
#   make uninstall                  with the same words
#   make dist                       target/gsym-VERSION-x86_64-linux.tar.gz and its SHA-256: docs/ARCHIVE.md
#   make check                      sh test.sh: every proof, every edit, every program; it and dist need a checkout
#   make clean, make distclean      what make built; distclean also target/ and what rt keeps in crates/*/out
# AR, CC, CPPFLAGS, CFLAGS, LDFLAGS, LDLIBS, INSTALL and RT are honoured.
PREFIX = /usr/local
DESTDIR =
BINDIR = $(PREFIX)/bin
INCLUDEDIR = $(PREFIX)/include
LIBDIR = $(PREFIX)/lib
PKGCONFIGDIR = $(LIBDIR)/pkgconfig
MANDIR = $(PREFIX)/share/man
DOCDIR = $(PREFIX)/share/doc/gsym

CFLAGS ?= -O2 -g
INSTALL ?= install
INSTALL_PROGRAM = $(INSTALL) -m 755
INSTALL_DATA = $(INSTALL) -m 644
RT ?= rt

HEADER = include/gsym.h
WRITE_HEADER = include/gsym_write.h
PAGES = docs/PROMISES.md docs/RULES.md docs/ARCHIVE.md
number = $(shell sed -n 's/^\#define GSYM_$(1) \([0-9]*\)$$/\1/p' $(HEADER))
VERSION = $(call number,VERSION_MAJOR).$(call number,VERSION_MINOR).$(call number,VERSION_PATCH)
# the shared library's name: the major version, and how records lie in memory
SONAME = libgsym.so.$(call number,VERSION_MAJOR).$(call number,LAYOUT)

# the library: made here from the sources that stand here, or the one that LIBGSYM names
LIBGSYM = libgsym.a
ifneq ($(wildcard crates.txt),)
SOURCES := crates.txt $(shell find crates -name out -prune -o \( -name '*.rt' -o -name '*.antt' \) -print)
endif

# the library that writes files, which takes heap and so stands apart: made here, or the one beside LIBGSYM
LIBGSYM_WRITE = $(if $(filter libgsym.a,$(LIBGSYM)),$(if $(SOURCES),target/libgsym_write.a,libgsym_write.a),$(wildcard \
    $(dir $(LIBGSYM))libgsym_write.a))

# the programs in Rattle, made where the library is made too; report_main is not installed
GSYM = $(if $(SOURCES),$(if $(filter libgsym.a,$(LIBGSYM)),gsym))

all: $(LIBGSYM) $(LIBGSYM_WRITE) libgsym.so.0 gsym-addr2line gsym.pc $(GSYM) $(if $(GSYM),report_main)

ifneq ($(SOURCES),)
libgsym.a: $(SOURCES)
	RT='$(RT)' sh tools/kit.sh
	cd crates/gsym_c && $(RT) lib
	cd crates/gsym_text_c && $(RT) lib
	cd crates/gsym_check_c && $(RT) lib
	rm -rf target/objects $@
	mkdir -p target/objects
	cd target/objects && for crate in gsym_c gsym_text_c gsym_check_c; do \
	    $(AR) x ../../crates/$$crate/out/lib$$crate.a || exit 1; done
	$(AR) rcsD $@ target/objects/gsym_c.o target/objects/gsym_text_c.o target/objects/gsym_check_c.o

# its memory comes from the program's malloc, by an object of the kit
target/libgsym_write.a: $(SOURCES)
	RT='$(RT)' sh tools/kit.sh
	cd crates/gsym_write_c && $(RT) lib
	rm -rf target/write_objects $@
	mkdir -p target/write_objects
	cd target/write_objects && $(AR) x ../../crates/gsym_write_c/out/libgsym_write_c.a && rt=$$(command -v $(RT)) && \
	    $(AR) x "$${RATTLE_HOME:-$$(dirname "$$(dirname "$$(readlink -f "$$rt")")")}/c/liblibc_c.a" heap.pic.o
	$(AR) rcsD $@ target/write_objects/gsym_write_c.o target/write_objects/heap.pic.o

gsym: $(SOURCES)
	RT='$(RT)' sh tools/kit.sh
	cd crates/gsym_tool && $(RT) run -- --version
	cp crates/gsym_tool/out/gsym_tool $@

report_main: $(SOURCES)
	RT='$(RT)' sh tools/kit.sh
	cd crates/report_main && $(RT) run </dev/null
	cp crates/report_main/out/report_main $@

# parts of the reader, for the comparison and the bench
target/libreader_c.a: $(SOURCES)
	RT='$(RT)' sh tools/kit.sh
	cd crates/reader_c && $(RT) lib
	mkdir -p target
	cp crates/reader_c/out/libreader_c.a $@

# the report, for the fuzzer and the bench
target/libreport_c.a: $(SOURCES)
	RT='$(RT)' sh tools/kit.sh
	cd crates/report_c && $(RT) lib
	mkdir -p target
	cp crates/report_c/out/libreport_c.a $@
endif

# changes where the library that is linked does, so that what was linked with another is made anew
target/linked: FORCE
	@mkdir -p target
	@echo '$(abspath $(LIBGSYM))' | cmp -s - $@ || echo '$(abspath $(LIBGSYM))' >$@

# what hosts may call and nothing else; -z text: it is fit to be shared, -z defs: nothing is missing, -z now: memset is
# bound when it is loaded, and not at a first call, on the stack of a signal handler
libgsym.so.0: $(LIBGSYM) $(HEADER) host/gsym.map target/linked
	$(CC) -shared $(LDFLAGS) -Wl,-soname,$(SONAME) -Wl,--version-script=host/gsym.map -Wl,-z,text,-z,defs,-z,now -o $@ \
	    -Wl,--whole-archive $(LIBGSYM) -Wl,--no-whole-archive

TOOL = host/gsym-addr2line.c host/file.c

gsym-addr2line: $(TOOL) host/file.h $(HEADER) $(LIBGSYM) target/linked
	$(CC) -std=c11 -Iinclude $(CPPFLAGS) $(CFLAGS) $(LDFLAGS) -o $@ $(TOOL) $(LIBGSYM) $(LDLIBS)

# made anew each time: the folders may be others than last time
gsym.pc: gsym.pc.in $(HEADER) FORCE
	sed -e 's|@PREFIX@|$(PREFIX)|' -e 's|@LIBDIR@|$(LIBDIR)|' -e 's|@INCLUDEDIR@|$(INCLUDEDIR)|' \
	    -e 's|@VERSION@|$(VERSION)|' gsym.pc.in >$@

# whoever links dynamically needs the name in the library; libgsym.so is what -lgsym finds
install: all
	$(INSTALL) -d '$(DESTDIR)$(BINDIR)' '$(DESTDIR)$(INCLUDEDIR)' '$(DESTDIR)$(LIBDIR)' '$(DESTDIR)$(PKGCONFIGDIR)' \
	    '$(DESTDIR)$(MANDIR)/man1' '$(DESTDIR)$(MANDIR)/man3' '$(DESTDIR)$(DOCDIR)/docs' '$(DESTDIR)$(DOCDIR)/examples'
	$(INSTALL_PROGRAM) gsym-addr2line '$(DESTDIR)$(BINDIR)/gsym-addr2line'
	$(if $(GSYM),$(INSTALL_PROGRAM) gsym '$(DESTDIR)$(BINDIR)/gsym')
	$(if $(GSYM),$(INSTALL_DATA) man/gsym.1 '$(DESTDIR)$(MANDIR)/man1/gsym.1')
	$(INSTALL_DATA) $(HEADER) '$(DESTDIR)$(INCLUDEDIR)/gsym.h'
	$(INSTALL_DATA) $(LIBGSYM) '$(DESTDIR)$(LIBDIR)/libgsym.a'
	$(if $(LIBGSYM_WRITE),$(INSTALL_DATA) $(WRITE_HEADER) '$(DESTDIR)$(INCLUDEDIR)/gsym_write.h')
	$(if $(LIBGSYM_WRITE),$(INSTALL_DATA) $(LIBGSYM_WRITE) '$(DESTDIR)$(LIBDIR)/libgsym_write.a')
	$(INSTALL_PROGRAM) libgsym.so.0 '$(DESTDIR)$(LIBDIR)/$(SONAME)'
	ln -sf $(SONAME) '$(DESTDIR)$(LIBDIR)/libgsym.so.0'
	ln -sf $(SONAME) '$(DESTDIR)$(LIBDIR)/libgsym.so'
	$(INSTALL_DATA) gsym.pc '$(DESTDIR)$(PKGCONFIGDIR)/gsym.pc'
	$(INSTALL_DATA) man/gsym-addr2line.1 '$(DESTDIR)$(MANDIR)/man1/gsym-addr2line.1'
	$(INSTALL_DATA) man/gsym.3 '$(DESTDIR)$(MANDIR)/man3/gsym.3'
	$(INSTALL_DATA) LICENSE NOTICE '$(DESTDIR)$(DOCDIR)/'
	$(INSTALL_DATA) $(PAGES) '$(DESTDIR)$(DOCDIR)/docs/'
	$(INSTALL_DATA) examples/handler.c '$(DESTDIR)$(DOCDIR)/examples/'

uninstall:
	rm -f '$(DESTDIR)$(BINDIR)/gsym' '$(DESTDIR)$(MANDIR)/man1/gsym.1' '$(DESTDIR)$(BINDIR)/gsym-addr2line'
	rm -f '$(DESTDIR)$(INCLUDEDIR)/gsym.h' '$(DESTDIR)$(INCLUDEDIR)/gsym_write.h' '$(DESTDIR)$(LIBDIR)/libgsym.a' \
	    '$(DESTDIR)$(LIBDIR)/libgsym_write.a' \
	    '$(DESTDIR)$(LIBDIR)/$(SONAME)' '$(DESTDIR)$(LIBDIR)/libgsym.so.0' '$(DESTDIR)$(LIBDIR)/libgsym.so' \
	    '$(DESTDIR)$(PKGCONFIGDIR)/gsym.pc' '$(DESTDIR)$(MANDIR)/man1/gsym-addr2line.1' '$(DESTDIR)$(MANDIR)/man3/gsym.3'
	rm -rf '$(DESTDIR)$(DOCDIR)'

# nothing in it comes from this machine's C compiler: the same sources and the same kit give the same bytes
FILES = Makefile LICENSE NOTICE gsym.pc.in $(HEADER) $(WRITE_HEADER) $(PAGES) $(TOOL) host/file.h host/gsym.map \
    host/sample/connector.gsym man/gsym-addr2line.1 man/gsym.3 examples/handler.c
NAME = gsym-$(VERSION)-x86_64-linux

# what a checkout of the repository has, and the archive has not
in_checkout = @[ -f $(1) ] || \
    { echo "make $@: this needs a checkout of the repository; there is no $(1) here (docs/ARCHIVE.md)"; exit 2; }

dist: $(LIBGSYM) $(LIBGSYM_WRITE) $(FILES)
	$(call in_checkout,tools/dist.sh)
	sh tools/dist.sh '$(NAME)' '$(LIBGSYM)' '$(LIBGSYM_WRITE)' $(FILES)

check:
	$(call in_checkout,test.sh)
	sh test.sh

clean:
	rm -f $(if $(SOURCES),libgsym.a gsym report_main) libgsym.so.0 gsym-addr2line gsym.pc

distclean: clean
	rm -rf target $(if $(SOURCES),crates/*/out)

FORCE:

.PHONY: all install uninstall dist check clean distclean FORCE
