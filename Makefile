# What a packager runs: make, make check, make install DESTDIR=.. PREFIX=.. . docs/PACKAGING.md says more.
# All is built by the toolchain, whose command rt is on the path, and by a C compiler; TESTSOLV, PROOFCHECK and ARCHIVE name
# what was built before.
VERSION := $(shell cat VERSION)
PREFIX = /usr/local
BINDIR = $(PREFIX)/bin
LIBDIR = $(PREFIX)/lib
INCLUDEDIR = $(PREFIX)/include
MANDIR = $(PREFIX)/share/man
DOCDIR = $(PREFIX)/share/doc/gachuswi
TOOLSDIR = $(PREFIX)/share/gachuswi
# libsolv has a program and a page of the name testsolv, so both programs are installed under names of their own
NAMED = gachuswi-
BUILD = build
# flags of rt, as --cpu=x86-64
RTFLAGS =
KIT = $(patsubst %/START-HERE.md,%,$(shell rt doc))
TESTSOLV = crates/testsolv/out/testsolv
PROOFCHECK = crates/proofcheck/out/proofcheck
ARCHIVE = crates/gachuswi/out/libgachuswi.a
MADE = $(BUILD)/testsolv $(BUILD)/proofcheck $(BUILD)/libgachuswi.a $(BUILD)/libgachuswi.so.1
HEADERS = include/gachuswi.h include/gachuswi_task.h
DOCS = README.md CHANGELOG.md VERSION docs/LIBRARY.md docs/MAINTAINERS.md docs/DIFFERENCES.md docs/FORMATS.md docs/PROMISE.md docs/PROVED.md docs/MEANING.md docs/GLOSSARY.md

all: $(MADE)

# Nothing is built that is not proved: first every crate that the programs and the archive are made of.
$(BUILD)/proved:
	tools/prove.py
	install -d $(BUILD)
	touch $@

# A run without words ends with status 7, once the program is built.
crates/testsolv/out/testsolv crates/proofcheck/out/proofcheck: | $(BUILD)/proved
	cd $(patsubst %/out/,%,$(dir $@)) && rt run $(RTFLAGS) -- || test -x ../../$@

crates/gachuswi/out/libgachuswi.a: | $(BUILD)/proved
	cd crates/gachuswi && rt lib $(RTFLAGS)

$(BUILD)/testsolv: $(TESTSOLV)
	install -D -m 755 $< $@

$(BUILD)/proofcheck: $(PROOFCHECK)
	install -D -m 755 $< $@

# The archive has the toolchain's object for memory in it, so that a program wants nothing but the C library.
$(BUILD)/libgachuswi.a: $(ARCHIVE)
	install -D -m 644 $< $@
	cd $(BUILD) && ar x $(KIT)/c/liblibc_c.a heap.pic.o && ar rD libgachuswi.a heap.pic.o && rm heap.pic.o

$(BUILD)/libgachuswi.so.1: $(BUILD)/libgachuswi.a packaging/gachuswi.map
	$(CC) -shared -o $@ -Wl,-soname,libgachuswi.so.1 -Wl,-z,relro,-z,now -Wl,--version-script=packaging/gachuswi.map \
	    -Wl,--whole-archive $< -Wl,--no-whole-archive $(LDFLAGS)

check: $(BUILD)/libgachuswi.a
	tools/c_tests.py --archive built=$<

install: all
	install -D -m 755 $(BUILD)/testsolv $(DESTDIR)$(BINDIR)/$(NAMED)testsolv
	install -D -m 755 $(BUILD)/proofcheck $(DESTDIR)$(BINDIR)/$(NAMED)proofcheck
	install -D -m 644 $(BUILD)/libgachuswi.a $(DESTDIR)$(LIBDIR)/libgachuswi.a
	install -D -m 755 $(BUILD)/libgachuswi.so.1 $(DESTDIR)$(LIBDIR)/libgachuswi.so.1
	ln -sf libgachuswi.so.1 $(DESTDIR)$(LIBDIR)/libgachuswi.so
	install -d $(DESTDIR)$(INCLUDEDIR)
	install -m 644 $(HEADERS) $(DESTDIR)$(INCLUDEDIR)
	install -d $(DESTDIR)$(LIBDIR)/pkgconfig $(DESTDIR)$(DOCDIR)/examples
	sed 's|@PREFIX@|$(PREFIX)|; s|@LIBDIR@|$(LIBDIR)|; s|@INCLUDEDIR@|$(INCLUDEDIR)|; s|@VERSION@|$(VERSION)|' packaging/gachuswi.pc.in \
	    > $(DESTDIR)$(LIBDIR)/pkgconfig/gachuswi.pc
	chmod 644 $(DESTDIR)$(LIBDIR)/pkgconfig/gachuswi.pc
	install -D -m 644 docs/man/testsolv.1 $(DESTDIR)$(MANDIR)/man1/$(NAMED)testsolv.1
	install -D -m 644 docs/man/proofcheck.1 $(DESTDIR)$(MANDIR)/man1/$(NAMED)proofcheck.1
	install -d $(DESTDIR)$(MANDIR)/man3
	install -m 644 docs/man/gachuswi.3 docs/man/gachuswi_task.3 $(DESTDIR)$(MANDIR)/man3
	for page in gachuswi gachuswi_task; do for call in $$(sed -n 's/^\.Nm \(gachuswi_[a-z_]*\).*/\1/p' docs/man/$$page.3); do \
	    test $$call = $$page || ln -sf $$page.3 $(DESTDIR)$(MANDIR)/man3/$$call.3; done; done
	install -d $(DESTDIR)$(TOOLSDIR)/gachuswi_tools/page
	install -m 755 tools/gachuswi-tools $(DESTDIR)$(TOOLSDIR)
	install -m 644 tools/gachuswi_tools/*.py $(DESTDIR)$(TOOLSDIR)/gachuswi_tools
	install -m 644 tools/gachuswi_tools/page/* $(DESTDIR)$(TOOLSDIR)/gachuswi_tools/page
	ln -sf $(TOOLSDIR)/gachuswi-tools $(DESTDIR)$(BINDIR)/gachuswi-tools
	install -m 644 $(DOCS) $(DESTDIR)$(DOCDIR)
	install -m 644 examples/*.t examples/*.p $(DESTDIR)$(DOCDIR)/examples

clean:
	rm -rf $(BUILD)

.PHONY: all check install clean
