# make            builds target/lib/libsallowbingo.a with the Rattle kit (rt), if it is missing or older than a source
# make settle     builds the program target/bin/settle with the kit, by the same rule; some minutes
# make install    installs header, archive and pkg-config file under PREFIX, and the program if it is built; builds only if
#                 there is no archive at all
# make uninstall  removes them
# make check      runs every test
# make play       plays a sample with its sheets: make play SAMPLE=denials; builds the program, but without the kit it plays
#                 the one that is there
PREFIX ?= /usr/local
BINDIR ?= $(PREFIX)/bin
INCLUDEDIR ?= $(PREFIX)/include
LIBDIR ?= $(PREFIX)/lib
INSTALL ?= install

version := $(shell cat VERSION)
sources := $(shell find crates \( -name must-fail -o -name out \) -prune -o -type f -print)
archive := target/lib/libsallowbingo.a
program := target/bin/settle
installed := "$(DESTDIR)$(INCLUDEDIR)/sallowbingo.h" "$(DESTDIR)$(LIBDIR)/libsallowbingo.a" \
    "$(DESTDIR)$(LIBDIR)/pkgconfig/sallowbingo.pc" "$(DESTDIR)$(BINDIR)/settle"
kit := $(shell command -v rt 2>/dev/null)
needs_kit = $(if $(kit),,@echo "$@ is built with the Rattle kit, and its command rt is not on the PATH"; exit 2)

.PHONY: all install uninstall check settle play
.DELETE_ON_ERROR:

all: $(archive)

# rt lib leaves the archive among what it keeps of the crate, which rt ci clears.
$(archive): $(sources)
	$(needs_kit)
	cd crates/capi && rt lib
	mkdir -p $(@D)
	cp crates/capi/out/libcapi.a $@

# An archive that is there is installed as it is, so that an installation needs no kit; an old one is told.
ifeq ($(wildcard $(archive)),)
install: $(archive)
endif
install:
	@for folder in "$(PREFIX)" "$(BINDIR)" "$(INCLUDEDIR)" "$(LIBDIR)"; do case "$$folder" in \
	    *'&'* | *'|'* | *'\'*) echo "a folder's name has no &, | or \\: $$folder"; exit 2 ;; \
	    /*) ;; \
	    *) echo "a folder is a whole path, from / on: $$folder"; exit 2 ;; \
	esac; done
	@$(MAKE) -q $(archive) || echo "note: the archive is older than a source; make builds it anew"
	$(INSTALL) -d "$(DESTDIR)$(INCLUDEDIR)" "$(DESTDIR)$(LIBDIR)/pkgconfig"
	$(INSTALL) -m 644 include/sallowbingo.h "$(DESTDIR)$(INCLUDEDIR)/sallowbingo.h"
	$(INSTALL) -m 644 $(archive) "$(DESTDIR)$(LIBDIR)/libsallowbingo.a"
	sed -e 's|@PREFIX@|$(PREFIX)|' -e 's|@INCLUDEDIR@|$(INCLUDEDIR)|' -e 's|@LIBDIR@|$(LIBDIR)|' \
	    -e 's|@VERSION@|$(version)|' sallowbingo.pc.in >"$(DESTDIR)$(LIBDIR)/pkgconfig/sallowbingo.pc"
	chmod 644 "$(DESTDIR)$(LIBDIR)/pkgconfig/sallowbingo.pc"
ifeq ($(wildcard $(program)),)
	@echo "note: the program settle is not installed, since it is not built; make settle builds it"
else
	@$(MAKE) -q $(program) || echo "note: the program is older than a source; make settle builds it anew"
	$(INSTALL) -d "$(DESTDIR)$(BINDIR)"
	$(INSTALL) -m 755 $(program) "$(DESTDIR)$(BINDIR)/settle"
endif

uninstall:
	rm -f $(installed)

check:
	tools/test

# The program is proved, built and run on crates/settle/stdin, and has to print what crates/settle/stdout has.
$(program): $(sources)
	$(needs_kit)
	mkdir -p $(@D)
	cd crates/settle && rt run <stdin >../../$@.out && cmp ../../$@.out stdout
	cp crates/settle/out/settle $@

settle: $(program)

SAMPLE ?= three-months
ifneq ($(kit),)
play: $(program)
else ifeq ($(wildcard $(program)),)
play: $(program)
endif
play:
	@$(MAKE) -q $(program) || echo "note: the program is older than a source, and the kit that builds it is not on the PATH"
	$(program) samples/$(SAMPLE).txt
