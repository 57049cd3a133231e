# Installs the library for C, its header, pkg-config file and man pages, and the tools.
#   make             builds the examples
#   make install     PREFIX=/usr/local is where the files will be used; DESTDIR= stands before it, for packages
#   make uninstall   takes away what install put there
#   make check       runs all tests outside the gate
# Proving and building are the kit's part: `rt lib` in crates/jeulgopae makes the archive, `rt run -- --version` in crates/serve, and in those of
# explain, catalogue and noise, the tool. Each leaves it in the crate's out/; what is made here and by cargo stands in target/.
PREFIX ?= /usr/local
BINDIR ?= $(PREFIX)/bin
INCLUDEDIR ?= $(PREFIX)/include
LIBDIR ?= $(PREFIX)/lib
PKGCONFIGDIR ?= $(LIBDIR)/pkgconfig
MANDIR ?= $(PREFIX)/share/man
DESTDIR ?=
INSTALL ?= install

OUT := $(CURDIR)/target
JEULGOPAE_LIB ?= $(CURDIR)/crates/jeulgopae/out/libjeulgopae.a
VERSION := $(shell sed -n 's/^.define JEULGOPAE_VERSION "\(.*\)"$$/\1/p' include/jeulgopae.h)
EXAMPLES := serial_station poll_host make_catalogue
TOOLS := serve explain catalogue noise
# where the kit builds a tool
built = $(CURDIR)/crates/$(1)/out/$(1)
PAGES := $(addsuffix .1,$(EXAMPLES) $(TOOLS))

all: examples

examples:
	@$(MAKE) --no-print-directory -C examples JEULGOPAE_LIB="$(abspath $(JEULGOPAE_LIB))"

# Only what is in the header and in the variables above goes into it.
$(OUT)/jeulgopae.pc: jeulgopae.pc.in include/jeulgopae.h FORCE
	@mkdir -p $(OUT)
	@sed -e 's|@PREFIX@|$(PREFIX)|; s|@INCLUDEDIR@|$(INCLUDEDIR)|; s|@LIBDIR@|$(LIBDIR)|; s|@VERSION@|$(VERSION)|' $< >$@

install: examples $(OUT)/jeulgopae.pc
	$(INSTALL) -d "$(DESTDIR)$(BINDIR)" "$(DESTDIR)$(INCLUDEDIR)" "$(DESTDIR)$(LIBDIR)" "$(DESTDIR)$(PKGCONFIGDIR)" \
	    "$(DESTDIR)$(MANDIR)/man1" "$(DESTDIR)$(MANDIR)/man3"
	$(INSTALL) -m 644 include/jeulgopae.h "$(DESTDIR)$(INCLUDEDIR)"
	$(INSTALL) -m 644 "$(JEULGOPAE_LIB)" "$(DESTDIR)$(LIBDIR)/libjeulgopae.a"
	$(INSTALL) -m 644 $(OUT)/jeulgopae.pc "$(DESTDIR)$(PKGCONFIGDIR)"
	$(INSTALL) -m 644 man/jeulgopae.3 "$(DESTDIR)$(MANDIR)/man3"
	$(INSTALL) -m 644 $(addprefix man/,$(PAGES)) "$(DESTDIR)$(MANDIR)/man1"
	$(INSTALL) -m 755 $(addprefix $(OUT)/examples/,$(EXAMPLES)) "$(DESTDIR)$(BINDIR)"
	@for tool in $(TOOLS); do \
	    if [ -x $(call built,$$tool) ]; then \
	        echo "$(INSTALL) -m 755 $(call built,$$tool) $(DESTDIR)$(BINDIR)"; \
	        $(INSTALL) -m 755 $(call built,$$tool) "$(DESTDIR)$(BINDIR)" || exit 1; \
	    else \
	        echo "$$tool is not built, and not installed: 'rt run -- --version' in crates/$$tool makes it"; \
	    fi; \
	done

uninstall:
	rm -f "$(DESTDIR)$(INCLUDEDIR)/jeulgopae.h" "$(DESTDIR)$(LIBDIR)/libjeulgopae.a" "$(DESTDIR)$(PKGCONFIGDIR)/jeulgopae.pc"
	rm -f "$(DESTDIR)$(MANDIR)/man3/jeulgopae.3"
	cd "$(DESTDIR)$(MANDIR)/man1" && rm -f $(PAGES)
	cd "$(DESTDIR)$(BINDIR)" && rm -f $(EXAMPLES)
	@# Others have programs of these names too: only what is the built one goes.
	@for tool in $(TOOLS); do \
	    if cmp -s $(call built,$$tool) "$(DESTDIR)$(BINDIR)/$$tool"; then rm -f "$(DESTDIR)$(BINDIR)/$$tool"; fi; \
	done

check:
	tests/run

FORCE:

.PHONY: all examples install uninstall check FORCE
