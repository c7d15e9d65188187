# The library for C and C++: static, shared, headers and a pkg-config file. docs/C.md says how to use it.
#   make             libnaldrev.a and the shared library, in target/c; proves and builds the code first where that is not done
#   make install     into PREFIX (/usr/local), LIBDIR and INCLUDEDIR; DESTDIR, if set, goes in front of each
#   make uninstall   removes what make install puts there
#   make check-c     tests the library as installed into a temporary folder
# With NALDREV_LIB_DIR set, librefal.a is taken from that folder, and nothing is proved.

PREFIX ?= /usr/local
LIBDIR ?= $(PREFIX)/lib
INCLUDEDIR ?= $(PREFIX)/include

# The version stands in the header. ABI goes up with every change after which programs have to be compiled again.
VERSION := $(shell sed -n 's/^.define NALDREV_VERSION "\(.*\)"$$/\1/p' include/naldrev.h)
ABI := 1
ifeq ($(VERSION),)
$(error include/naldrev.h has no NALDREV_VERSION)
endif

HEADERS := naldrev.h naldrev_store.h
STATIC := libnaldrev.a
LINK := libnaldrev.so
SONAME := $(LINK).$(ABI)
SHARED := $(LINK).$(VERSION)
OUT := target/c

# An archive of another folder is no prerequisite, since a path with blanks cannot be one.
ifdef NALDREV_LIB_DIR
ARCHIVE := $(NALDREV_LIB_DIR)/librefal.a
BUILT :=
else
ARCHIVE := target/staticlib/librefal.a
BUILT := $(ARCHIVE)
endif

LIBRARY_TO = $(DESTDIR)$(LIBDIR)
HEADERS_TO = $(DESTDIR)$(INCLUDEDIR)
CONFIG_TO = $(LIBRARY_TO)/pkgconfig

# A relative folder would be one here and another for those who read naldrev.pc.
ABSOLUTE = $(foreach name,LIBDIR INCLUDEDIR,$(if $(filter /%,$(firstword $($(name)))),,$(error $(name) is not an absolute path: $($(name)))))
# A folder as it stands in naldrev.pc, and a text as the right side of sed's s|||.
FROM_PREFIX = $(subst $(PREFIX)/,$${prefix}/,$(1))
RIGHT_SIDE = $(subst |,\|,$(subst &,\&,$(subst \,\\,$(1))))

.PHONY: all install uninstall check-c always
all: $(OUT)/$(STATIC) $(OUT)/$(SHARED)

ifndef NALDREV_LIB_DIR
# tools/build finds out itself whether there is something to do.
$(ARCHIVE): always
	tools/build library
endif

# Compared, since the archive may be one of another folder than last time.
$(OUT)/$(STATIC): $(BUILT) always
	@mkdir -p $(OUT)
	@cmp -s "$(ARCHIVE)" $@ || cp -f "$(ARCHIVE)" $@

# The code is position independent; with -z text the link fails if it is not.
$(OUT)/$(SHARED): $(OUT)/$(STATIC) naldrev.map include/naldrev.h Makefile
	$(CC) -shared -Wl,-soname,$(SONAME) -Wl,--version-script=naldrev.map -Wl,-z,text -Wl,-z,defs -Wl,-z,relro -Wl,-z,now $(LDFLAGS) \
	    -o $@ -Wl,--whole-archive $(OUT)/$(STATIC) -Wl,--no-whole-archive

# Nothing is written outside of the folders that it installs to: it may run as root after a make that did not.
install: all
	@: $(ABSOLUTE)
	install -d "$(HEADERS_TO)" "$(LIBRARY_TO)" "$(CONFIG_TO)"
	install -m 644 $(HEADERS:%=include/%) "$(HEADERS_TO)"
	install -m 644 $(OUT)/$(STATIC) "$(LIBRARY_TO)"
	install -m 755 $(OUT)/$(SHARED) "$(LIBRARY_TO)"
	ln -sf $(SHARED) "$(LIBRARY_TO)/$(SONAME)"
	ln -sf $(SONAME) "$(LIBRARY_TO)/$(LINK)"
	sed -e 's|@PREFIX@|$(call RIGHT_SIDE,$(PREFIX))|' -e 's|@LIBDIR@|$(call RIGHT_SIDE,$(call FROM_PREFIX,$(LIBDIR)))|' \
	    -e 's|@INCLUDEDIR@|$(call RIGHT_SIDE,$(call FROM_PREFIX,$(INCLUDEDIR)))|' -e 's|@VERSION@|$(VERSION)|' naldrev.pc.in \
	    >"$(CONFIG_TO)/naldrev.pc"
	chmod 644 "$(CONFIG_TO)/naldrev.pc"

uninstall:
	@: $(ABSOLUTE)
	rm -f $(HEADERS:%="$(HEADERS_TO)"/%) "$(CONFIG_TO)/naldrev.pc"
	rm -f "$(LIBRARY_TO)/$(STATIC)" "$(LIBRARY_TO)/$(SHARED)" "$(LIBRARY_TO)/$(SONAME)" "$(LIBRARY_TO)/$(LINK)"

check-c:
	tools/check-c
