# The C interface for those who use it as a library.
#   make             proves the calls and builds the archive (tools/capi)
#   make install     copies header, archive, a pkg-config file, and the examples with their table, to PREFIX; it builds nothing, and stops
#                    where the archive is older than what it is made of
#   make uninstall   removes what make install has copied; give it the same PREFIX
#   make clean       removes the archive; what is proved, and the programs, stay in crates/NAME/out/
# PREFIX may be relative, but must have no space in it. DESTDIR stands before every path, and in no file.
PREFIX = /usr/local
INCLUDEDIR = $(PREFIX)/include
LIBDIR = $(PREFIX)/lib
DATADIR = $(PREFIX)/share
ARCHIVE = target/staticlib/libalderflute.a
DATA = example.c write.c ranges.c shipped-v1.table shipped-v1.table.h shipped-v1.table.txt

absolute = $(if $(filter /%,$(1)),$(1),$(CURDIR)/$(1))
override PREFIX := $(call absolute,$(PREFIX))
override INCLUDEDIR := $(call absolute,$(INCLUDEDIR))
override LIBDIR := $(call absolute,$(LIBDIR))
override DATADIR := $(call absolute,$(DATADIR))
in_prefix = $(patsubst $(PREFIX)/%,$${prefix}/%,$(1))

# the header, and what the archive is made of, as tools/capi has it
CRATES = capi_c $(shell sed -n 's/^capi_c staticlib://p' crates.txt)
MADE_OF = include/alderflute.h crates.txt $(foreach name,$(CRATES),$(wildcard $(addprefix crates/$(name)/,src specs proofs)))

all:
	tools/capi
	@touch $(ARCHIVE)

install: fit
	mkdir -p "$(DESTDIR)$(INCLUDEDIR)" "$(DESTDIR)$(LIBDIR)/pkgconfig" "$(DESTDIR)$(DATADIR)/alderflute"
	install -m 644 include/alderflute.h "$(DESTDIR)$(INCLUDEDIR)/alderflute.h"
	install -m 644 $(ARCHIVE) "$(DESTDIR)$(LIBDIR)/libalderflute.a"
	install -m 644 $(addprefix samples/,$(DATA)) "$(DESTDIR)$(DATADIR)/alderflute"
	@abi=$$(sed -n 's/^#define ALDERFLUTE_ABI //p' include/alderflute.h) && \
	printf '%s\n' 'prefix=$(PREFIX)' 'includedir=$(call in_prefix,$(INCLUDEDIR))' 'libdir=$(call in_prefix,$(LIBDIR))' '' \
	    'Name: alderflute' 'Description: a reader and writer of SBF blocks, with proved calls' "Version: $$abi" \
	    'Cflags: -I$${includedir}' 'Libs: -L$${libdir} -lalderflute' >"$(DESTDIR)$(LIBDIR)/pkgconfig/alderflute.pc"

# whether the paths can stand in a pkg-config file, and the archive belongs to its sources and to the header
fit: paths
	@test -f $(ARCHIVE) || { echo "make install: there is no $(ARCHIVE) yet; run make first" >&2; exit 2; }
	@newer=$$(find $(MADE_OF) -type f -newer $(ARCHIVE) | head -n 1); \
	test -z "$$newer" || { echo "make install: $(ARCHIVE) is older than $$newer; run make first" >&2; exit 2; }

paths:
	@case '$(PREFIX)$(INCLUDEDIR)$(LIBDIR)$(DATADIR)' in *[[:space:]\"\\\#~]*) \
	    echo "make: no path may have a space, a quote, a backslash, # or ~ in it: $(PREFIX); name another PREFIX" >&2; exit 2;; esac
	@test ! "$(DESTDIR)$(INCLUDEDIR)/alderflute.h" -ef include/alderflute.h || \
	    { echo "make: $(PREFIX) is this repository; name another PREFIX" >&2; exit 2; }

uninstall: paths
	rm -f "$(DESTDIR)$(INCLUDEDIR)/alderflute.h" "$(DESTDIR)$(LIBDIR)/libalderflute.a" "$(DESTDIR)$(LIBDIR)/pkgconfig/alderflute.pc" \
	    $(foreach name,$(DATA),"$(DESTDIR)$(DATADIR)/alderflute/$(name)")
	@rmdir "$(DESTDIR)$(DATADIR)/alderflute" 2>/dev/null || true

clean:
	rm -f $(ARCHIVE) $(ARCHIVE).made-of

.PHONY: all install fit paths uninstall clean
