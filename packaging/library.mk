# The archive and the shared library: built and installed. The Makefile includes this file and gives ARCH, BUILT, CC, PREFIX,
# LIBDIR and DESTDIR.
HEADER = include/ballastwren.h
MAJOR := $(shell sed -n 's/^.define BW_VERSION_MAJOR //p' $(HEADER))
MINOR := $(shell sed -n 's/^.define BW_VERSION_MINOR //p' $(HEADER))
VERSION := $(shell sed -n 's/^.define BW_VERSION "\(.*\)"$$/\1/p' $(HEADER))

# docs/VERSIONS.md says what the name of the shared library tells.
LINKED = libballastwren.so
SONAME = $(LINKED).$(MAJOR).$(MINOR)
ARCHIVE = $(BUILT)/lib/libballastwren.a
SHARED = $(BUILT)/lib/$(LINKED).$(VERSION)

.PHONY: install-library uninstall-library

lib: $(ARCHIVE) $(SHARED)

# The crate that an archive is built of, and its sources.
$(ARCHIVE): CRATE = ballastwren_c
$(ARCHIVE): $(shell packaging/sources.sh ballastwren_c)
$(BUILT)/lib/libcrc_bench.a: CRATE = crc_bench
$(BUILT)/lib/libcrc_bench.a: $(shell packaging/sources.sh crc_bench)

# What is missing is said before the proof. Who has no Rattle kit, as root may not, can install what somebody else built, but
# not what is older than its sources.
$(BUILT)/lib/lib%.a: packaging/archive.sh
	@command -v rt >/dev/null || { echo "$@ is missing, or older than $(firstword $?), and the Rattle kit's 'rt' is not on PATH: 'make lib' as one who has it" >&2; exit 1; }
	@command -v $(firstword $(CC)) >/dev/null || { echo "there is no $(firstword $(CC)): install it, or name a compiler for $(ARCH) by CC=" >&2; exit 1; }
	packaging/archive.sh $(CRATE) $(ARCH) $@

$(SHARED): $(ARCHIVE) packaging/exports.map $(HEADER)
	$(CC) -shared -o $@ -Wl,-soname,$(SONAME) -Wl,--version-script,packaging/exports.map -Wl,--no-undefined -Wl,-z,relro,-z,now \
		-Wl,--whole-archive $(ARCHIVE) -Wl,--no-whole-archive $(LDFLAGS)

# Words for sed: what stands for itself in the place of a pattern.
literally = $(shell printf '%s' '$(1)' | sed 's/[&|\\]/\\&/g')
PC = sed -e 's|@PREFIX@|$(call literally,$(PREFIX))|' -e 's|@LIBDIR@|$(LIBDIR)|' -e 's|@VERSION@|$(VERSION)|'
LIBRARY_INSTALLED = include/ballastwren.h $(LIBDIR)/libballastwren.a $(LIBDIR)/$(LINKED) $(LIBDIR)/$(SONAME) \
	$(LIBDIR)/$(LINKED).$(VERSION) $(LIBDIR)/pkgconfig/ballastwren.pc $(LIBDIR)/pkgconfig/ballastwren-static.pc

# The loader's list of libraries is this machine's own, so it is told of what is installed here alone.
TELL_LOADER = if [ -z '$(DESTDIR)' ] && [ "$$(id -u)" = 0 ] && command -v ldconfig >/dev/null; then ldconfig; fi

install: install-library
install-library:
	install -d '$(DESTDIR)$(PREFIX)/include' '$(DESTDIR)$(PREFIX)/$(LIBDIR)/pkgconfig'
	install -m 644 $(HEADER) '$(DESTDIR)$(PREFIX)/include'
	install -m 644 $(ARCHIVE) $(SHARED) '$(DESTDIR)$(PREFIX)/$(LIBDIR)'
	ln -sf $(notdir $(SHARED)) '$(DESTDIR)$(PREFIX)/$(LIBDIR)/$(SONAME)'
	ln -sf $(SONAME) '$(DESTDIR)$(PREFIX)/$(LIBDIR)/$(LINKED)'
	$(PC) packaging/ballastwren.pc.in > '$(DESTDIR)$(PREFIX)/$(LIBDIR)/pkgconfig/ballastwren.pc'
	$(PC) packaging/ballastwren-static.pc.in > '$(DESTDIR)$(PREFIX)/$(LIBDIR)/pkgconfig/ballastwren-static.pc'
	$(TELL_LOADER)

uninstall: uninstall-library
uninstall-library:
	for file in $(LIBRARY_INSTALLED); do rm -f '$(DESTDIR)$(PREFIX)'/"$$file"; done
	$(TELL_LOADER)
