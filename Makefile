# `make install PREFIX=/usr/local` puts the proved program, a binary that needs the C library alone, into PREFIX/bin,
# its completions and man page into PREFIX/share, and the proved library for C with its header into PREFIX/lib and
# PREFIX/include. `make deb` makes a package of the same for Debian.
# CPU=x86-64-v2 or CPU=x86-64-v3 chooses the program. Without it `make` takes the one for x86-64-v3 if this processor has
# its instructions. `make deb` takes the one for x86-64-v2, since a package goes to other machines. The library for C has
# no instructions beyond x86-64-v2.
PREFIX ?= /usr/local
CPU ?=
BIN = $(DESTDIR)$(PREFIX)/bin
SHARE = $(DESTDIR)$(PREFIX)/share
ZSH = $(SHARE)/zsh/site-functions
BUILD = TINK_BUILD=1 CPU="$(CPU)" ./tink
# A command of the shell, so that nothing is built before a recipe needs it.
PROGRAM = "$$($(BUILD))"
DEB = tink-proved_1.0_amd64.deb
INCLUDE = $(DESTDIR)$(PREFIX)/include
LIBRARIES = $(DESTDIR)$(PREFIX)/lib
# The folder of the toolchain, which has the allocator of the library over that of C.
KIT = $(shell dirname "$$(dirname "$$(readlink -f "$$(command -v rattle || command -v rt)")")")
LIBC = $(KIT)/c/liblibc_c.a
RT = rt
VERSION = 0.3.0
OUT = bindings/out

# After an installation into the system itself, ldconfig makes the library known to the loader. It needs root.
LDCONFIG ?= $(if $(DESTDIR),:,PATH="$$PATH:/sbin" ldconfig)

.PHONY: all lib install install-lib uninstall deb check check-fleet check-bindings

all:
	$(BUILD)

# The library for C, proved: libtink.a and libtink.so. Of libtink.so only names that begin with tink_ are visible.
lib:
	cd crates/tink_c && $(RT) lib
	mkdir -p $(OUT)
	rm -f $(OUT)/libtink.a
	printf '%s\n' 'create $(OUT)/libtink.a' 'addlib crates/tink_c/out/libtink_c.a' 'addlib $(LIBC)' save end | ar -M
	$(CC) -shared -o $(OUT)/libtink.so -Wl,-soname,libtink.so -Wl,--version-script=bindings/c/exports.map \
		-Wl,--whole-archive crates/tink_c/out/libtink_c.a -Wl,--no-whole-archive $(LIBC)

install: all lib
	install -d "$(BIN)" "$(SHARE)/man/man1" "$(SHARE)/bash-completion/completions" \
		"$(ZSH)" "$(SHARE)/fish/vendor_completions.d"
	install -m 755 $(PROGRAM) "$(BIN)/tink"
	install -m 644 share/man/tink.1 "$(SHARE)/man/man1/tink.1"
	install -m 644 share/completions/tink.bash "$(SHARE)/bash-completion/completions/tink"
	install -m 644 share/completions/_tink "$(ZSH)/_tink"
	install -m 644 share/completions/tink.fish "$(SHARE)/fish/vendor_completions.d/tink.fish"
	$(MAKE) install-lib

# The library alone, as `make lib` has built it.
install-lib:
	install -d "$(INCLUDE)" "$(LIBRARIES)/pkgconfig"
	install -m 644 bindings/c/tink.h "$(INCLUDE)/tink.h"
	install -m 644 $(OUT)/libtink.a "$(LIBRARIES)/libtink.a"
	install -m 755 $(OUT)/libtink.so "$(LIBRARIES)/libtink.so"
	sed -e 's|@PREFIX@|$(PREFIX)|' -e 's|@VERSION@|$(VERSION)|' bindings/c/tink.pc.in > "$(LIBRARIES)/pkgconfig/tink.pc"
	$(LDCONFIG) || true

uninstall:
	rm -f "$(INCLUDE)/tink.h" "$(LIBRARIES)/libtink.a" "$(LIBRARIES)/libtink.so" "$(LIBRARIES)/pkgconfig/tink.pc"
	rm -f "$(BIN)/tink" "$(SHARE)/man/man1/tink.1" "$(SHARE)/bash-completion/completions/tink" \
		"$(ZSH)/_tink" "$(SHARE)/fish/vendor_completions.d/tink.fish"

# A package of Debian, which installs into /usr.
deb:
	rm -rf out/deb
	$(MAKE) install DESTDIR="$(CURDIR)/out/deb" PREFIX=/usr CPU="$(or $(filter x86-64-v%,$(CPU)),x86-64-v2)" \
		ZSH="$(CURDIR)/out/deb/usr/share/zsh/vendor-completions"
	install -d out/deb/DEBIAN out/deb/usr/share/doc/tink-proved
	install -m 644 LICENSE out/deb/usr/share/doc/tink-proved/copyright
	install -m 644 share/debian/control share/debian/triggers out/deb/DEBIAN
	dpkg-deb --root-owner-group --build out/deb out/$(DEB)

# The gate: every proof, and then the tests of the built program and of the documents.
check:
	.ci/run

check-fleet:
	tests/fleet

# The tests of the library for C, and of its wrappers in Python, Rust and Go, if these are installed.
check-bindings: lib
	tests/bindings/run $(OUT)
