# For a C host. `make help` lists what can be made.
PREFIX = /usr/local
DESTDIR =
export PREFIX DESTDIR

VERSION := $(shell sed -n 's/^.define LV_VERSION "\(.*\)"$$/\1/p' include/landing_voice.h)
HEADER = "$$DESTDIR$$PREFIX/include/landing_voice.h"
LIBRARY = "$$DESTDIR$$PREFIX/lib/liblanding.a"
PACKAGE = "$$DESTDIR$$PREFIX/lib/pkgconfig/landing_voice.pc"

# Proves and builds the archive if it is missing, or older than crates.txt or a file of the crates' src, specs or
# proofs.
all:
	@tools/build archive make

# A name with spaces is quoted twice: for pkg-config, whose file it stands in, and for sed.
install: all
	@test -n "$(VERSION)" || { echo 'make: include/landing_voice.h has no LV_VERSION' >&2; exit 2; }
	install -d "$$DESTDIR$$PREFIX/include" "$$DESTDIR$$PREFIX/lib/pkgconfig"
	install -m 644 include/landing_voice.h $(HEADER)
	install -m 644 target/staticlib/liblanding.a $(LIBRARY)
	prefix=$$(printf '%s' "$$PREFIX" | sed -e 's/[][ "()*;<>?`#\\'\''|&]/\\&/g' -e 's/[\\|&]/\\&/g') && \
	    sed -e "s|@PREFIX@|$$prefix|" -e 's|@VERSION@|$(VERSION)|' landing_voice.pc.in >$(PACKAGE)
	chmod 644 $(PACKAGE)

uninstall:
	rm -f $(HEADER) $(LIBRARY) $(PACKAGE)

check:
	.ci/run

clean:
	rm -rf target compare/target bench/target crates/*/out

help:
	@echo 'make             prove and build target/staticlib/liblanding.a, if it is missing or older than the sources'
	@echo 'make install     install it with the header and a pkg-config file under PREFIX (/usr/local), below DESTDIR'
	@echo 'make uninstall   take the three files away'
	@echo 'make check       run the gate, .ci/run: prove everything, then test it'
	@echo 'make clean       remove all that was built'

.PHONY: all install uninstall check clean help
