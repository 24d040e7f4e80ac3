# Builds and installs the library, once `rt lib` in crates/hcc_c has made the part of it that is proved:
#   make                                builds it, in src/out
#   make install PREFIX=/usr/local      installs libraries, headers, a pkg-config file, a CMake package
#                                       and the Rust crate; DESTDIR= goes before all paths
#   make dist                           out/ferretgold-VERSION-MACHINE.tar.gz: the same for whoever has
#                                       no Rattle, with the verdict's line and each file's SHA-256
# Each with TARGET=aarch64-unknown-linux-gnu for that processor, once `tests/c/library.sh TARGET` has run;
# and with LATE=1 for what musl's loader loads while a program runs.
PREFIX ?= /usr/local
INCLUDEDIR ?= $(PREFIX)/include
LIBDIR ?= $(PREFIX)/lib
DATADIR ?= $(PREFIX)/share/ferretgold
DESTDIR ?=
TARGET ?=
OUT ?= src/out$(TARGET:%=/%)$(if $(LATE),/late)
DIST ?= out
# Of what `rt lib` prints the line that begins with logic=proved; tests/c/library.sh keeps it here.
VERDICT ?= crates/hcc_c/out$(TARGET:%=/%)/verdict
SOURCE_DATE_EPOCH ?= $(shell git log -1 --format=%ct 2> /dev/null || echo 0)

NUMBERS := $(shell $(MAKE) -s --no-print-directory -C src version)
VERSION := $(word 1,$(NUMBERS))
ABI := $(word 2,$(NUMBERS))
NAME := ferretgold-$(VERSION)-$(or $(subst -unknown,,$(TARGET)),$(shell $(CC) -dumpmachine))
STAGE := $(abspath $(DIST))/$(NAME)
PACKAGE := $(LIBDIR)/cmake/ferretgold
# With RELATIVE the prefix is found by the place of the file that is read.
FILL = sed -e 's|@VERSION@|$(VERSION)|g' -e 's|@ABI@|$(ABI)|g' \
    -e 's|@PREFIX@|$(if $(RELATIVE),$${pcfiledir}/../..,$(PREFIX))|g' \
    -e 's|@LIBDIR@|$(LIBDIR:$(PREFIX)/%=$${prefix}/%)|g' \
    -e 's|@INCLUDEDIR@|$(INCLUDEDIR:$(PREFIX)/%=$${prefix}/%)|g' \
    -e "s|@INCLUDE@|$$(realpath -m --relative-to=$(PACKAGE) $(INCLUDEDIR))|g"

all:
	@$(MAKE) -s -C src OUT=$(abspath $(OUT)) TARGET=$(TARGET)

install: all
	install -d $(DESTDIR)$(INCLUDEDIR) $(DESTDIR)$(LIBDIR)/pkgconfig $(DESTDIR)$(PACKAGE)
	install -m 644 include/*.h include/*.hpp $(DESTDIR)$(INCLUDEDIR)
	install -m 644 $(OUT)/libferretgold.a $(OUT)/libferretgold_check.a \
	    $(wildcard $(OUT)/libferretgold_file.a) $(DESTDIR)$(LIBDIR)
	install -m 755 $(OUT)/libferretgold.so.$(VERSION) $(DESTDIR)$(LIBDIR)
	ln -sf libferretgold.so.$(VERSION) $(DESTDIR)$(LIBDIR)/libferretgold.so.$(ABI)
	ln -sf libferretgold.so.$(VERSION) $(DESTDIR)$(LIBDIR)/libferretgold.so
	$(FILL) src/package/ferretgold.pc > $(DESTDIR)$(LIBDIR)/pkgconfig/ferretgold.pc
	install -d $(DESTDIR)$(DATADIR)/rust
	cp -R rust/Cargo.toml rust/build.rs rust/src rust/examples rust/tests $(DESTDIR)$(DATADIR)/rust
	for file in ferretgoldConfig ferretgoldConfigVersion; do \
	    $(FILL) src/package/$$file.cmake > $(DESTDIR)$(PACKAGE)/$$file.cmake || exit; \
	done

dist:
	@test -s $(VERDICT) || { echo "no $(VERDICT)" >&2; exit 1; }
	rm -rf $(STAGE)
	$(MAKE) -s install DESTDIR=$(STAGE) PREFIX= RELATIVE=1
	install -m 644 $(VERDICT) $(STAGE)/VERDICT
	cd $(STAGE) && find . -type f -printf '%P\n' | LC_ALL=C sort | xargs sha256sum > $(STAGE).sums
	mv $(STAGE).sums $(STAGE)/SHA256SUMS
	tar --sort=name --mtime=@$(SOURCE_DATE_EPOCH) --owner=0 --group=0 --numeric-owner \
	    --mode=u=rwX,go=rX -C $(DIST) -cf - $(NAME) | gzip -9n > $(STAGE).tar.gz
	cd $(DIST) && sha256sum $(NAME).tar.gz

.PHONY: all install dist
