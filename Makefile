# Installs and packs what is proved and built. packaging/ has the scripts that do the work, and says more.
#
#     make install     [PREFIX=/usr/local] [LIBDIR=PREFIX/lib] [BINDIR=PREFIX/bin] [MANDIR=PREFIX/share/man] [DESTDIR=]
#     make install-lib   the library alone, with its header and manual pages
#     make uninstall   [PREFIX=/usr/local] [DESTDIR=]
#     make dist          an archive for computers without the toolchain, in out/dist
#     make deb           three packages of Debian, in out/dist
#     make wheel         a wheel for Python with the library in it, in out/dist
#     make site          pages to read all of it by: contracts, definitions, the theorem unfolded, in out/site. It
#                        needs Python alone
#
# CC, CFLAGS, LDFLAGS and AR make the libraries. ./torusmem --library proves and builds the library, and any command
# that makes threads the program: ./torusmem run examples/machine.txt examples/script.txt
PREFIX ?= /usr/local
export PREFIX LIBDIR BINDIR MANDIR DESTDIR
ifneq ($(origin CC),default)
export CC
endif
ifneq ($(origin AR),default)
export AR
endif
ifneq ($(origin CFLAGS),undefined)
export CFLAGS
endif
export LDFLAGS

.PHONY: help install install-lib uninstall dist deb wheel site
help:
	@sed -n 's/^# \?//p' Makefile

install install-lib uninstall:
	@packaging/install $@

dist deb wheel site:
	@packaging/$@
