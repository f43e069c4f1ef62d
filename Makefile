# The library for C as a package (docs/GATEWAY.md). GNU make.
#
#   make                    proves and builds target/lib: libhrazvanut.a by include/build, which needs rt, and libhrazvanut.so from it
#   make install            installs both, the header and hrazvanut.pc; builds what is missing
#   make uninstall          removes what make install installs
#   make clean              removes target/lib, and no proofs
#
# PREFIX, LIBDIR, INCLUDEDIR and DESTDIR are the usual ones. With LIB=FOLDER, or HRAZVANUT_LIB in the environment, the libhrazvanut.a of
# that folder is taken, and rt is not needed.
PREFIX = /usr/local
LIBDIR = $(PREFIX)/lib
INCLUDEDIR = $(PREFIX)/include
LIB = $(HRAZVANUT_LIB)
INSTALL = install

# What the header says: the version, and which functions there are.
header := include/hrazvanut.h
major := $(shell sed -n 's/^.define HRAZVANUT_VERSION_MAJOR //p' $(header))
minor := $(shell sed -n 's/^.define HRAZVANUT_VERSION_MINOR //p' $(header))
functions := $(shell sed -n 's/^[a-z0-9_]* \(hrazvanut_abi_[a-z_]*\)[^a-z_ ].*/\1/p' $(header))

from := $(if $(LIB),$(LIB),target/staticlib)/libhrazvanut.a
archive := target/lib/libhrazvanut.a
soname := libhrazvanut.so.$(major)
shared := $(soname).$(minor)

# A folder by the prefix, if it is below it; either may have spaces.
under = $(subst |,,$(subst |$(PREFIX)/,$${prefix}/,|$(1)))

define pc
prefix=$(PREFIX)
libdir=$(call under,$(LIBDIR))
includedir=$(call under,$(INCLUDEDIR))

Name: hrazvanut
Description: Verified access security for EPICS gateways
Version: $(major).$(minor)
Cflags: -I"$${includedir}"
Libs: -L"$${libdir}" -lhrazvanut
endef
export pc

.PHONY: all prove copy install uninstall clean
.NOTPARALLEL:
.DELETE_ON_ERROR:

all: prove copy target/lib/$(shared)

prove:
	$(if $(LIB),,include/build)

target/staticlib/libhrazvanut.a:
	include/build

# What a shared object is made with, but for its name and the archive.
link = $(CC) -shared -Wl,-soname,$(soname) -Wl,--version-script,target/lib/exports $(functions:%=-Wl,--require-defined,%) \
    -Wl,-Bsymbolic -Wl,-z,defs,-z,text,-z,noexecstack,-z,relro,-z,now $(LDFLAGS)

# By its bytes and not by its time: one from elsewhere may be older than the last. One that does not link is not taken.
copy: $(from) target/lib/exports
	cmp -s $(from) $(archive) || { $(link) -o target/lib/trial $(from) && cp $(from) target/lib/trial && mv target/lib/trial $(archive); }

# An install takes what was built, unless LIB names another.
$(archive): $(if $(LIB),copy)
	test -e $@ || $(MAKE) copy

# The functions of the header and nothing else. Each bears the major version: two libraries in one process do not mix.
target/lib/exports: $(header) Makefile
	mkdir -p target/lib
	printf '%s\n' 'HRAZVANUT_$(major) {' 'global:' $(functions:%='%;') 'local: *;' '};' >$@

target/lib/$(shared): $(archive) target/lib/exports
	$(link) -o $@ $(archive)

install: $(archive) target/lib/$(shared)
	$(INSTALL) -d '$(DESTDIR)$(LIBDIR)/pkgconfig' '$(DESTDIR)$(INCLUDEDIR)'
	$(INSTALL) -m 644 $(header) '$(DESTDIR)$(INCLUDEDIR)'
	$(INSTALL) -m 644 $(archive) '$(DESTDIR)$(LIBDIR)'
	$(INSTALL) -m 755 target/lib/$(shared) '$(DESTDIR)$(LIBDIR)'
	ln -sf $(shared) '$(DESTDIR)$(LIBDIR)/$(soname)'
	ln -sf $(soname) '$(DESTDIR)$(LIBDIR)/libhrazvanut.so'
	printf '%s\n' "$$pc" | $(INSTALL) -m 644 /dev/stdin '$(DESTDIR)$(LIBDIR)/pkgconfig/hrazvanut.pc'

uninstall:
	rm -f $(foreach f,libhrazvanut.a $(shared) $(soname) libhrazvanut.so pkgconfig/hrazvanut.pc,'$(DESTDIR)$(LIBDIR)/$(f)')
	rm -f '$(DESTDIR)$(INCLUDEDIR)/hrazvanut.h'

clean:
	rm -rf target/lib
