# The command cesr, the library for C and what goes with them: built, installed and packed.
#
#   make                      the command and libcesr
#   make install PREFIX=..    installs them below PREFIX, /usr/local if it is not said; DESTDIR goes before it where a package is made
#   make uninstall PREFIX=..  takes away what install put there
#   make dist                 target/dist/cesr-VERSION.tar.gz, which builds with a C compiler and cargo alone; equal sources, equal bytes
#   make check                what is installed and packed, tried as people use it
#
# Assumes GNU make, a C compiler and cargo. ./cesr builds the command, and proves and builds the library, which asks for rt, unless proof/
# has it, as in a release.
PREFIX ?= /usr/local
CC ?= cc
AR ?= ar
INSTALL ?= install

version := $(shell sed -n 's/^.define CESR_VERSION "\(.*\)"$$/\1/p' include/cesr.h)
# Until 1.0 a minor version may change a call, so that the name that programs are linked to has it.
soname := libcesr.so.$(shell echo $(version) | cut -d. -f1,2)
build := target/install
command := rust/target/release/cesr
at = $(DESTDIR)$(PREFIX)

.PHONY: all lib command install uninstall dist check

all: lib command

archive := $(firstword $(wildcard proof/libexports.a) target/staticlib/libexports.a)
$(archive): | command

# Who installs may be somebody else, with no cargo: then it is what was built before.
command:
	if command -v cargo > /dev/null; then ./cesr --version > /dev/null; else test -x $(command); fi

# ---- the library. Each file is put in its place when it is whole, also where two calls build at once.

lib: $(build)/libcesr.a $(build)/libcesr.so.$(version) $(build)/cesr.pc

$(build)/%.o: c/%.c include/cesr.h
	@mkdir -p $(build)
	$(CC) -std=c11 -O2 -fPIC $(CFLAGS) -Iinclude -c $< -o $@.$$$$ && mv $@.$$$$ $@

beside := $(build)/words.o $(build)/rows.o $(build)/pieces.o
$(build)/libcesr.a: $(archive) $(beside)
	cp $(archive) $@.$$$$ && $(AR) rcsD $@.$$$$ $(beside) && mv $@.$$$$ $@

$(build)/libcesr.so.$(version): $(build)/libcesr.a c/cesr.map
	$(CC) -shared -Wl,-soname,$(soname) -Wl,--version-script=c/cesr.map -Wl,-z,defs $(LDFLAGS) \
	  -Wl,--whole-archive $(build)/libcesr.a -Wl,--no-whole-archive -o $@.$$$$ && mv $@.$$$$ $@

$(build)/cesr.pc: include/cesr.h Makefile
	@mkdir -p $(build)
	printf '%s\n' 'prefix=$(PREFIX)' 'libdir=$${prefix}/lib' 'includedir=$${prefix}/include' '' 'Name: cesr' \
	  'Description: CESR streams judged by a proved library' 'Version: $(version)' 'Libs: -L$${libdir} -lcesr' \
	  'Cflags: -I$${includedir}' > $@.$$$$ && mv $@.$$$$ $@

# ---- installed

install: all
	$(INSTALL) -d $(at)/bin $(at)/include $(at)/lib/pkgconfig $(at)/share/man/man1 $(at)/share/cesr/python
	$(INSTALL) -d $(at)/share/bash-completion/completions $(at)/share/zsh/site-functions $(at)/share/fish/vendor_completions.d
	$(INSTALL) -m 755 $(command) $(at)/bin/cesr
	$(INSTALL) -m 644 include/cesr.h $(at)/include/cesr.h
	$(INSTALL) -m 644 $(build)/libcesr.a $(at)/lib/libcesr.a
	$(INSTALL) -m 755 $(build)/libcesr.so.$(version) $(at)/lib/libcesr.so.$(version)
	ln -sf libcesr.so.$(version) $(at)/lib/$(soname)
	ln -sf $(soname) $(at)/lib/libcesr.so
	sed 's|^prefix=.*|prefix=$(PREFIX)|' $(build)/cesr.pc > $(at)/lib/pkgconfig/cesr.pc
	sed 's|@VERSION@|$(version)|' man/cesr.1 > $(at)/share/man/man1/cesr.1
	$(INSTALL) -m 644 completions/cesr.bash $(at)/share/bash-completion/completions/cesr
	$(INSTALL) -m 644 completions/_cesr $(at)/share/zsh/site-functions/_cesr
	$(INSTALL) -m 644 completions/cesr.fish $(at)/share/fish/vendor_completions.d/cesr.fish
	$(INSTALL) -m 644 python/cesr.py $(at)/share/cesr/python/cesr.py

uninstall:
	rm -f $(at)/bin/cesr $(at)/include/cesr.h $(at)/lib/libcesr.a $(at)/lib/libcesr.so $(at)/lib/$(soname) \
	  $(at)/lib/libcesr.so.$(version) $(at)/lib/pkgconfig/cesr.pc $(at)/share/man/man1/cesr.1 \
	  $(at)/share/bash-completion/completions/cesr $(at)/share/zsh/site-functions/_cesr \
	  $(at)/share/fish/vendor_completions.d/cesr.fish $(at)/share/cesr/python/cesr.py

# ---- packed and tried

dist: all
	tools/dist $(archive) $(version)

check:
	bash tests/install/run.sh
	bash tests/install/dist.sh
