# Builds and installs the program, the library and their pages. It needs the Rattle kit (`rt`) and a C compiler.
#
#   make                              the program, libvc4check.a and libvc4check.so.2, into out/
#   make install PREFIX=/usr/local    (DESTDIR=FOLDER puts all below that folder)
#   install/try                       installs into a folder of its own, and builds and runs a program against what is installed
#   make web                          the page: out/web/ for a web server, and out/web/vc4check.html, one file
PREFIX = /usr/local
DESTDIR =
ABI = 2
VERSION = $(shell sed -n 's/^\#\# \([0-9.]*\),.*/\1/p' CHANGELOG.md | head -n 1)
CFLAGS = -O2
PROGRAM = crates/vc4check/out/vc4check
PROVED = crates/vc4check_c/out/libvc4check_c.a
PAGE = crates/vc4check_web/out/libvc4check_web.a
TO = $(DESTDIR)$(PREFIX)

all: $(PROGRAM) out/libvc4check.a out/libvc4check.so.$(VERSION) out/vc4check.pc

$(PROGRAM):
	cd crates/vc4check && rt run -- gen 7

$(PROVED):
	cd crates/vc4check_c && rt lib

out/heap.o: examples/c/heap.c
	mkdir -p out
	$(CC) $(CFLAGS) -fPIC -c -o $@ $<

out/libvc4check.a: $(PROVED) out/heap.o
	cp $(PROVED) $@
	$(AR) r $@ out/heap.o

out/libvc4check.so.$(VERSION): $(PROVED) out/heap.o install/vc4check.map
	$(CC) -shared -o $@ -Wl,-soname,libvc4check.so.$(ABI) -Wl,--version-script=install/vc4check.map -Wl,-z,defs \
	    -Wl,--whole-archive $(PROVED) -Wl,--no-whole-archive out/heap.o

out/vc4check.pc: install/vc4check.pc.in
	mkdir -p out
	sed -e 's|@PREFIX@|$(PREFIX)|' -e 's|@VERSION@|$(VERSION)|' $< > $@

install: all
	install -d $(TO)/bin $(TO)/include $(TO)/lib/pkgconfig $(TO)/share/man/man1 $(TO)/share/man/man3 \
	    $(TO)/share/bash-completion/completions $(TO)/share/zsh/site-functions
	install -m 755 $(PROGRAM) $(TO)/bin
	install -m 644 examples/c/vc4check.h $(TO)/include
	install -m 644 out/libvc4check.a $(TO)/lib
	install -m 755 out/libvc4check.so.$(VERSION) $(TO)/lib
	ln -sf libvc4check.so.$(VERSION) $(TO)/lib/libvc4check.so.$(ABI)
	ln -sf libvc4check.so.$(ABI) $(TO)/lib/libvc4check.so
	install -m 644 out/vc4check.pc $(TO)/lib/pkgconfig
	install -m 644 install/vc4check.1 $(TO)/share/man/man1
	install -m 644 install/vc4check.3 $(TO)/share/man/man3
	install -m 644 install/vc4check.bash $(TO)/share/bash-completion/completions/vc4check
	install -m 644 install/vc4check.zsh $(TO)/share/zsh/site-functions/_vc4check

$(PAGE):
	cd crates/vc4check_web && rt lib

web: $(PROGRAM) $(PAGE)
	web/build

clean:
	rm -rf out

.PHONY: all install web clean
