# The command, and what a C project needs to link the library.
#   make                        target/command/troughiron
#   make library                target/staticlib/libtroughiron.a
#   make install                under PREFIX, by default /usr/local, with DESTDIR before it; make uninstall
#   make install-all            the shared library, the guide and the examples too
#   make dist, make deb         a tarball of all that, and a Debian package, in target/dist
# The library is proved and made by command/library, where it is missing or was made from other code. LIBRARY names one
# that was made elsewhere.

.POSIX:

# The same as in include/troughiron.h, which tests/install holds it to.
VERSION = 0.2.0
PREFIX = /usr/local
BINDIR = $(PREFIX)/bin
LIBDIR = $(PREFIX)/lib
INCLUDEDIR = $(PREFIX)/include
MANDIR = $(PREFIX)/share/man
DOCDIR = $(PREFIX)/share/doc/troughiron
COMPLETIONDIR = $(PREFIX)/share/bash-completion/completions
DIST = target/dist

CC = cc
CFLAGS = -O2
BUILD = target/command
LIBRARY = target/staticlib/libtroughiron.a
PROGRAM = $(BUILD)/troughiron
LINKED = $(BUILD)/linked
SONAME = libtroughiron.so.0
SHARED = $(BUILD)/libtroughiron.so.$(VERSION)

WARNINGS = -std=c11 -Wall -Wextra -Werror
DEFINES = -D_XOPEN_SOURCE=700

SOURCES = command/alone.c command/bench.c command/blocks.c command/bytes.c command/cause.c command/changes.c \
    command/check.c command/code.c command/copies.c command/crc.c command/ds2480b.c command/ds9097.c command/edit.c \
    command/expect.c command/explain.c command/fields.c command/findings.c command/gtkwave.c command/held.c \
    command/help.c command/html.c command/html_line.c command/image.c command/inputs.c command/interrupt.c \
    command/json.c command/json_device.c command/json_judged.c command/json_run.c command/judge.c command/junit.c \
    command/kind.c command/lines.c command/live.c command/main.c command/names.c command/new.c command/options.c \
    command/outputs.c command/parts.c command/progress.c command/readback.c command/record.c command/recorder.c \
    command/replace.c command/report.c command/report_changes.c command/run.c command/search.c command/serve.c \
    command/session.c command/show.c command/sofar.c command/staging.c command/status.c command/steps.c \
    command/style.c command/terminal.c command/test.c command/text.c command/transactions.c command/trial.c \
    command/vcd.c command/verdict.c command/words.c examples/line.c
HEADERS = command/adapter.h command/alone.h command/bench.h command/bytes.h command/cause.h command/changes.h \
    command/code.h command/commands.h command/copies.h command/crc.h command/event.h command/explain.h \
    command/fields.h command/findings.h command/gtkwave.h command/html.h command/html_line.h command/image.h \
    command/inputs.h command/interrupt.h command/json.h command/json_reports.h command/junit.h command/kind.h \
    command/live.h command/options.h command/outputs.h command/parts.h command/progress.h command/readback.h \
    command/reader.h command/record.h command/recorder.h command/replace.h command/report.h command/session.h \
    command/sofar.h command/staging.h command/status.h command/style.h command/terminal.h command/text.h \
    command/transactions.h command/trial.h command/vcd.h command/verdict.h examples/line.h include/troughiron.h

all: library
	@$(MAKE) VERSION='$(VERSION)' CC='$(CC)' CFLAGS='$(CFLAGS)' BUILD='$(BUILD)' LIBRARY='$(LIBRARY)' '$(PROGRAM)'

# What is linked is known by its content, as the library is: an archive from elsewhere may be older than the program.
library:
	@command/library '$(LIBRARY)'
	@mkdir -p '$(BUILD)'
	@{ echo '$(LIBRARY)'; cksum <'$(LIBRARY)'; } >'$(LINKED).new'
	@if cmp -s '$(LINKED).new' '$(LINKED)'; then rm '$(LINKED).new'; else mv '$(LINKED).new' '$(LINKED)'; fi

$(PROGRAM): $(SOURCES) $(HEADERS) $(LINKED) Makefile
	@mkdir -p '$(BUILD)'
	$(CC) $(WARNINGS) $(CFLAGS) $(DEFINES) -Iinclude $(SOURCES) $(LDFLAGS) '$(LIBRARY)' -o '$(PROGRAM)'

$(LINKED):
	@$(MAKE) BUILD='$(BUILD)' LIBRARY='$(LIBRARY)' library

shared: library
	@$(MAKE) VERSION='$(VERSION)' CC='$(CC)' BUILD='$(BUILD)' LIBRARY='$(LIBRARY)' '$(SHARED)'

# All that it needs is in the archive.
$(SHARED): $(LINKED) command/troughiron.map Makefile
	@mkdir -p '$(BUILD)'
	$(CC) -shared -Wl,-soname,$(SONAME) -Wl,-z,defs -Wl,--version-script=command/troughiron.map $(LDFLAGS) \
	    -Wl,--whole-archive '$(LIBRARY)' -Wl,--no-whole-archive -o '$(SHARED)'

# The folders are made as they are needed, so that a package can be put together anywhere.
install: all
	mkdir -p '$(DESTDIR)$(BINDIR)' '$(DESTDIR)$(LIBDIR)/pkgconfig' '$(DESTDIR)$(INCLUDEDIR)' \
	    '$(DESTDIR)$(MANDIR)/man1' '$(DESTDIR)$(DOCDIR)'
	install -m 755 '$(PROGRAM)' '$(DESTDIR)$(BINDIR)/troughiron'
	install -m 644 '$(LIBRARY)' '$(DESTDIR)$(LIBDIR)/libtroughiron.a'
	install -m 644 include/troughiron.h '$(DESTDIR)$(INCLUDEDIR)/troughiron.h'
	install -m 644 man/troughiron.1 '$(DESTDIR)$(MANDIR)/man1/troughiron.1'
	install -m 644 LICENSE '$(DESTDIR)$(DOCDIR)/LICENSE'
	sed -e 's|@PREFIX@|$(PREFIX)|' -e 's|@LIBDIR@|$(LIBDIR)|' -e 's|@INCLUDEDIR@|$(INCLUDEDIR)|' \
	    -e 's|@VERSION@|$(VERSION)|' command/troughiron.pc.in >'$(BUILD)/troughiron.pc'
	install -m 644 '$(BUILD)/troughiron.pc' '$(DESTDIR)$(LIBDIR)/pkgconfig/troughiron.pc'

install-all: install shared
	install -m 755 '$(SHARED)' '$(DESTDIR)$(LIBDIR)/libtroughiron.so.$(VERSION)'
	ln -sf libtroughiron.so.$(VERSION) '$(DESTDIR)$(LIBDIR)/$(SONAME)'
	ln -sf $(SONAME) '$(DESTDIR)$(LIBDIR)/libtroughiron.so'
	install -m 644 '$(LIBRARY).sources' '$(DESTDIR)$(LIBDIR)/libtroughiron.a.sources'
	mkdir -p '$(DESTDIR)$(DOCDIR)/examples/sessions'
	install -m 644 docs/GUIDE.md '$(DESTDIR)$(DOCDIR)/GUIDE.md'
	install -m 644 examples/*.c examples/*.h examples/*.out '$(DESTDIR)$(DOCDIR)/examples'
	install -m 755 examples/run '$(DESTDIR)$(DOCDIR)/examples/run'
	install -m 644 examples/sessions/*.session examples/sessions/*.out '$(DESTDIR)$(DOCDIR)/examples/sessions'
	mkdir -p '$(DESTDIR)$(DOCDIR)/python' '$(DESTDIR)$(COMPLETIONDIR)'
	install -m 644 python/troughiron.py python/example.py '$(DESTDIR)$(DOCDIR)/python'
	install -m 644 command/completion.bash '$(DESTDIR)$(COMPLETIONDIR)/troughiron'

dist:
	@command/dist '$(DIST)' '$(VERSION)' CC='$(CC)' CFLAGS='$(CFLAGS)' LDFLAGS='$(LDFLAGS)' BUILD='$(BUILD)' \
	    LIBRARY='$(LIBRARY)'

deb:
	@command/deb '$(DIST)' '$(VERSION)' CC='$(CC)' CFLAGS='$(CFLAGS)' LDFLAGS='$(LDFLAGS)' BUILD='$(BUILD)' \
	    LIBRARY='$(LIBRARY)'

uninstall:
	rm -f '$(DESTDIR)$(BINDIR)/troughiron' '$(DESTDIR)$(LIBDIR)/libtroughiron.a' '$(DESTDIR)$(INCLUDEDIR)/troughiron.h' \
	    '$(DESTDIR)$(MANDIR)/man1/troughiron.1' '$(DESTDIR)$(LIBDIR)/pkgconfig/troughiron.pc' \
	    '$(DESTDIR)$(LIBDIR)/libtroughiron.so.$(VERSION)' '$(DESTDIR)$(LIBDIR)/$(SONAME)' \
	    '$(DESTDIR)$(LIBDIR)/libtroughiron.so' '$(DESTDIR)$(LIBDIR)/libtroughiron.a.sources' \
	    '$(DESTDIR)$(DOCDIR)/GUIDE.md' '$(DESTDIR)$(DOCDIR)/LICENSE' '$(DESTDIR)$(DOCDIR)/python/troughiron.py' \
	    '$(DESTDIR)$(DOCDIR)/python/example.py' '$(DESTDIR)$(COMPLETIONDIR)/troughiron'
	cd examples && for file in *.c *.h *.out run sessions/*; do rm -f '$(DESTDIR)$(DOCDIR)/examples/'"$$file"; done

clean:
	rm -rf '$(BUILD)'

.PHONY: all library shared install install-all dist deb uninstall clean
