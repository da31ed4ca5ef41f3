# make            proves and builds the archive, the shared library and the programs; the header is include/cheremysl.h
# make shared     the shared library alone, from the archive
# make examples   the C examples, cheremysl-draw and cheremysl-import, into build/
# make install    PREFIX=/usr/local DESTDIR=, or the folders below one by one: libraries, header, pkg-config file, man
#                 pages, programs, samples. To run ldconfig afterwards is the administrator's
# make uninstall  with the same words: removes what install put there
# make test       the gate
# make bench      instructions beside plain C's, into docs/SPEED.md
# make times      microseconds on this machine
# make fuzz       SECONDS=600: the fuzz trial for longer
# make pictures   the drawings in docs/, and the web page in examples/
# make clean      removes all that was built
PREFIX = /usr/local
DESTDIR =
BINDIR = $(PREFIX)/bin
LIBDIR = $(PREFIX)/lib
LIBEXECDIR = $(PREFIX)/libexec
INCLUDEDIR = $(PREFIX)/include
MANDIR = $(PREFIX)/share/man
DATADIR = $(PREFIX)/share
SECONDS = 600
CFLAGS = -O2 -std=c99 -Wall -Wextra -Werror -pedantic
ifeq ($(origin CC),default)
CC := $(shell . tools/machine.sh && echo $$cc)
endif
VERSION := $(shell sed -nE 's/^.define CHEREMYSL_VERSION_(MAJOR|MINOR|PATCH) ([0-9]+)$$/\2/p' include/cheremysl.h | paste -sd. -)

archive = build/libcheremysl.a
program = build/sheet
soname = libcheremysl.so.$(firstword $(subst ., ,$(VERSION)))
shared = build/libcheremysl.so.$(VERSION)
commands = $(patsubst programs/%.c,build/%,$(wildcard programs/*.c))
programs = build/sheets build/audit build/antenna build/slots build/thumbs build/webpage build/cheremysl-draw build/cheremysl-import
samples = $(wildcard examples/*.job examples/*.pads examples/*.ports examples/*.csv examples/*.txt examples/*.layout)
sources := crates.txt $(shell find crates -name out -prune -o \( -name '*.rt' -o -name '*.antt' \) -print)

all: $(archive) $(program) $(shared) $(commands)

$(archive): $(sources)
	tools/build archive

$(program): $(sources)
	tools/build sheet

# The code that is in the archive, linked so that nothing is left to bind later and nothing runs when it is loaded. Under its other name it stands
# as a copy here: rt ci refuses a checkout that has links.
$(shared): $(archive) tools/exports.map include/cheremysl.h
	@mkdir -p build
	$(CC) -shared -nostartfiles $(LDFLAGS) -o $@ -Wl,-soname,$(soname) -Wl,--version-script=tools/exports.map \
	    -Wl,-z,now -Wl,-z,relro -Wl,-z,noexecstack -Wl,-z,text -Wl,--no-undefined -Wl,--whole-archive $(archive) -Wl,--no-whole-archive
	cp -f $@ build/$(soname)

shared: $(shared)
examples: $(programs)

vpath %.c examples programs
build/%: %.c examples/given-sheet.h programs/command.h include/cheremysl.h $(archive)
	@mkdir -p build
	$(CC) $(CPPFLAGS) $(CFLAGS) $(LDFLAGS) $(defines) -Iinclude -o $@ $< $(archive)

# The front knows where the proved program is installed, and is compiled again if that changes.
proved = $(LIBEXECDIR)/cheremysl/sheet
build/cheremysl-sheet: defines = -DPROGRAM='"$(proved)"'
build/cheremysl-sheet: build/proved
build/proved: always
	@mkdir -p build
	@echo '$(proved)' | cmp -s - $@ || echo '$(proved)' >$@

pictures: build/cheremysl-draw build/webpage
	build/cheremysl-draw examples/J5.job 1 2 0 >docs/j5.svg
	build/cheremysl-draw --any examples/crossing.job $$(cat examples/crossing.layout) >docs/crossing.svg
	build/cheremysl-draw --any examples/level.job 0 1 >docs/level-crossed.svg
	build/cheremysl-draw examples/level.job 1 0 >docs/level.svg
	build/cheremysl-draw --area 450,215,725,385 examples/antenna.job >docs/antenna-plain.svg
	build/cheremysl-draw --area 450,215,725,385 examples/antenna.job $$(cat examples/antenna.layout) >docs/antenna.svg
	build/cheremysl-draw --slots examples/row.ports examples/sensor.pads >docs/slots.svg
	build/cheremysl-draw --any examples/copper.job $$(cat examples/copper.layout) >docs/copper-crossed.svg
	build/cheremysl-draw examples/copper.job >docs/copper.svg
	build/cheremysl-draw --any examples/relays.job $$(cat examples/relays.layout) >docs/relays-crossed.svg
	build/cheremysl-draw examples/relays.job >docs/relays.svg
	build/cheremysl-draw examples/sequencer.job >docs/board-24.svg
	build/cheremysl-draw examples/strip.job >docs/board-40.svg
	build/cheremysl-draw examples/matrix.job >docs/board-64.svg
	build/webpage examples/copper.job >examples/sheet.html

# A page stands under each name that its NAME line has: words PAGE:NAME for the names other than the page's own.
names = $(shell sed -n '/^\.SH NAME/,/ \\-/{/^\.SH/d;s/ *\\-.*//;s/,/ /g;p;}' $(1))
links = $(foreach page,$(notdir $(wildcard man/*.3)),$(addprefix $(page):,$(filter-out $(basename $(page)),$(call names,man/$(page)))))

bin = $(DESTDIR)$(BINDIR)
lib = $(DESTDIR)$(LIBDIR)
libexec = $(DESTDIR)$(LIBEXECDIR)/cheremysl
include = $(DESTDIR)$(INCLUDEDIR)
man = $(DESTDIR)$(MANDIR)
data = $(DESTDIR)$(DATADIR)/cheremysl
texts = $(samples) $(wildcard examples/*.c examples/*.h examples/*.html)
scripts = $(wildcard examples/mkjob examples/*.py)
pages1 = $(wildcard man/*.1)
pages3 = $(wildcard man/*.3)
below_prefix = $(patsubst $(PREFIX)/%,$${prefix}/%,$(1))

install: all
	install -d $(bin) $(lib)/pkgconfig $(libexec) $(include) $(man)/man1 $(man)/man3 $(data)
	install -m 755 $(commands) $(bin)
	install -m 755 $(program) $(libexec)/sheet
	install -m 644 $(archive) $(lib)/libcheremysl.a
	install -m 644 $(shared) $(lib)
	ln -sf $(notdir $(shared)) $(lib)/$(soname)
	ln -sf $(soname) $(lib)/libcheremysl.so
	install -m 644 include/cheremysl.h $(include)
	sed 's|@PREFIX@|$(PREFIX)|; s|@LIBDIR@|$(call below_prefix,$(LIBDIR))|; s|@INCLUDEDIR@|$(call below_prefix,$(INCLUDEDIR))|; s|@VERSION@|$(VERSION)|' \
	    cheremysl.pc.in >$(lib)/pkgconfig/cheremysl.pc
	chmod 644 $(lib)/pkgconfig/cheremysl.pc
	install -m 644 $(pages1) $(man)/man1
	install -m 644 $(pages3) $(man)/man3
	for link in $(links); do ln -sf $${link%:*} $(man)/man3/$${link#*:}.3 || exit; done
	install -m 644 $(texts) $(data)
	install -m 755 $(scripts) $(data)

uninstall:
	rm -f $(addprefix $(bin)/,$(notdir $(commands))) $(libexec)/sheet
	rm -f $(addprefix $(lib)/,libcheremysl.a libcheremysl.so $(soname) $(notdir $(shared)) pkgconfig/cheremysl.pc) $(include)/cheremysl.h
	rm -f $(addprefix $(man)/man1/,$(notdir $(pages1))) $(addprefix $(man)/man3/,$(notdir $(pages3)))
	for link in $(links); do rm -f $(man)/man3/$${link#*:}.3; done
	rm -f $(addprefix $(data)/,$(notdir $(texts) $(scripts)))
	rmdir $(data) $(libexec) 2>/dev/null || true

test:
	tests/gate

bench: $(archive)
	bench/run --write $(archive)

times: $(archive)
	bench/run --times $(archive)

fuzz:
	tests/fuzz.sh $(SECONDS)

clean:
	rm -rf build crates/*/out

.NOTPARALLEL:
.PHONY: all shared examples pictures install uninstall test bench times fuzz clean always
