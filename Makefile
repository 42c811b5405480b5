# Builds the library's archive, the command-line tool and the order book; tests them and installs them.
#
#   make, make all   build/libabo.a, build/abo and build/orderbook
#   make demo        the order book at work on a small ledger, as README shows it
#   make test        the tests of the C side (docs/TESTING.md); the last line is 'N passed, M failed'
#   make install     headers, archive, abo.pc, tool and its page for man, below PREFIX (default /usr/local); DESTDIR comes before it
#   make uninstall   removes what `make install` put there, by the same PREFIX and DESTDIR
#   make clean       removes build/
#   make help        says this
#
#   LIB=libabo.a     a ready archive, in the place of the one that tools/prove.sh proves and writes
#   FILES=20000      how many files and batches the tests generate (host/run.sh says how many if it is not given)
#
# host/target.sh names the other variables (CC, HOSTCC, CFLAGS, BUILD, MACHINE). The archive is x86-64. Elsewhere the programs are cross compiled
# and linked -static; build/abo, build/orderbook and the installed abo are launchers over qemu, and the tests run the others by it.

# The first number grows when a program must be changed to go on working, the second when a call or a constant is added.
VERSION = 2.1

PREFIX = /usr/local
BINDIR = $(PREFIX)/bin
INCLUDEDIR = $(PREFIX)/include
LIBDIR = $(PREFIX)/lib
DATADIR = $(PREFIX)/share
MANDIR = $(DATADIR)/man
# by its way from BINDIR, as the launcher finds its program
PROGRAMDIR = $(BINDIR)/../lib/abo
DESTDIR =
BUILD ?= build
CFLAGS ?= -O2

# Asked only where they are needed, so that `make clean` wants no compiler.
target = CC='$(if $(filter default,$(origin CC)),,$(CC))' HOSTCC='$(HOSTCC)' MACHINE='$(MACHINE)'; . host/target.sh
compiler = $(or $(shell $(target); have "$$cc" && echo "$$cc"),$(error There is no C compiler for x86-64))
native = $(or $(shell $(target); have "$$native" && echo "$$native"),$(error There is no C compiler for this machine))
# -static where the machine is not x86-64, else nothing
foreign := $(shell $(target); echo $$static)
STATIC ?= $(foreign)

archive = $(BUILD)/libabo.a
programs = $(wildcard host/abo.c host/orderbook.c)
made = $(programs:host/%.c=$(BUILD)/%)
tool = $(filter $(BUILD)/abo,$(made))

.PHONY: all demo test install uninstall clean help FORCE
all: $(archive) $(made)

# Said at once, and not when half is built; an archive that is there already may be as new as the crates.
no_rt = There is no rt here to prove the library. With a ready archive: make LIB=path/to/libabo.a
free = help clean uninstall $(BUILD)/native/% $(BUILD)/objects/% $(BUILD)/abo.pc
ifeq ($(LIB)$(wildcard $(archive))$(shell command -v rt 2>/dev/null),)
ifneq ($(filter-out $(free),$(or $(MAKECMDGOALS),all)),)
$(error $(no_rt))
endif
endif

# What a file was made with is kept, so that another archive or other flags make it anew.
$(BUILD)/%.used: FORCE
	@mkdir -p $(BUILD)
	@echo '$(used)' | cmp -s - $@ || echo '$(used)' >$@
$(BUILD)/archive.used: used = $(LIB)
$(BUILD)/flags.used: used = $(CC) $(HOSTCC) $(MACHINE) $(CFLAGS)
$(BUILD)/link.used: used = $(STATIC) $(LDFLAGS)

ifeq ($(LIB),)
$(archive): $(shell find crates -type f -not -path 'crates/*/out/*' 2>/dev/null) $(BUILD)/archive.used
	@command -v rt >/dev/null || { echo '$(no_rt)' >&2; exit 2; }
	@BUILD='$(BUILD)' bash tools/prove.sh
	cp target/staticlib/libabo.a $@
else ifneq ($(abspath $(LIB)),$(abspath $(archive)))
$(archive): $(LIB) $(BUILD)/archive.used
	cp $(LIB) $@
endif

# What users build is C99 and no more; the tests are C11.
theirs = host/abo.c host/abo/% host/orderbook.c host/orderbook/% host/common/% include/%
language = $(if $(filter-out host/common/%_test.c,$(filter $(theirs),$<)),-std=c99 -pedantic,-std=c11)
compile = $(language) -Wall -Wextra -Werror $(CFLAGS) -Iinclude -c -o $@ $<
headers = $(wildcard include/*.h host/*/*.h peer/*.h bench/*.h)
$(BUILD)/objects/%.o: %.c $(headers) $(BUILD)/flags.used
	@mkdir -p $(@D)
	$(compiler) $(compile)

# Any program of host/ or bench/: build/NAME is made of NAME.c, in whichever folder that is, and its parts.
source = $(firstword $(wildcard host/$(1).c host/*/$(1).c bench/$(1).c) host/$(1).c)
parts = $(addsuffix .o,$(basename $(shell sh host/parts.sh $(1))))
objects = $(addprefix $(BUILD)/objects/,$(call parts,$(1)))
link = $(compiler) $(CFLAGS) $(STATIC) $(LDFLAGS) -o $@ $(filter %.o,$^) $(archive)
.SECONDEXPANSION:
.PRECIOUS: $(BUILD)/objects/%.o
$(BUILD)/%: $$(call source,$$*) $$(call objects,$$(call source,$$*)) $(archive) $(BUILD)/link.used
	$(link)

# Elsewhere than on x86-64 what people run is a launcher, and the program stands in x86-64/ beside it.
ifneq ($(foreign),)
$(BUILD)/x86-64/%: $$(call source,$$*) $$(call objects,$$(call source,$$*)) $(archive) $(BUILD)/link.used
	@mkdir -p $(@D)
	$(link)
$(made): $(BUILD)/%: $(BUILD)/x86-64/% host/launch.sh $(BUILD)/link.used
	install -m 755 host/launch.sh $@
endif

# build/native/NAME is for this machine, whatever it is, and without the archive.
.PRECIOUS: $(BUILD)/native/%.o
$(BUILD)/native/%.o: %.c $(headers) $(BUILD)/flags.used
	@mkdir -p $(@D)
	$(native) $(compile)
$(BUILD)/native/%: $$(call source,$$*) $$(addprefix $(BUILD)/native/,$$(call parts,$$(call source,$$*))) $(BUILD)/link.used
	$(native) $(CFLAGS) $(LDFLAGS) -o $@ $(filter %.o,$^)

demo: all
	@BUILD='$(BUILD)' sh host/demo.sh

test: all
	+@LIB='$(archive)' BUILD='$(BUILD)' FILES='$(FILES)' sh host/run.sh

define pc
prefix=$(PREFIX)
includedir=$(patsubst $(PREFIX)/%,$${prefix}/%,$(INCLUDEDIR))
libdir=$(patsubst $(PREFIX)/%,$${prefix}/%,$(LIBDIR))
say=$(patsubst $(PREFIX)/%,$${prefix}/%,$(DATADIR))/abo/abo_say.c
tell=$(patsubst $(PREFIX)/%,$${prefix}/%,$(DATADIR))/abo/abo_tell.c

Name: abo
Description: Czech ABO payment files and GPC statements, read, written and explained
Version: $(VERSION)
Cflags: -I$${includedir}
Libs: -L$${libdir} -labo
endef

# Written anew each time, because PREFIX may be another one.
export pc
$(BUILD)/abo.pc: FORCE
	@mkdir -p $(BUILD)
	@printf '%s\n' "$$pc" >$@

# abo_say.c and abo_tell.c are no part of the archive: programs that want their words compile them in.
page = $(wildcard host/abo/abo.1)
install: $(archive) $(tool) $(BUILD)/abo.pc
	install -d $(addprefix $(DESTDIR),$(INCLUDEDIR) $(LIBDIR)/pkgconfig $(DATADIR)/abo)
	install -m 644 include/abo.h include/abo_say.h include/abo_tell.h $(DESTDIR)$(INCLUDEDIR)
	install -m 644 include/abo_say.c include/abo_tell.c $(DESTDIR)$(DATADIR)/abo
	install -m 644 $(archive) $(DESTDIR)$(LIBDIR)/libabo.a
	install -m 644 $(BUILD)/abo.pc $(DESTDIR)$(LIBDIR)/pkgconfig/abo.pc
	$(if $(tool),install -d $(DESTDIR)$(BINDIR) && install -m 755 $(tool) $(DESTDIR)$(BINDIR)/abo)
	$(if $(tool),$(if $(foreign),install -d $(DESTDIR)$(PROGRAMDIR) && install -m 755 $(BUILD)/x86-64/abo $(DESTDIR)$(PROGRAMDIR)/abo))
	$(if $(page),install -d $(DESTDIR)$(MANDIR)/man1 && install -m 644 $(page) $(DESTDIR)$(MANDIR)/man1/abo.1)

# Of the folders only those that nobody else has anything in.
uninstall:
	rm -f $(addprefix $(DESTDIR),$(INCLUDEDIR)/abo.h $(addprefix $(INCLUDEDIR)/,abo_say.h abo_tell.h) \
	    $(addprefix $(DATADIR)/abo/,abo_say.c abo_tell.c) $(LIBDIR)/libabo.a \
	    $(LIBDIR)/pkgconfig/abo.pc $(PROGRAMDIR)/abo $(BINDIR)/abo $(MANDIR)/man1/abo.1)
	@rmdir $(addprefix $(DESTDIR),$(DATADIR)/abo $(PROGRAMDIR)) 2>/dev/null || true

help:
	@sed -n '/^#/!q; s/^# \{0,1\}//p' $(firstword $(MAKEFILE_LIST))

clean:
	rm -rf $(BUILD)
