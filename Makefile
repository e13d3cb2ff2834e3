.PHONY: help inspect inspect-test run lib own install figures test edits soak faults bench bench-input trace tools clean

# `rt` can't run beside another one
.NOTPARALLEL:

SHELL := bash
.SHELLFLAGS := -o pipefail -c

# what the hosts run on, and what `make lib` and `make install` are for
MACHINE := $(shell uname -m)
ARCH := $(MACHINE)
ifneq ($(filter-out x86_64 aarch64,$(ARCH)),)
$(error ARCH is $(ARCH), and the module is compiled for x86_64 and aarch64)
endif

PREFIX ?= /usr/local
LIBDIR := $(PREFIX)/lib
INCLUDEDIR := $(PREFIX)/include

SOURCES := crates.txt $(shell find crates \( -name must-fail -o -name wrong -o -name out \) -prune -o -type f -print)
CARGO := cargo run --quiet --release --package

# the header has the version; the soname changes with its first number
part = $(shell sed -n 's/^.define SLAVOTUK_VERSION_$(1) //p' include/slavotuk.h)
MAJOR := $(call part,MAJOR)
VERSION := $(MAJOR).$(call part,MINOR).$(call part,PATCH)
SONAME := libslavotuk.so.$(MAJOR)
SHARED := libslavotuk.so.$(VERSION)

# an archive for each kind of machine in a folder of its own. A shared object is linked by $(CC): for this machine, and for
# another one where CC compiles for it
LIB := build/lib-$(ARCH)
OWN := build/lib-$(MACHINE)
WITH_SHARED := $(or $(filter $(MACHINE),$(ARCH)),$(filter $(ARCH)-%,$(shell $(CC) -dumpmachine 2>/dev/null)))
lib-files = $(1)/libslavotuk.a $(1)/slavotuk.h $(if $(2),$(1)/$(SHARED))

help:
	@echo "make inspect  writes build/inspect/index.html: every sentence of document 01 with its definition, contract and wrong builds"
	@echo "make inspect-test  tries that page in a browser (Chromium)"
	@echo "make run      proves and builds what the console needs, and starts it"
	@echo "make lib      proves the module, and puts the archive, the shared object and slavotuk.h into $(LIB)"
	@echo "              ARCH=x86_64 or ARCH=aarch64: the archive for that machine; with CC a compiler for it, the shared object too"
	@echo "make install  the same into PREFIX ($(PREFIX)) with a file for pkg-config; DESTDIR goes before it"
	@echo "make figures  proves the program that prints the figures of a drawer of images, and puts it into build/figures"
	@echo "make test     the proofs, the wrong builds and the hosts' tests; its last line is 'N passed, 0 failed'"
	@echo "make edits    how long each wrong build took to refuse in the last run; make edits CRATE=NAME tries those of a crate"
	@echo "make soak     the compiled module against the model, until it is stopped; make soak TIME=600 for so many seconds"
	@echo "make faults   breaks the model in some three hundred and thirty ways and asks that the comparison tells"
	@echo "make bench    the record entry against ordinary Rust, in time and in instructions, what the other entries cost, and the figures against cksum;"
	@echo "              the other kind of machine's instructions under an emulator. It fails where order 12's bound is not kept"
	@echo "              INPUT=FILE: the calls of a file alone"
	@echo "make bench-input  writes the two inputs of order 12 as text, for programs of other people: build/bench/twelve-first.txt, twelve-last.txt"
	@echo "make trace    what the calls read from memory, compared on a trace wherever names differ; wrong builds that it has to catch"
	@echo "make clean    removes what these have built"

inspect: tools
	@$(CARGO) slavotuk-inspect -- page build/inspect/index.html

inspect-test: inspect
	@tests/inspect

# with line editing where rlwrap is there and somebody types, at a terminal that has a width
run: own
	@echo "building the console"
	@$$([ -t 0 ] && [ "$$(stty size)" != '0 0' ] && command -v rlwrap && echo -C slavotuk) $(CARGO) slavotuk-console

lib: tools $(call lib-files,$(LIB),$(WITH_SHARED))

# for this machine: the hosts link nothing else
own: tools $(call lib-files,$(OWN),yes)

build/lib-%/libslavotuk.a: $(SOURCES) arch/archive arch/kit
	@arch/archive $* $@

# all of the archive, with the entries alone to be seen from outside. Its other names are no symbolic links, which `rt all check` refuses below the repository
build/lib-%/$(SHARED): build/lib-%/libslavotuk.a include/slavotuk.map
	$(CC) -shared -o $@ -Wl,-soname,$(SONAME) -Wl,--version-script=include/slavotuk.map -Wl,--whole-archive $< -Wl,--no-whole-archive
	ln -f $(@D)/$(SHARED) $(@D)/$(SONAME)
	ln -f $(@D)/$(SHARED) $(@D)/libslavotuk.so

build/lib-%/slavotuk.h: include/slavotuk.h
	@mkdir -p $(@D)
	cp $< $@

install: lib
	install -d $(DESTDIR)$(LIBDIR)/pkgconfig $(DESTDIR)$(INCLUDEDIR)
	install -m 644 $(LIB)/libslavotuk.a $(DESTDIR)$(LIBDIR)
	install -m 644 $(LIB)/slavotuk.h $(DESTDIR)$(INCLUDEDIR)
ifneq ($(WITH_SHARED),)
	install -m 755 $(LIB)/$(SHARED) $(DESTDIR)$(LIBDIR)
	ln -sf $(SHARED) $(DESTDIR)$(LIBDIR)/$(SONAME)
	ln -sf $(SONAME) $(DESTDIR)$(LIBDIR)/libslavotuk.so
endif
	sed -e 's|@LIBDIR@|$(LIBDIR)|' -e 's|@INCLUDEDIR@|$(INCLUDEDIR)|' -e 's|@VERSION@|$(VERSION)|' include/slavotuk.pc.in \
		>$(DESTDIR)$(LIBDIR)/pkgconfig/slavotuk.pc

figures: tools build/figures

build/figures: $(SOURCES) arch/figures arch/kit
	@arch/figures $@

test: tools
	@tests/gate

edits:
	@tests/edits $(CRATE)

soak: own
	@$(CARGO) slavotuk-compare -- soak $(if $(TIME),--seconds $(TIME),--forever)

faults: own build/figures
	@tests/faults

ifdef INPUT
bench: own
	@$(CARGO) slavotuk-bench -- input "$$INPUT"
else
bench: own build/figures $(call lib-files,build/lib-x86_64) $(call lib-files,build/lib-aarch64)
	@$(CARGO) slavotuk-bench
	@tests/bench-other
endif

bench-input: build/bench/twelve-first.txt build/bench/twelve-last.txt

build/bench/%.txt: own
	@mkdir -p $(@D)
	@$(CARGO) slavotuk-bench -- write $* $@

trace: own $(call lib-files,build/lib-x86_64) $(call lib-files,build/lib-aarch64)
	@tests/trace

# what the hosts need beside the Rattle kit
tools:
	@tests/install

clean:
	rm -rf build crates/*/out
