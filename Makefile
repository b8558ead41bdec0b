# make help    prints these lines
# make build   proves and builds the programs, at crates/refspec_map/out/refspec_map and crates/refspec/out/refspec
# make run     its stored run, compared with what is stored; without proof where no program of these sources is built
# make test    tables and lemmas, proofs, edits and changed definitions, and the scripts of tests/ over what is built
# make install PREFIX=FOLDER, uninstall: programs, git-refspec, manual pages, completions, and what install-lib puts there
# make lib     proves and builds the library for C, at out/lib
# make install-lib PREFIX=FOLDER, uninstall-lib: its header, static and shared library, .pc and cmake files, below FOLDER
# make test-bindings   tests it from C, Rust and Python
# make dist    packages of all that for x86-64 and arm64, at out/dist: for any Linux, Debian, Python and cargo; make test-dist tries them
# make clean   removes the programs, what is kept of proofs, and the logs

SHELL := /bin/bash
.SHELLFLAGS := -eu -o pipefail -c
.PHONY: help build run test clean kit install uninstall

LIBRARY := crates/gix_refspec_text crates/gix_refspec_match crates/gix_refspec crates/gix_refspec_plan crates/gix_refspec_lint crates/gix_refspec_why crates/gix_refspec_remote
FOLDER := crates/refspec_map
PROGRAM := $(FOLDER)/out/refspec_map
TESTS := crates/gix_refspec_tests/out/gix_refspec_tests_tests
PEOPLE_LIBRARY := crates/refspec_json crates/refspec_io crates/refspec_fetch crates/refspec_commands crates/refspec_request crates/refspec_git
PEOPLE := crates/refspec
PEOPLE_PROGRAM := $(PEOPLE)/out/refspec
PEOPLE_SOURCES := crates.txt $(shell find $(LIBRARY) $(PEOPLE_LIBRARY) $(PEOPLE) \( -name out -o -name edits \) -prune -o -type f -print)
LOGS := out
FIRST := half an hour the first time, with refspec, on 4 processors
SOURCES := crates.txt $(shell find $(LIBRARY) $(FOLDER) \( -name out -o -name edits \) -prune -o -type f -print)

help:
	@sed -n 's/^# make/make/p' Makefile

build: $(PROGRAM) $(PEOPLE_PROGRAM)

# rt builds only what it has proved, and rt check says how far it is. On an empty input the program ends with
# status 0. The pipe keeps the status of rt, by pipefail.
$(PROGRAM): $(SOURCES) | kit
	@mkdir -p $(LOGS)
	@echo "make: proving and building the library and the program: $(FIRST), then less; log: $(LOGS)/build.log" >&2
	@{ for crate in $(LIBRARY); do (cd $$crate && rt check) || exit; done && (cd $(FOLDER) && rt check && rt run -- canon push); } </dev/null 2>&1 \
	| tee $(LOGS)/build.log | tools/progress.sh >&2 \
	|| { status=$$?; echo "make: not built, as $(LOGS)/build.log says" >&2; exit $$status; }
	@touch $@

$(PEOPLE_PROGRAM): $(PEOPLE_SOURCES) | kit $(PROGRAM)
	@mkdir -p $(LOGS)
	@{ for crate in $(PEOPLE_LIBRARY) $(PEOPLE); do (cd $$crate && rt check) || exit; done && (cd $(PEOPLE) && rt run -- canon main); } </dev/null 2>&1 \
	| tee $(LOGS)/build-refspec.log | tools/progress.sh >&2 \
	|| { status=$$?; echo "make: not built, as $(LOGS)/build-refspec.log says" >&2; exit $$status; }
	@touch $@

# Where the shells look for completions, below PREFIX.
BASH_FOLDER := share/bash-completion/completions
ZSH_FOLDER ?= share/zsh/site-functions
FISH_FOLDER := share/fish/vendor_completions.d
# What adds to the completion of Git is read when fish starts.
FISH_START := share/fish/vendor_conf.d
LICENCES := LICENSE-MIT LICENSE-APACHE
PEOPLE_DOCS := docs/GIT.md docs/refspec.schema.json $(LICENCES)

# What is installed, and where the library is that is; make dist has others.
PROGRAMS ?= $(PROGRAM) $(PEOPLE_PROGRAM)
BUILT_LIB ?= $(LIB)

install: build install-lib
	@install -d $(addprefix $(TO)/,bin share/man/man1 $(BASH_FOLDER) $(ZSH_FOLDER) $(FISH_FOLDER) $(FISH_START) share/doc/refspec)
	@install -m 755 $(PROGRAMS) bin/git-refspec $(TO)/bin
	@install -m 644 man/*.1 $(TO)/share/man/man1
	@for file in completions/*.bash; do \
	    name=$$(basename $$file .bash) && install -m 644 $$file $(TO)/$(BASH_FOLDER)/$$name || exit; \
	done
	@install -m 644 completions/_* $(TO)/$(ZSH_FOLDER)
	@install -m 644 completions/refspec.fish $(TO)/$(FISH_FOLDER)
	@install -m 644 completions/git-refspec.fish $(TO)/$(FISH_START)
	@install -m 644 $(PEOPLE_DOCS) $(TO)/share/doc/refspec

uninstall: uninstall-lib
	@rm -f $(addprefix $(TO)/bin/,refspec_map refspec git-refspec)
	@rm -f $(addprefix $(TO)/share/man/man1/,$(notdir $(wildcard man/*.1)))
	@rm -f $(addprefix $(TO)/$(BASH_FOLDER)/,$(notdir $(basename $(wildcard completions/*.bash))))
	@rm -f $(addprefix $(TO)/$(ZSH_FOLDER)/,$(notdir $(wildcard completions/_*)))
	@rm -f $(TO)/$(FISH_FOLDER)/refspec.fish $(TO)/$(FISH_START)/git-refspec.fish
	@rm -rf $(TO)/share/doc/refspec

# Where no program of these sources was proved yet, rt try runs them without proof.
run: kit
	@mkdir -p $(LOGS)
	@if [ -x $(PROGRAM) ] && [ -z "$$(find $(SOURCES) -newer $(PROGRAM) -print -quit)" ]; then \
	    tools/stored.sh $(FOLDER); \
	else \
	    echo "make: a quick look without proof, within a minute; make build proves and builds" \
	        "($(FIRST); log: $(LOGS)/build.log)" >&2; \
	    tools/stored.sh $(FOLDER) rt try -- 2>$(LOGS)/run.log || { cat $(LOGS)/run.log >&2; exit 1; }; \
	fi

# The gate leaves the programs, the tests and the library for C that it proved and built, so that build and lib have
# nothing to do.
test: kit
	@tools/claims.py
	@tools/lemmas.py
	@tools/walk.py
	@tools/links.py
	@tools/gate.sh $(LOGS) $(SONAME) $(PROGRAM) $(TESTS) $(PEOPLE_PROGRAM)
	@grep -E '^[0-9]+ passed, 0 failed' $(LOGS)/gate.log | tail -n 1

# The library for C: static and shared, and what pkg-config and cmake read of them. LIBDIR is the folder below
# PREFIX. The .pc file has PC_PREFIX, which may be relative to it, as ${pcfiledir}/../.. is.
.PHONY: lib install-lib uninstall-lib test-bindings
PREFIX ?= /usr/local
LIBDIR ?= lib
PC_PREFIX ?= $(PREFIX)
TO = $(DESTDIR)$(PREFIX)
LIB := $(LOGS)/lib
ARCHIVE := $(LIB)/libgix_refspec.a
C_LIBRARY := crates/gix_refspec_c
HEADER := $(C_LIBRARY)/include/gix_refspec.h
SHARED := libgix_refspec.so
C_VERSION := $(shell sed -n 's/^.define GIX_REFSPEC_VERSION "\(.*\)"/\1/p' $(HEADER))
# What a program asks for: major and minor version, as before 1.0 every new minor version may break callers.
SONAME := $(SHARED).$(basename $(C_VERSION))
C_SOURCES := crates.txt tools/archive.sh $(shell find $(LIBRARY) $(C_LIBRARY) \( -name out -o -name edits \) -prune -o -type f -print)

lib: $(ARCHIVE)

$(ARCHIVE): $(C_SOURCES) | kit
	@mkdir -p $(LIB)
	@(cd $(C_LIBRARY) && rt lib) </dev/null >$(LOGS)/lib.log 2>&1 || { cat $(LOGS)/lib.log >&2; exit 1; }
	@tools/archive.sh $(LIB) $(SONAME)

CMAKE_FOLDER = $(TO)/$(LIBDIR)/cmake/gix_refspec
FILLED = sed -e 's|@PREFIX@|$(PC_PREFIX)|' -e 's|@LIBDIR@|$(LIBDIR)|' -e 's|@VERSION@|$(C_VERSION)|' -e 's|@SONAME@|$(SONAME)|'

install-lib: lib
	@install -d $(TO)/include $(TO)/$(LIBDIR)/pkgconfig $(CMAKE_FOLDER) $(TO)/share/doc/gix_refspec
	@install -m 644 $(HEADER) $(TO)/include
	@install -m 644 $(BUILT_LIB)/libgix_refspec.a $(TO)/$(LIBDIR)
	@install -m 755 $(BUILT_LIB)/$(SHARED) $(TO)/$(LIBDIR)/$(SHARED).$(C_VERSION)
	@ln -sf $(SHARED).$(C_VERSION) $(TO)/$(LIBDIR)/$(SONAME)
	@ln -sf $(SONAME) $(TO)/$(LIBDIR)/$(SHARED)
	@$(FILLED) bindings/c/gix_refspec.pc.in >$(TO)/$(LIBDIR)/pkgconfig/gix_refspec.pc
	@for file in gix_refspec-config gix_refspec-config-version; do \
	    $(FILLED) bindings/c/$$file.cmake.in >$(CMAKE_FOLDER)/$$file.cmake || exit; \
	done
	@install -m 644 docs/C.md bindings/c/examples/*.c $(LICENCES) $(TO)/share/doc/gix_refspec

uninstall-lib:
	@rm -f $(addprefix $(TO)/,include/gix_refspec.h $(LIBDIR)/libgix_refspec.a $(LIBDIR)/pkgconfig/gix_refspec.pc) \
	    $(addprefix $(TO)/$(LIBDIR)/,$(SHARED) $(SONAME) $(SHARED).$(C_VERSION))
	@rm -rf $(CMAKE_FOLDER) $(TO)/share/doc/gix_refspec

test-bindings: kit
	@tests/bindings/bindings.sh

# Packages, each the same bytes at each run: the times in them are SOURCE_DATE_EPOCH, or that of the last commit. Their programs
# need no library. Those for arm64, and its library, are made where Debian's compiler for it is.
.PHONY: dist test-dist
VERSION := $(shell sed -n '/^## /{s/^## //p;q}' CHANGELOG.md)
DIST ?= $(LOGS)/dist
SOURCE_DATE_EPOCH ?= $(shell git log -1 --format=%ct 2>/dev/null || echo 0)
PROCESSORS ?= x86_64 $(shell echo 'int main(void) { }' | aarch64-linux-gnu-gcc -static -x c -o /dev/null - 2>/dev/null && echo aarch64)
STATIC_FOLDER := $(LOGS)/x86_64
STATIC := $(STATIC_FOLDER)/refspec
ARM := $(LOGS)/aarch64
ARM_BUILT := $(ARM)/refspec $(ARM)/lib/libgix_refspec.a
RUNTIME := $(wildcard packaging/runtime/*.c)

dist: build lib $(STATIC) $(if $(filter aarch64,$(PROCESSORS)),$(ARM_BUILT))
	@SOURCE_DATE_EPOCH=$(SOURCE_DATE_EPOCH) tools/dist.sh $(DIST) $(VERSION) $(C_VERSION) $(SONAME) $(PROCESSORS)

# rt ci leaves a program that an earlier run on the machine proved without the object that it was linked from.
OBJECT := $(FOLDER)/out/$(notdir $(FOLDER)).o
PEOPLE_OBJECT := $(PEOPLE)/out/$(notdir $(PEOPLE)).o

$(OBJECT): $(SOURCES) | $(PROGRAM)
$(PEOPLE_OBJECT): $(PEOPLE_SOURCES) | $(PEOPLE_PROGRAM)
$(OBJECT) $(PEOPLE_OBJECT):
	@mkdir -p $(STATIC_FOLDER)
	@tools/build.py $(basename $(@F)) x86_64 >$(STATIC_FOLDER)/$(@F).log 2>&1 || { cat $(STATIC_FOLDER)/$(@F).log >&2; exit 1; }

$(STATIC): $(PROGRAM) $(PEOPLE_PROGRAM) $(OBJECT) $(PEOPLE_OBJECT) tools/static.sh
	@tools/static.sh $(@D)

$(ARM)/refspec: $(PROGRAM) $(PEOPLE_PROGRAM) tools/build.py tools/static.sh $(RUNTIME)
	@mkdir -p $(@D)
	@echo "make: building the programs for arm64, and proving them if make test built those for x86-64; log: $(@D)/build.log" >&2
	@for crate in $(notdir $(FOLDER) $(PEOPLE)); do tools/build.py $$crate aarch64 || exit; done >$(@D)/build.log 2>&1 \
	|| { cat $(@D)/build.log >&2; exit 1; }
	@tools/static.sh $(@D) aarch64

$(ARM)/lib/libgix_refspec.a: $(ARCHIVE) tools/build.py tools/archive.sh $(RUNTIME)
	@mkdir -p $(@D)
	@tools/build.py $(notdir $(C_LIBRARY)) aarch64 >$(@D)/../lib.log 2>&1 || { cat $(@D)/../lib.log >&2; exit 1; }
	@tools/archive.sh $(@D) $(SONAME) aarch64

test-dist: dist
	@tests/packages/packages.sh $(DIST)

clean:
	rm -rf $(LOGS) crates/*/out "$${XDG_CACHE_HOME:-$$HOME/.cache}/gix_refspec"

kit:
	@command -v rt >/dev/null \
	|| { echo "make: there is no command rt: the kit's folder bin/ has to be on the PATH" >&2; exit 1; }
