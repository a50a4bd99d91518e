# Builds, installs and tests the library for C and the command bisquemop. `make help` says how.
PREFIX = /usr/local
DESTDIR =
VERSION = $(shell cat VERSION)
TARGET = $(patsubst armv7%,armv7,$(shell uname -m))-linux
FOR = speed
PROVE ?=

folder = target/$(TARGET)$(if $(filter-out speed,$(FOR)),-$(FOR))
archive = $(folder)/libbisquemop.a
module = target/module/bisquemop.ll
compiling = scripts/build-target scripts/targets.sh
installed = lib/libbisquemop.a lib/pkgconfig/bisquemop.pc include/bisquemop.h bin/bisquemop share/man/man1/bisquemop.1
to = $(DESTDIR)$(PREFIX)

# The command is built where it can be run.
CFLAGS = -O2
here := $(patsubst armv7%,armv7,$(shell uname -m))-linux
command = $(if $(filter $(here),$(TARGET)),$(folder)/bisquemop)

.PHONY: all library prove install uninstall test help full-path known-target not-done

all: library $(command)

library: known-target $(archive)

# An unknown target is refused before anything is proved.
known-target:
	@scripts/build-target --known '$(TARGET)' '$(FOR)'

$(archive): $(module) $(compiling) | known-target
	@scripts/build-target '$(TARGET)' '$(FOR)'

# Only what is proved is built: here, or before, when dist/ was made of the same sources. Where the module, what was kept with it or any
# source has changed since, it is made anew.
$(module): $(shell PROVE='$(PROVE)' scripts/build --is-done library || echo not-done) | known-target
	@scripts/build library
	@touch $@

# From nothing, and not from dist/.
prove: known-target
	@command -v rt >/dev/null || { echo "make: there is no command rt: put the Rattle kit's bin folder on the PATH" >&2; exit 1; }
	rt all verdict
	@$(MAKE) PROVE=yes all

$(folder)/bisquemop: $(archive) $(wildcard command/*.[ch]) include/bisquemop.h
	$(CC) -std=c99 $(CFLAGS) $(LDFLAGS) -Iinclude -o $@ $(wildcard command/*.c) $(archive)

# A relative folder would be another one for each reader of bisquemop.pc, and a blank ends a flag there.
full-path:
	@case '$(PREFIX)' in \
	    *[[:space:]]* | *[\|\&\\]*) wrong=1 ;; \
	    /*) wrong= ;; \
	    *) wrong=1 ;; \
	esac; \
	[ -z "$$wrong" ] || { echo "make: PREFIX must be a full path without blanks, as in: make install PREFIX=/usr/local" >&2; exit 1; }

install: full-path $(archive) $(command)
	sed -e 's|@PREFIX@|$(PREFIX)|' -e 's|@VERSION@|$(VERSION)|' -e 's|@TARGET@|$(TARGET)|' bisquemop.pc.in >$(folder)/bisquemop.pc
	install -d '$(to)/lib/pkgconfig' '$(to)/include'
	install -m 644 $(archive) '$(to)/lib'
	install -m 644 $(folder)/bisquemop.pc '$(to)/lib/pkgconfig'
	install -m 644 include/bisquemop.h '$(to)/include'
	$(if $(command),install -d '$(to)/bin' '$(to)/share/man/man1')
	$(if $(command),install -m 755 $(command) '$(to)/bin')
	$(if $(command),install -m 644 docs/man/bisquemop.1 '$(to)/share/man/man1')

uninstall: full-path
	for file in $(installed); do rm -f '$(to)'/$$file; done

test:
	.ci/run

help:
	@echo 'make                          build $(archive), and the command'
	@echo '                              $(or $(command),bisquemop), where TARGET is this machine'
	@echo 'make TARGET=NAME              the same for another machine: target/NAME/libbisquemop.a. NAME is one of'
	@sh -c '. scripts/helpers.sh && . scripts/targets.sh && target_names' scripts/help | fold -s -w 80 | sed 's/^/                              /'
	@echo 'make FOR=size                 a library that is small and not as fast: target/NAME-size/libbisquemop.a'
	@echo 'make install PREFIX=FOLDER    install it: FOLDER/lib/libbisquemop.a, FOLDER/include/bisquemop.h and'
	@echo '                              FOLDER/lib/pkgconfig/bisquemop.pc; by default FOLDER is /usr/local.'
	@echo '                              For this machine also the command: FOLDER/bin/bisquemop and'
	@echo '                              FOLDER/share/man/man1/bisquemop.1.'
	@echo '                              DESTDIR=STAGE puts STAGE before each of these paths, as packagers need it,'
	@echo '                              and TARGET=NAME installs the library for that machine'
	@echo 'make uninstall PREFIX=FOLDER  remove them'
	@echo 'make prove                    prove everything from nothing, and build from that'
	@echo 'make test                     all proofs and all tests'
	@echo
	@echo 'What is built was proved: dist/ has it, and clang of version 19 or later compiles it. Only make prove, make test and'
	@echo 'a library of changed sources need the Rattle kit on the PATH; PROVE=yes has any build prove, and not take from dist/.'
