# What there is to make:
#
#   make demo       scrub a pack that holds old names, from the proof to the report
#   make lib        prove what C calls; build archive and shared library
#   make command    all that, and the command over it
#   make install    install library, header, pkg-config files, command, manual page and completion below PREFIX
#                   (default /usr/local; libraries in LIBDIR below it, default lib), in DESTDIR if given
#   make uninstall  remove them again
#   make deb        the Debian packages ballastwren and libballastwren-dev
#   make test       the gate: the same as .ci/run
#   make check      prove what has changed and run the programs, quickly
#   make fuzz       compare archive and reference on what a fuzzer finds, for SECONDS (default 60)
#   make bench      speeds beside the reference's, and the CRC's beside libavutil's
#   make clean      remove everything that was built
#
# What is built stands in target/ARCH. ARCH is x86_64 or aarch64; without it, this machine's processor. Whatever is older
# than its sources is built again, and nothing else is.

.DEFAULT_GOAL = help
.DELETE_ON_ERROR:
.PHONY: help demo lib install uninstall deb test check fuzz bench clean

MACHINE := $(shell uname -m)
ARCH ?= $(MACHINE)
ifeq ($(filter x86_64 aarch64,$(ARCH)),)
$(error ARCH is '$(ARCH)': Ballastwren is built for x86_64 and aarch64)
endif
ifeq ($(origin CC),default)
CC = $(if $(filter $(MACHINE),$(ARCH)),cc,$(ARCH)-linux-gnu-gcc)
endif

PREFIX ?= /usr/local
LIBDIR ?= lib
DESTDIR ?=
BUILT = target/$(ARCH)

help:
	@sed -n '/^#/!q; s/^# \{0,1\}//p' Makefile

include packaging/library.mk
include tools/command.mk

# Nothing is installed unless all of it is built.
install-library install-command: $(ARCHIVE) $(SHARED) $(COMMAND)

demo:
	@ARCH=$(ARCH) samples/demo.sh

deb: command
	packaging/deb.sh $(ARCH)

test:
	.ci/run

check:
	rt all check
	tests/programs.sh

fuzz: lib
	ARCH=$(ARCH) tests/fuzz.sh $(or $(SECONDS),60)

bench:
	bench/run

clean:
	rm -rf target crates/*/out bench/target reference/target tests/target tests/fuzz/target
