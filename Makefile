# make              proves mcc with all that it stands on, and builds crates/mcc/out/mcc
# make CRATE        proves another crate of crates.txt, with what that stands on
# make install      copies the program to PREFIX/bin; it needs nothing else but the C library
# make test         runs ./test
# A crate is proved again exactly if its mark doesn't hold (.ci/marks). The order-only rules ask whether a mark is there, and no times.
SHELL := /bin/bash
PREFIX ?= /usr/local
export BEGAN := $(shell date +%s)
.DEFAULT_GOAL := mcc
.DELETE_ON_ERROR:
.PHONY: test install
ifeq ($(findstring j,$(filter-out --%,$(MAKEFLAGS))),)
MAKEFLAGS += --jobs=$(shell nproc)
endif
MAKEFLAGS += --no-builtin-rules --no-print-directory

ifneq ($(MAKECMDGOALS),test)
$(if $(filter 0,$(shell mkdir -p out && .ci/rules > out/rules.mk; echo $$?)),,$(error the crates can't be read: is the command rt here?))
include out/rules.mk
endif

crates/%/out/rlib/proved:
	@.ci/prove $*

install: mcc
	install -D -m 755 crates/mcc/out/mcc "$(DESTDIR)$(PREFIX)/bin/mcc"

test:
	./test
