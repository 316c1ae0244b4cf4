# The README's two commands, make test and make run, and what licensees and the curious need besides.
.DEFAULT_GOAL := help
.PHONY: help test tried-from-outside run lib install program sheets kit sheet-is-there

# The kit that the proofs were made with, as `rt version` names it.
KIT := rattle-kit-13f logic dac8208d650f15bf

PREFIX ?= /usr/local

# The path as it was given, whatever it is made of: make expands nothing in it, and the shell takes it
# from the environment.
override SHEET := $(value SHEET)
export SHEET

help:
	@echo 'make run SHEET=path    prints the plan of a sheet, or its refusal'
	@echo 'make test              proves, builds, tries and tests everything'
	@echo 'make lib               writes target/staticlib/libtempletbark.a, for include/templetbark.h'
	@echo 'make install           puts the archive, its header and its pkg-config file below DESTDIR and PREFIX'
	@echo 'make program           builds the program alone, target/bin/planner'
	@echo 'make sheets            runs the program on examples/sheets/'
	@echo 'make bench             measures the library (docs/PERFORMANCE.md)'
	@echo 'make outside-wrong     tries the comparison on wrong libraries'

# Everything: what is tried from outside, and last the kit's own verdict, whose last line is the gate's.
test: kit tools-are-there
	@.ci/run

# What is tried on the archive and on the program; what these stand on is proved once for both.
tried-from-outside: kit tools-are-there
	@$(MAKE) --no-print-directory --jobs=2 outside-test
	@$(MAKE) --no-print-directory sheets

# The plan of a sheet, and nothing else, on standard output.
run: sheet-is-there program
	@outside/run.sh "$$SHEET" $(X86_RUN) target/bin/planner

# Each sheet of examples/sheets to the plan beside it, and make run as README describes it.
sheets: program
	@outside/sheets.sh examples/sheets $(OUTSIDE)/sheets $(X86_RUN) target/bin/planner
	@outside/commands.sh $(OUTSIDE)/commands

# The archive that licensees link, target/staticlib/libtempletbark.a: a copy of what the kit makes of the crate
# templetbark_c.
lib: kit
	@outside/prove.sh templetbark_c $(ARCHIVE)

install: archive-is-there
	@outside/install.sh $(ARCHIVE) '$(DESTDIR)' '$(PREFIX)'

# The program, target/bin/planner.
program: kit
	@outside/prove.sh planner target/bin/planner

kit:
	@command -v rt >/dev/null || { echo "make: the Rattle kit is missing: its command rt is not on the path" >&2; exit 1; }
	@[ "$$(rt version)" = '$(KIT)' ] || echo "make: the kit here is $$(rt version); the proofs were made with $(KIT)" >&2
	@mkdir -p target 2>/dev/null && [ -w target ] || \
		{ echo "make: target/ cannot be written here, and what is built is put there" >&2; exit 1; }

sheet-is-there:
	@[ -n "$$SHEET" ] || { echo "make run: name a sheet, as in make run SHEET=path" >&2; exit 4; }
	@[ ! -d "$$SHEET" ] || { printf 'make run: %s is a folder and no sheet\n' "$$SHEET" >&2; exit 4; }
	@[ -r "$$SHEET" ] || { printf 'make run: there is no sheet %s that can be read\n' "$$SHEET" >&2; exit 4; }

archive-is-there: lib

include outside/outside.mk
