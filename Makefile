# make            leaves the program as ./glass, for this processor: takes it from dist/ where that is built of these
#                 sources, else proves and builds it
# make PROCESSOR=x86-64
#                 one for each processor of the kind, make PROCESSOR=x86-64-v2 for nearly all of the last fifteen
#                 years; make clean, then make, is for this one again
# make run        the same, and runs the study of examples/ising_4
# make prove      proves and builds the program in any case
# make try        builds it without any proof and runs `glass demo 1` with checks, for those who change something
# make dist       proves the program, and builds what dist/ has
# make install    puts the program, the tools, the manual page, the completion of bash, the examples and the pages below
#                 PREFIX, which is /usr/local
# make uninstall  takes them away from there
# make package    makes a Debian package and a tar archive with the same below packages/, of the programs of dist/
# make clean      removes the program; what was proved is kept
#
# make install PREFIX=$HOME/.local     for one user;  DESTDIR goes in front of PREFIX for those who make packages
# make install PROGRAM=FILE            another program than ./glass

SOURCES := $(shell find crates -path '*/out' -prune -o \( -name '*.rt' -o -name '*.antt' \) -print)

PREFIX ?= /usr/local
PROGRAM ?= glass
BIN := $(DESTDIR)$(PREFIX)/bin
SHARE := $(DESTDIR)$(PREFIX)/share/glass
MAN := $(DESTDIR)$(PREFIX)/share/man/man1
DOC := $(DESTDIR)$(PREFIX)/share/doc/glass
COMPLETIONS := $(DESTDIR)$(PREFIX)/share/bash-completion/completions
# A tool is the command glass-NAME; the modules that it needs lie beside it.
TOOLS := long_run make_seeds manifest describe make_tables analyse jackknife correlations couplings estimate
COMMANDS := $(addprefix $(BIN)/glass-,$(subst _,-,$(TOOLS)))
MODULES := $(wildcard tools/*.py)
REFERENCE := $(wildcard tools/reference/*.py)
PACKAGE := $(wildcard tools/glass_analysis/*.py)
# What studies leave beside the examples is nobody else's.
EXAMPLES := $(shell find examples -type f ! -path '*/seed_*' ! -name 'report*' ! -name 'tw_*' ! -name aging.png ! -name '*.pyc')
PAGES := README.md CHANGELOG.md CITATION.cff $(shell find docs -type f ! -name glass.1)

.PHONY: all run prove try dist install uninstall package clean always
all: glass

# Where a processor is named the program is built anew, since the one that is there may be for another.
glass: $(SOURCES) crates.txt tools/build $(if $(PROCESSOR),always)
	@tools/build $(if $(PROCESSOR),--cpu $(PROCESSOR))

run: glass
	@examples/ising_4/study

prove:
	@tools/build --prove $(if $(PROCESSOR),--cpu $(PROCESSOR))

# The kit's limit is 60 seconds, which a busy machine takes.
try:
	@echo "Nothing is proved: the program is built as it stands, and stops where a check of its run fails."
	@cd crates/glass && rt try --seconds 600 -- demo 1

dist:
	@tools/build --dist

install: $(PROGRAM)
	install -d $(BIN) $(SHARE)/tools/glass_analysis $(MAN)
	install -m 755 $(PROGRAM) $(BIN)/glass
	install -m 644 $(MODULES) $(SHARE)/tools
	install -d $(SHARE)/tools/reference
	install -m 644 $(REFERENCE) $(SHARE)/tools/reference
	install -m 644 $(PACKAGE) $(SHARE)/tools/glass_analysis
	chmod 755 $(TOOLS:%=$(SHARE)/tools/%.py)
	for tool in $(TOOLS); do \
	    ln -sf "../share/glass/tools/$$tool.py" "$(BIN)/glass-$$(echo $$tool | tr _ -)" || exit 1; done
	install -m 644 docs/manual/glass.1 $(MAN)/glass.1
	install -D -m 644 packaging/glass.bash $(COMPLETIONS)/glass
	for tool in $(TOOLS); do ln -sf glass "$(COMPLETIONS)/glass-$$(echo $$tool | tr _ -)" || exit 1; done
	for file in $(EXAMPLES); do \
	    install -D -m $$(test -x $$file && echo 755 || echo 644) $$file $(SHARE)/$$file || exit 1; done
	for file in $(PAGES); do install -D -m 644 $$file $(DOC)/$$file || exit 1; done
	ln -sfn ../../glass/examples $(DOC)/examples

uninstall:
	rm -f $(BIN)/glass $(COMMANDS) $(MAN)/glass.1 $(MODULES:tools/%=$(SHARE)/tools/%) $(PACKAGE:tools/%=$(SHARE)/tools/%)
	rm -f $(REFERENCE:tools/%=$(SHARE)/tools/%) $(COMPLETIONS)/glass $(COMMANDS:$(BIN)/%=$(COMPLETIONS)/%)
	rm -f $(EXAMPLES:%=$(SHARE)/%) $(PAGES:%=$(DOC)/%) $(DOC)/examples
	! test -d $(SHARE) || find $(SHARE) -depth -type d -empty -delete
	! test -d $(DOC) || find $(DOC) -depth -type d -empty -delete

package:
	@tools/make_package.py

clean:
	rm -f glass
