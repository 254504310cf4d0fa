# make            proves and builds the programs, bin/smpe and bin/smpe-intake (./build says how far it is)
# make install    installs the programs, the tools, the manual pages, the pages and the completion for bash below
#                 DESTDIR and PREFIX; where bin/smpe and bin/smpe-intake are there, they are taken as they are, so that
#                 root needs no toolchain
# make uninstall  takes all of these away again
# make check      runs all tests
# Names may have blanks and quotes in them, but no line end, % or $, and no ~ in front.
PREFIX = /usr/local
DESTDIR =
# The built programs.
PROGRAM = bin/smpe
INTAKE = bin/smpe-intake

define line_end


endef
# What make or the shell would take for something else than a part of the name.
strange = $(or $(findstring $(line_end),$(value $(1))),$(findstring %,$(value $(1))),$(findstring $$,$(value $(1))), \
  $(filter ~%,$(firstword $(value $(1)))))
$(foreach name,PREFIX DESTDIR PROGRAM INTAKE,$(if $(call strange,$(name)), \
  $(error $(name) may have no line end, % or $$ in it, and no ~ in front)))

# A word of the shell.
quoted = '$(subst ','\'',$(1))'
root := $(DESTDIR)$(PREFIX)
bin := $(call quoted,$(root)/bin)
share := $(call quoted,$(root)/share/smpe)
completions := $(call quoted,$(root)/share/bash-completion/completions)
man := $(call quoted,$(root)/share/man)
doc := $(call quoted,$(root)/share/doc/smpe)
# Those of tools/NAME are installed as smpe-NAME.
tools = cards query job failures report shadow conform
completed = smpe smpe-intake smpe-query smpe-job smpe-failures smpe-shadow smpe-conform
commands = smpe smpe-intake $(tools:%=smpe-%)

.PHONY: all check install uninstall

all:
	./build

check:
	./check

install:
	[ -e $(call quoted,$(PROGRAM)) ] || [ $(call quoted,$(PROGRAM)) != bin/smpe ] || ./build smpe
	[ -e $(call quoted,$(INTAKE)) ] || [ $(call quoted,$(INTAKE)) != bin/smpe-intake ] || ./build smpe-intake
	install -d -- $(bin) $(share) $(man)/man1 $(man)/man5 $(doc)/docs $(completions)
	install -m 755 -- $(call quoted,$(PROGRAM)) $(bin)/smpe
	install -m 755 -- $(call quoted,$(INTAKE)) $(bin)/smpe-intake
	for tool in $(tools); do install -m 755 -- tools/$$tool $(bin)/smpe-$$tool || exit; done
	install -m 644 -- tools/queries.sql tools/conform.rules $(share)
	install -m 644 -- docs/*.1 $(man)/man1
	install -m 644 -- docs/*.5 $(man)/man5
	install -m 644 -- README.md CHANGELOG.md SECURITY.md $(doc)
	install -m 644 -- docs/*.md docs/*.svg docs/*.png docs/*.json $(doc)/docs
	for command in $(completed); do \
	  install -m 644 -- tools/smpe.bash-completion $(completions)/$$command || exit; done

uninstall:
	for command in $(commands); do rm -f -- $(bin)/$$command $(man)/man1/$$command.1 || exit; done
	rm -f -- $(man)/man5/smpe-cards.5 $(man)/man5/smpe-db.5
	for command in $(completed); do rm -f -- $(completions)/$$command || exit; done
	rm -rf -- $(share) $(doc)
