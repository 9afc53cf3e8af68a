# Installs the proved program with its tools, man pages and completions:
#
#   make install PREFIX=$HOME/.local
#   make uninstall PREFIX=$HOME/.local
#
# DESTDIR is put before each path, as packages want it. The program is proved first, by
# `./tp --prove`. All is below PREFIX/lib/kizhombai, in the layout of the repository, but
# for links to it in PREFIX/bin, pages, completions and documents in PREFIX/share.
PREFIX ?= /usr/local
BASE := $(DESTDIR)$(PREFIX)
LIB := $(BASE)/lib/kizhombai
MAN := $(BASE)/share/man/man1
BASH := $(BASE)/share/bash-completion/completions
ZSH := $(BASE)/share/zsh/site-functions
DOC := $(BASE)/share/doc/kizhombai
TEXTS := front/out
TOOLS := $(notdir $(wildcard sdk/tp-*))
COPY := tar -cf - --exclude=__pycache__ --exclude=out --exclude=sdk/tests --exclude=sdk/check --exclude=sdk/build --exclude=*.egg-info
SHELL := /bin/bash
.SHELLFLAGS := -o pipefail -c

.PHONY: help is_proved texts install uninstall
help:
	@sed -n 's/^# \{0,1\}//p' Makefile

is_proved:
	@./tp --version | grep -q ', proved$$' || { \
	    echo 'make: the program is not proved, or older than its sources: ./tp --prove' >&2; exit 1; }

texts:
	front/answer texts $(TEXTS)
	./tp --certificate > $(TEXTS)/certificate.json

install: is_proved texts
	install -d $(LIB)/crates/tp/out $(BASE)/bin $(MAN) $(BASH) $(ZSH) $(DOC)
	install crates/tp/out/tp $(LIB)/crates/tp/out/tp
	install tp $(LIB)/tp
	install -m 644 VERSION $(TEXTS)/certificate.json $(LIB)
	$(COPY) front sdk | tar -xf - -C $(LIB)
	for tool in tp $(addprefix sdk/,$(TOOLS)); do ln -sf ../lib/kizhombai/$$tool $(BASE)/bin/; done
	install -m 644 $(TEXTS)/man1/*.1 $(MAN)
	install -m 644 $(TEXTS)/tp $(BASH)/tp
	install -m 644 $(TEXTS)/_tp $(ZSH)/_tp
	$(COPY) README.md CHANGELOG.md docs/*.md docs/lessons docs/pictures examples | tar -xf - -C $(DOC)

uninstall:
	rm -rf $(LIB) $(DOC)
	rm -f $(addprefix $(BASE)/bin/,tp $(TOOLS)) $(MAN)/tp.1 $(MAN)/tp-*.1 $(BASH)/tp $(ZSH)/_tp
