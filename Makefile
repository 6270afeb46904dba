# Installs the program that ./build makes, the operator's tools beside it, the man page and the completion of bash.
#   make install PREFIX=/usr/local [DESTDIR=]
#   make uninstall PREFIX=/usr/local
#   make test       tests the operator's tools

PREFIX ?= /usr/local
PROGRAM ?= crates/qfix/out/qfix
BIN = $(DESTDIR)$(PREFIX)/bin
SHARE = $(DESTDIR)$(PREFIX)/share

.PHONY: all man test install uninstall

all man:
	tools/make-man

test:
	tools/test-operator

install:
	@test -x $(PROGRAM) || { echo "make install: there is no program $(PROGRAM); ./build makes it" >&2; exit 2; }
	install -d $(BIN) $(SHARE)/qfix/qfix_db $(SHARE)/man/man1 $(SHARE)/bash-completion/completions
	install -m 755 $(PROGRAM) $(BIN)/qfix
	install -m 755 tools/qfix-db $(BIN)/qfix-db
	install -m 644 tools/qfix_db/*.py $(SHARE)/qfix/qfix_db/
	install -m 644 docs/qfix.1 $(SHARE)/man/man1/qfix.1
	install -m 644 tools/completion/qfix $(SHARE)/bash-completion/completions/qfix
	ln -sf qfix $(SHARE)/bash-completion/completions/qfix-db

uninstall:
	rm -rf $(BIN)/qfix $(BIN)/qfix-db $(SHARE)/qfix $(SHARE)/man/man1/qfix.1
	rm -f $(SHARE)/bash-completion/completions/qfix $(SHARE)/bash-completion/completions/qfix-db
