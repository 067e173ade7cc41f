# The command over the archive: built and installed. The Makefile includes this file after that of the library and gives ARCH,
# BUILT, CC, PREFIX and DESTDIR.
COMMAND = $(BUILT)/bin/ballastwren
COMMAND_CFLAGS = -std=c99 -D_XOPEN_SOURCE=700 -Wall -Wextra -pedantic
COMMAND_INSTALLED = bin/ballastwren share/man/man1/ballastwren.1 share/bash-completion/completions/ballastwren
CFLAGS ?= -O2

.PHONY: command install-command uninstall-command

command: lib $(COMMAND)

$(COMMAND): $(ARCHIVE) $(wildcard tools/*.c tools/*.h) tools $(HEADER)
	mkdir -p $(dir $@)
	$(CC) $(COMMAND_CFLAGS) $(CFLAGS) -Iinclude $(LDFLAGS) -o $@ $(filter %.c,$^) $(ARCHIVE) $(LDLIBS)

install: install-command
install-command:
	install -d '$(DESTDIR)$(PREFIX)/bin' '$(DESTDIR)$(PREFIX)/share/man/man1' \
		'$(DESTDIR)$(PREFIX)/share/bash-completion/completions'
	install -m 755 $(COMMAND) '$(DESTDIR)$(PREFIX)/bin'
	install -m 644 tools/ballastwren.1 '$(DESTDIR)$(PREFIX)/share/man/man1'
	install -m 644 tools/ballastwren.bash '$(DESTDIR)$(PREFIX)/share/bash-completion/completions/ballastwren'

uninstall: uninstall-command
uninstall-command:
	for file in $(COMMAND_INSTALLED); do rm -f '$(DESTDIR)$(PREFIX)'/"$$file"; done
