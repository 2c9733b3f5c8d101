# Builds, installs and packs ticketc and ticklab; the scripts in tools/ do it. `bash .ci/run` tests them.

PREFIX = /usr/local
DESTDIR =

# Proves and builds each program that lies neither built nor ready here.
all:
	@top=$$PWD; . tools/program.sh; for name in ticketc ticklab; do find_program $$name || tools/build $$name || exit; done

install:
	tools/install "$(DESTDIR)$(PREFIX)"

uninstall:
	tools/uninstall "$(DESTDIR)$(PREFIX)"

# A Debian package, in out/.
deb:
	tools/deb out

# Checks the programs in dist/, without building any; where make is given PREFIX or DESTDIR, those that are installed there.
check:
	@TICKET_PROGRAMS=$(if $(filter-out file,$(origin PREFIX) $(origin DESTDIR)),"$(DESTDIR)$(PREFIX)/bin") tools/check

.PHONY: all install uninstall deb check
