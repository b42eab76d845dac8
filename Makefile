# make          proves, once, and builds what is installed
# make install  PREFIX=/usr/local DESTDIR=: installs it, whole or not at all
# make uninstall  removes what make install put there
# make check    the gate: all proofs and tests
# make deb      a Debian package in target/
# docs/INSTALL.md says more.
PREFIX = /usr/local
LIBDIR = $(PREFIX)/lib
# where Python looks: Debian's own for its own prefix, and below another that of the version
PYTHON = $(shell /usr/bin/python3 -c 'import sys; print("3.%d" % sys.version_info[1])')
PYTHONDIR = $(PREFIX)/lib/python$(if $(filter /usr,$(PREFIX)),3,$(PYTHON))/dist-packages
DESTDIR =

# a word of the shell, whatever is in it
quoted = '$(subst ','\'',$(1))'

TRIPLET = $(shell gcc -print-multiarch)

# where it is put together, and the package
STAGE = target/stage
DEB = target

all:
	@for folder in $(call quoted,$(PREFIX)) $(call quoted,$(LIBDIR)) $(call quoted,$(PYTHONDIR)); do \
	    case $$folder in '' | [!/]* | *[!A-Za-z0-9./_+-]*) \
	        echo 'make: PREFIX, LIBDIR and PYTHONDIR start with / and have letters, digits, . / _ + -' >&2; exit 2;; \
	    esac; done
	@packaging/stage $(STAGE) $(PREFIX) $(LIBDIR) $(PYTHONDIR)
	@echo 'built in $(STAGE)'

install: all
	@packaging/install $(STAGE) $(call quoted,$(DESTDIR))
	@echo installed in $(call quoted,$(DESTDIR)$(PREFIX))

uninstall: all
	@find $(STAGE) ! -type d -printf '/%P\n' | while IFS= read -r file; do \
	    rm -f $(call quoted,$(DESTDIR))"$$file" || exit 2; done
	@rm -rf $(call quoted,$(DESTDIR)$(PYTHONDIR)/chimenickel/__pycache__)
	@rmdir $(call quoted,$(DESTDIR)$(PYTHONDIR)/chimenickel) $(call quoted,$(DESTDIR)$(PREFIX)/libexec/chimenickel) \
	    2>/dev/null || :
	@echo removed from $(call quoted,$(DESTDIR)$(PREFIX))

check:
	bash .ci/run

deb:
	@$(MAKE) --no-print-directory all STAGE=$(DEB)/package PREFIX=/usr LIBDIR=/usr/lib/$(TRIPLET) >/dev/null
	@packaging/deb $(DEB)/package $(DEB)

.PHONY: all install uninstall check deb
