# Builds, installs and packs what the crates have proved; `make help` says how. For GNU make.

PREFIX = /usr/local
DESTDIR =
export PREFIX DESTDIR

version := $(shell sed -n 's/^.define KITCHEN_VERSION //p' include/kitchen.h)
sources := crates.txt $(shell find crates/*/src crates/*/specs crates/*/proofs -type f)
program := crates/kitchen/out/kitchen
shared := libkitchen.so.$(version)
library := target/lib/$(shared)
name := kitchen-$(version)
folder := target/dist/$(name)

.NOTPARALLEL:
.PHONY: all install uninstall dist help

all: $(program) $(library)

help:
	@echo 'make                           the program $(program) and the library in target/lib/, from proved crates'
	@echo 'make install [PREFIX=/usr/local] [DESTDIR=]'
	@echo '                               bin/kitchen, include/kitchen.h, lib/libkitchen.a, lib/$(shared) with its link,'
	@echo '                               and lib/pkgconfig/kitchen.pc'
	@echo 'make uninstall [PREFIX=] [DESTDIR=]'
	@echo '                               removes these files again; folders stay'
	@echo 'make dist                      target/dist/$(name).tar.gz: all of it with examples and tools, to be used without the kit'
	@echo 'make help                      this'

# rt run proves and builds a program before it runs it. It leaves one alone whose crates have not changed; touched, it is newer than they are.
$(program): $(sources)
	@command -v rt >/dev/null || { echo 'make: rt (the Rattle kit) is missing on your path' >&2; exit 1; }
	cd crates/kitchen && rt run </dev/null >/dev/null
	@touch $@

$(library): $(sources) include/kitchen.h tools/library
	tools/library

# Both variables may have blanks in them; the shell has them from the environment.
install: all
	@case $$PREFIX in '' | /*) ;; *) echo "make: PREFIX must begin with /, found $$PREFIX" >&2; exit 1 ;; esac
	@to=$$DESTDIR$$PREFIX && \
	install -d "$$to/bin" "$$to/include" "$$to/lib/pkgconfig" && \
	install -m 755 $(program) "$$to/bin/kitchen" && \
	install -m 644 include/kitchen.h "$$to/include/kitchen.h" && \
	install -m 644 target/lib/libkitchen.a "$$to/lib/libkitchen.a" && \
	install -m 755 $(library) "$$to/lib/$(shared)" && \
	ln -sf $(shared) "$$to/lib/libkitchen.so" && \
	prefix=$$(printf '%s' "$${KITCHEN_PC_PREFIX-$$PREFIX}" | sed 's/[\\&,]/\\&/g') && \
	sed -e "s,@PREFIX@,$$prefix," -e 's/@VERSION@/$(version)/' include/kitchen.pc.in >"$$to/lib/pkgconfig/kitchen.pc" && \
	echo "installed in $$to"

uninstall:
	@from=$$DESTDIR$$PREFIX && \
	rm -f "$$from/bin/kitchen" "$$from/include/kitchen.h" "$$from/lib/libkitchen.a" "$$from/lib/$(shared)" \
	    "$$from/lib/libkitchen.so" "$$from/lib/pkgconfig/kitchen.pc" && \
	echo "removed from $$from"

# The folder as it is packed: kitchen.pc finds the rest from its own place, and all that varies with the run is fixed.
dist: all
	@rm -rf $(folder)
	@KITCHEN_PC_PREFIX='$${pcfiledir}/../..' $(MAKE) --no-print-directory -s install DESTDIR=$(folder) PREFIX= >/dev/null
	@cp -R docs host jobs tools $(folder)
	@cp README.md show $(folder)
	@rm -f $(folder)/tools/library $(folder)/tools/unicode_table.py $(folder)/tools/respell.py
	@find $(folder) -name __pycache__ -prune -exec rm -rf {} +
	@{ rt version && $(commit) && echo 'machine x86-64 Linux'; } >$(folder)/KIT
	@cd $(folder) && find . '!' -type d '!' -name SHA256SUMS | LC_ALL=C sort | xargs sha256sum >SHA256SUMS
	@tar -C target/dist --format=ustar --sort=name --owner=0 --group=0 --numeric-owner --mode=u=rwX,go=rX \
	    --mtime="@$$(git log -1 --format=%ct 2>/dev/null || echo 0)" -cf - $(name) | gzip -9n >target/dist/.new.tar.gz
	@mv -f target/dist/.new.tar.gz $(folder).tar.gz
	@echo "packed $(folder).tar.gz"

# Without git the commit is not known.
commit = { commit=$$(git rev-parse HEAD 2>/dev/null) || commit=unknown; \
    changed=$$(git --no-optional-locks status --porcelain 2>/dev/null); echo "commit $$commit$${changed:+, with changes}"; }
