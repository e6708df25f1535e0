# make         build the proved program: it proves the program and all crates below it, side by side where they can be, and builds of them
#              bin/vlbi, for any x86-64 with SSE4.2 (x86-64-v2), and bin/vlbi-x86-64-v3, for processors with AVX2
# make demo    correlate the recordings of demo/ by its two jobs, unproved: the same source with checks at run time, in some two minutes
# make example the same by the proved program
# make test    prove everything, try the edits that must fail, run the tests and the programs
# make refused refuse each allocation of a call in turn, of every command and kind of journal, by the proved table of cases
# make fringe  simulate two stations, correlate them, draw the fringe in fringe/ and compare it with theory
# make sky    three stations and two sources that move as on the sky: from a schedule to FITS-IDI and pictures in sky/, compared with theory
# make install PREFIX=/usr/local DESTDIR=    install the program, its manual pages, the Python tools and modules, completion and the documents
#              vlbi is packaging/launcher then, which runs at each start the build that is for the processor
# make deb     make a Debian package of what is installed, bin/vlbi_VERSION_ARCH.deb
#
# With CPU=x86-64-v2 or CPU=x86-64-v3 that build alone is installed or packed. With JOBS=N N crates are proved at a time, in place of as many
# as processors and memory allow.

JOBS =
PREFIX = /usr/local
DESTDIR =
CPU = x86-64-v2 x86-64-v3
PYTHON = /usr/bin/python3
VERSION := $(shell sed -n 's/^__version__ = "\(.*\)"/\1/p' tools/vlbi/__init__.py)$(shell git rev-parse 2> /dev/null && echo .$$(git rev-list --count HEAD)+$$(git rev-parse --short HEAD))
ARCH = $(shell dpkg --print-architecture)

PROGRAM = crates/vlbi_main/out/vlbi_main
SOURCES = crates.txt $(shell find crates -path '*/out' -prune -o \( -name '*.rt' -o -name '*.antt' \) -print)
BUILDS = $(CPU:%=bin/vlbi-%)

TO = $(DESTDIR)$(PREFIX)
# Debian's python3 looks for packages in one folder below /usr, and below /usr/local in one for each version.
LIB = lib/$(if $(filter /usr/local,$(PREFIX)),$(shell $(PYTHON) -c 'import sys; print("python%d.%d" % sys.version_info[:2])'),python3)/dist-packages
ZSH = share/zsh/$(if $(filter /usr,$(PREFIX)),vendor-completions,site-functions)
COMMANDS = $(shell sed -n 's/^vlbi-\([a-z]*\) = .*/\1/p' tools/pyproject.toml)
PACKAGE = bin/vlbi_$(VERSION)_$(ARCH).deb

.PHONY: program demo example test refused fringe sky install deb

program: bin/vlbi $(BUILDS)

demo:
	@demo/unproved
	$(SHOW)

example: bin/vlbi
	@cd demo && ../bin/vlbi journal plain --job job.txt > records.vis
	@cd demo && ../bin/vlbi journal plain --job sky.txt --vex sky.vex > sky.vis
	$(SHOW)

# The bytes of the first record file, its cells, and the cells of one channel of the second.
define SHOW
	@echo "records.vis, $$(stat -c %s demo/records.vis) bytes:"
	@od -A d -t x1 -v demo/records.vis
	@echo "its cells, re im count:"
	@od -A n -t d8 -v -w24 -j 104 -N 48 demo/records.vis | tr -s ' '
	@echo "sky.vis, $$(stat -c %s demo/sky.vis) bytes; the cells of channel CH01 by rising lag from -8, re im count:"
	@od -A n -t d8 -v -w24 -j 129 -N 384 demo/sky.vis | tr -s ' '
endef

test:
	bash .ci/run

refused:
	.ci/refused

fringe: bin/vlbi
	@$(PYTHON) tools/tests/fringe.py bin/vlbi fringe

sky: bin/vlbi
	@$(PYTHON) tools/tests/sky.py bin/vlbi sky

# A command finds the package by its own place, so that any prefix will do; Python is told by PYTHONPATH where it does not look there.
install: $(BUILDS)
	@install -d $(TO)/bin $(TO)/lib/vlbi $(TO)/$(LIB)/vlbi/commands $(TO)/share/man/man1 $(TO)/share/doc/vlbi/docs/pictures $(TO)/share/doc/vlbi/demo
	@install -m 755 packaging/launcher $(TO)/bin/vlbi
	@rm -f $(TO)/lib/vlbi/vlbi-*
	@install -m 755 $(BUILDS) $(TO)/lib/vlbi
	@install -m 644 tools/vlbi/*.py tools/vlbi/*.css tools/vlbi/*.js tools/vlbi/py.typed $(TO)/$(LIB)/vlbi
	@install -m 644 tools/vlbi/commands/*.py $(TO)/$(LIB)/vlbi/commands
	@sed -i 's/^__version__ = .*/__version__ = "$(VERSION)"/' $(TO)/$(LIB)/vlbi/__init__.py
	@for name in $(COMMANDS); do rm -f $(TO)/bin/vlbi-$$name; \
	    sed "s|@PYTHON@|$(PYTHON)|; s|@LIB@|$(LIB)|; s|@NAME@|$$name|" packaging/command > $(TO)/bin/vlbi-$$name; chmod 755 $(TO)/bin/vlbi-$$name; done
	@for page in man/*.1; do sed 's|/usr/\(share/doc/vlbi\)|$(PREFIX)/\1|; s|/usr/\(lib/vlbi\)|$(PREFIX)/\1|' $$page | gzip -9n > $(TO)/share/man/man1/$${page##*/}.gz; done
	@install -d $(TO)/share/bash-completion/completions $(TO)/$(ZSH)
	@cd tools && $(PYTHON) -B -m vlbi.completion bash > $(abspath $(TO))/share/bash-completion/completions/vlbi
	@cd tools && $(PYTHON) -B -m vlbi.completion zsh > $(abspath $(TO))/$(ZSH)/_vlbi
	@for name in $(COMMANDS); do ln -sf vlbi $(TO)/share/bash-completion/completions/vlbi-$$name; done
	@install -m 644 README.md $(TO)/share/doc/vlbi
	@install -m 644 docs/*.md $(TO)/share/doc/vlbi/docs
	@install -m 644 docs/pictures/* $(TO)/share/doc/vlbi/docs/pictures
	@install -m 644 demo/*.vdif demo/*.txt demo/*.vex $(TO)/share/doc/vlbi/demo
	@echo "installed in $(TO)"
	@$(PYTHON) -c 'import sys; sys.exit("$(abspath $(PREFIX))/$(LIB)" not in sys.path)' || \
	    echo "for Python to find the package vlbi: export PYTHONPATH=$(abspath $(PREFIX))/$(LIB)"

deb: $(BUILDS)
	@rm -rf bin/deb bin/vlbi_*.deb
	@$(MAKE) -s install PREFIX=/usr DESTDIR=bin/deb > /dev/null
	@strip --strip-unneeded --remove-section=.comment --remove-section=.note bin/deb/usr/lib/vlbi/*
	@install -m 644 packaging/copyright bin/deb/usr/share/doc/vlbi
	@sed -e 's/@VERSION@/$(VERSION)/' -e "s/@DATE@/$$(git log -1 --format=%cD 2> /dev/null || date -R)/" packaging/changelog | \
	    gzip -9n > bin/deb/usr/share/doc/vlbi/changelog.gz
	@install -d bin/deb/DEBIAN
	@sed -e 's/@VERSION@/$(VERSION)/; s/@ARCH@/$(ARCH)/' -e "s/@SIZE@/$$(du -sk bin/deb/usr | cut -f 1)/" \
	    -e "s/@LIBC@/$$(grep -aoh 'GLIBC_[0-9.]*' $(BUILDS) | sed 's/GLIBC_//' | sort -V | tail -1)/" packaging/control > bin/deb/DEBIAN/control
	@(cd bin/deb && find usr -type f -exec md5sum {} +) > bin/deb/DEBIAN/md5sums
	@chmod -R u=rwX,go=rX bin/deb
	@dpkg-deb --root-owner-group --build bin/deb $(PACKAGE) > /dev/null
	@rm -r bin/deb
	@echo $(PACKAGE)

bin/vlbi: $(PROGRAM)
	@mkdir -p bin
	@cp $(PROGRAM) bin/vlbi

# `rt run` proves the program itself, builds it over the crates that are proved by then, and runs it once, here with no command.
$(PROGRAM): $(SOURCES)
	@rm -f $(PROGRAM)
	@.ci/prove vlbi_main $(JOBS)
	@cd crates/vlbi_main && rt run -- journal > build.log 2>&1; test -x out/vlbi_main || { cat build.log; exit 1; }
	@rm -f crates/vlbi_main/build.log

# What `rt` builds where no processor is named is for this one.
bin/vlbi-x86-64-v2: bin/vlbi
	@cp -p bin/vlbi $@

# The same for another kind of processor. What it builds takes the place of the program for all, which is put back as the step ends, by `^C` too.
bin/vlbi-%: bin/vlbi
	@.ci/prove vlbi_main $(JOBS)
	@cd crates/vlbi_main && trap 'cp -p ../../bin/vlbi out/vlbi_main' EXIT && trap 'exit 130' INT TERM && rm -f out/vlbi_main && \
	    { rt run --cpu=$* -- journal > build.log 2>&1; test -x out/vlbi_main || { cat build.log; exit 1; }; } && mv out/vlbi_main ../../$@
	@rm -f crates/vlbi_main/build.log
