# Builds and installs Wegbaro. README.md says what has to be there first.
#
#   make             proves and builds everything, and does nothing where nothing has changed
#   make install     installs it under PREFIX, /usr/local if not given; DESTDIR is put in front
#   make uninstall   removes what `make install` installs
#   make test        the whole gate, .ci/run
#
# `make install` takes what is built and builds only what is not there, so that it needs neither
# `rt` nor cargo after `make`.

VERSION := $(shell cat VERSION)

# What a program that is linked with the shared object asks for when it starts. Versions 0.x may change the calls from one
# minor version to the next; from 1.0 on only the major number tells of such a change.
numbers := $(subst ., ,$(VERSION))
major := $(word 1,$(numbers))
minor := $(word 2,$(numbers))
SONAME := libwegbaro.so.$(if $(filter 0,$(major)),$(major).$(minor),$(major))

PREFIX ?= /usr/local
prefix := $(abspath $(PREFIX))
bindir := $(prefix)/bin
includedir := $(prefix)/include
libdir := $(prefix)/lib
pcdir := $(libdir)/pkgconfig
docdir := $(prefix)/share/doc/wegbaro
mandir := $(prefix)/share/man/man1
completiondir := $(prefix)/share/bash-completion/completions
folders := $(bindir) $(includedir) $(pcdir) $(docdir) $(mandir) $(completiondir)

# Which of the folders were not there before `make install`, so that `make uninstall` removes them.
made_folders := $(DESTDIR)$(docdir)/made-folders

RT ?= rt
CC ?= cc
INSTALL ?= install

static := target/staticlib/libwegbaro.a
shared := target/sharedlib/libwegbaro.so.$(VERSION)
gate := target/bin/gate
program := target/rust/release/wegbaro

# Written when both are proved and built; it has the version of rt.
made := target/made

# What is proved. A folder counts too: it is newer when a file of it is gone.
sources := crates.txt $(shell find crates \( -name must-fail -o -name out \) -prune -o -print)

.PHONY: all there anew program shared install uninstall test

all: there
	$(MAKE) --no-print-directory $(made)
	$(MAKE) --no-print-directory program shared

# What has to be there, told at once before a proof is begun.
there:
	@absent=; \
	for program in $(firstword $(RT)) cargo $(firstword $(CC)); do \
	    command -v $$program > /dev/null || absent="$$absent $$program"; \
	done; \
	test -z "$$absent" || { echo "not installed:$$absent; README.md says where to get it" >&2; exit 1; }

# rt would prove the library's own crate again each time. So it is asked only if a source or rt itself is another one, or
# if something is not there.
known := $(shell test -f $(static) && test -f $(gate) && $(RT) version 2> /dev/null | cmp -s - $(made) && echo yes)
$(made): $(sources) $(if $(known),,anew)
	packaging/prove $(RT)
	$(RT) version > $@

# The program is linked with the static library.
program: $(static)
	cargo build --release --offline --package wegbaro-tools --target-dir target/rust

shared: $(shared)

$(static):
	$(MAKE) --no-print-directory $(made)

# Both are built at once.
$(gate): | $(static)
	$(MAKE) --no-print-directory $(made)

$(program):
	$(MAKE) program

$(shared): $(static) packaging/libwegbaro.map Makefile
	mkdir -p $(@D)
	$(CC) -shared $(LDFLAGS) -Wl,-soname,$(SONAME) -Wl,--version-script,packaging/libwegbaro.map \
	    -Wl,-z,defs -Wl,-z,text -Wl,-z,noexecstack -o $@ \
	    -Wl,--whole-archive $(static) -Wl,--no-whole-archive

install: $(static) $(shared) $(gate) $(program)
	packaging/make-folders "$(DESTDIR)" "$(made_folders)" $(folders)
	$(INSTALL) -m 755 $(gate) $(DESTDIR)$(bindir)/gate
	$(INSTALL) -m 755 $(program) $(DESTDIR)$(bindir)/wegbaro
	$(INSTALL) -m 644 include/wegbaro.h $(DESTDIR)$(includedir)/wegbaro.h
	$(INSTALL) -m 644 docs/FORMAT.md docs/answers.schema.json CHANGELOG.md $(DESTDIR)$(docdir)
	sed 's|(\.\./docs/|(|g' tools/README.md > $(DESTDIR)$(docdir)/README.md
	$(program) --man > $(DESTDIR)$(mandir)/wegbaro.1
	$(program) --completion > $(DESTDIR)$(completiondir)/wegbaro
	chmod 644 $(DESTDIR)$(docdir)/README.md $(DESTDIR)$(mandir)/wegbaro.1 $(DESTDIR)$(completiondir)/wegbaro
	$(INSTALL) -m 644 $(static) $(DESTDIR)$(libdir)/libwegbaro.a
	$(INSTALL) -m 755 $(shared) $(DESTDIR)$(libdir)/$(notdir $(shared))
	ln -sf $(notdir $(shared)) $(DESTDIR)$(libdir)/$(SONAME)
	ln -sf $(SONAME) $(DESTDIR)$(libdir)/libwegbaro.so
	sed -e 's|@PREFIX@|$(prefix)|' -e 's|@VERSION@|$(VERSION)|' packaging/wegbaro.pc.in \
	    > $(DESTDIR)$(pcdir)/wegbaro.pc
	chmod 644 $(DESTDIR)$(pcdir)/wegbaro.pc

uninstall:
	rm -f $(DESTDIR)$(bindir)/gate $(DESTDIR)$(bindir)/wegbaro
	rm -f $(DESTDIR)$(includedir)/wegbaro.h
	rm -f $(DESTDIR)$(docdir)/FORMAT.md $(DESTDIR)$(docdir)/CHANGELOG.md
	rm -f $(DESTDIR)$(docdir)/README.md $(DESTDIR)$(docdir)/answers.schema.json
	rm -f $(DESTDIR)$(mandir)/wegbaro.1 $(DESTDIR)$(completiondir)/wegbaro
	rm -f $(DESTDIR)$(libdir)/libwegbaro.a $(DESTDIR)$(libdir)/libwegbaro.so
	rm -f $(DESTDIR)$(libdir)/$(SONAME) $(DESTDIR)$(libdir)/$(notdir $(shared))
	rm -f $(DESTDIR)$(pcdir)/wegbaro.pc
	packaging/remove-folders "$(DESTDIR)" "$(made_folders)"

test:
	sh .ci/run
