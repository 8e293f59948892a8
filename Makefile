# make try        shows a file by the unproved program, FILE=PATH, or a sample keytab
# make check      runs the tests over such a program: minutes, for who changes a line
# make            proves the program and builds bin/krbfile
# make static     builds bin/krbfile-static, which needs no C library where it runs and starts sooner
# make lib        proves and builds the C library, lib/libkrbfile.a and lib/libkrbfile.so.1, which c/*.h declare
# make cards      writes a card of each kind of command line, as klist -k, with what its contract says, to bin/cards/
# make samples    makes the files that README works on, in samples/
# make pages      makes docs/pages, the manual pages as Markdown; it takes mandoc
# make test       proves every crate from nothing, runs all tests, those of the program that this built too, and tries
#                 the wrong bodies; afterwards the other targets prove nothing again
# make long-test  runs the long tests of the program, on random and damaged files
# make install    copies what is built, below DESTDIR if it is given: the program, its manual pages and completions
#                 (make install-program), the C library (install-lib) and Python's module (install-python). PREFIX,
#                 BINDIR, LIBDIR, INCLUDEDIR, MANDIR, DATADIR, DOCDIR and PYTHONDIR say where. make uninstall removes it
# make dist       packs the static program, the libraries, samples, examples and documents into
#                 DIST/krbfile-VERSION-linux-x86_64.tar.gz; the same files give the same bytes, of SOURCE_DATE_EPOCH
# make deb        packs what is built as Debian packages, in DIST; make rpm as RPMs
# make wheel      packs Python's module and the C library, in DIST; it takes python3-build and setuptools, no network
# make clean      removes what is built here, but nothing that is proved
# make help       shows these lines
#
# CC, CFLAGS, LDFLAGS and PYTHON are heard.

PREFIX ?= /usr/local
BINDIR ?= $(PREFIX)/bin
LIBDIR ?= $(PREFIX)/lib
INCLUDEDIR ?= $(PREFIX)/include
DATADIR ?= $(PREFIX)/share
MANDIR ?= $(DATADIR)/man
DOCDIR ?= $(DATADIR)/doc/krbfile
PYTHON ?= python3
# Where it looks for modules below PREFIX, or would if it were installed there. Empty without a python3.
PYTHONDIR ?= $(shell $(PYTHON) -c 'import site, sys; lib = "$(PREFIX)/lib/"; \
	own = lib + "python%d.%d/site-packages" % sys.version_info[:2]; \
	print(next((path for path in site.getsitepackages() if path.startswith(lib)), own))')
DIST ?= .
# The time of all that is packed: the start of 2026, unless a packager has another.
export SOURCE_DATE_EPOCH ?= 1767225600
HARDENED = -Wl,-z,relro,-z,now
PROGRAM = bin/krbfile
WRONG = bin/wrong
BUILT = crates/krbfile/out/krbfile
STATIC = bin/krbfile-static
ARCHIVE = crates/krb_c/out/libkrb_c.a
LIBRARY = lib/libkrbfile.a
SHARED = lib/libkrbfile.so.1
HEADERS = c/krbfile.h c/krbfile_files.h
KIT = $(dir $(shell rt doc))
SOURCES = crates.txt $(shell find crates/*/src crates/*/specs crates/*/proofs -type f)
VERSION := $(shell sed -n 's/^const VERSION: &str = "\([^ "]*\).*/\1/p' crates/krb_command_line/src/command_lines.rt)
NAME = krbfile-$(VERSION)-linux-x86_64
PARTS = $(DIST)/$(NAME).$@-parts
ROOT = $(PARTS)/$(NAME)
MODULE = $(wildcard python/krbfile/*.py) python/krbfile/py.typed
DOCUMENTS = README.md CHANGELOG.md SECURITY.md
EXAMPLES = $(wildcard examples/*)
# The pages that README names, and the calls that the library's manual page names.
LINKED := CONTRIBUTING.md $(filter-out docs/%,$(shell grep -o '[a-z]*/[a-zA-Z_/]*\.md' README.md))
CALLS := $(sort $(shell sed -n 's/^\.Fn \(krbf_[a-z_]*\).*/\1/p' docs/krbfile.3))

.PHONY: all try check static lib cards samples test long-test install install-program install-lib install-python \
	uninstall dist deb rpm wheel pack-dist pack-deb pack-rpm pack-wheel clean help
.DELETE_ON_ERROR:

all: $(PROGRAM)

# Ends where there is no toolchain.
need_rt = @command -v rt >/dev/null || { echo "rt is not on the path: install the Rattle toolchain" >&2; exit 1; }

# What make test left is not proved again.
$(BUILT): $(SOURCES)
	$(need_rt)
	tests/prove krbfile

$(PROGRAM): $(BUILT)
	install -D -m 755 $(BUILT) $@

# What rt links for the program, and the C library with it.
$(STATIC): $(BUILT)
	test -f $(BUILT).o || (rm $(BUILT) && tests/prove krbfile)
	mkdir -p $(dir $(STATIC))
	$(CC) $(CFLAGS) -static-pie $(HARDENED) $(LDFLAGS) -o $@ $(BUILT).o $(KIT)c/libos_c.a $(KIT)c/liblibc_c.a

$(ARCHIVE): $(SOURCES)
	tests/prove krb_c

# The calls and the C library's heap as one object, which shows the calls alone.
lib/krbfile.o: $(ARCHIVE)
	rm -rf lib/parts && mkdir -p lib/parts
	trap 'rm -r lib/parts' EXIT; (cd lib/parts && ar x ../../$(ARCHIVE) && ar x $(KIT)c/liblibc_c.a heap.pic.o) && \
		$(LD) -r -o $@ lib/parts/*.o && objcopy --wildcard --keep-global-symbol='krbf_*' $@

# The calls that hold files by the program.
lib/krbfile_files.o: c/krbfile_files.c $(HEADERS)
	mkdir -p lib
	$(CC) -std=c11 -O2 $(CFLAGS) -fPIC -c -o $@ $<

$(LIBRARY): lib/krbfile.o lib/krbfile_files.o
	rm -f $@
	$(AR) rcs $@ $^

$(SHARED): lib/krbfile.o lib/krbfile_files.o c/krbfile.map
	$(CC) $(CFLAGS) -shared $(HARDENED) -Wl,-z,defs -Wl,-soname,libkrbfile.so.1 -Wl,--version-script,c/krbfile.map \
		$(LDFLAGS) -o $@ $(filter %.o,$^)

try:
	$(need_rt)
	cd crates/krbfile && rt try -- show "$(if $(FILE),$(abspath $(FILE)),data/k)"

check:
	$(need_rt)
	tests/unproved bin/unproved/krbfile
	tests/run --unproved --program bin/unproved/krbfile
	@echo "Nothing was proved: make and make test prove. For the change of one file:" \
		"tests/run --unproved --program bin/unproved/krbfile --for FILE, and tests/prove --only CRATE FUNCTION."

static: $(STATIC)

lib: $(LIBRARY) $(SHARED)
	ln -sf $(notdir $(SHARED)) lib/libkrbfile.so

cards:
	tests/definitions bin/cards

samples:
	tests/samples samples

.PHONY: pages
pages: $(patsubst docs/%,docs/pages/%.md,$(wildcard docs/krbfile.*))

docs/pages/%.md: docs/%
	mkdir -p $(@D)
	page=$$(mandoc -T markdown -I os=krbfile $<) && printf '%s\n' "$$page" > $@

# The programs and libraries that the gate leaves are what is tested, so each crate is proved once. The gate would put
# libraries of earlier checks back in their place, and it takes no folder that holds a link. A program that it took
# over from an earlier run has no object file: then the static one is left out. The theorems of corpus_samples are
# written before. The wrong bodies of a crate are tried as soon as the gate has proved it; what that gave is shown
# last, even if a test failed.
test:
	$(need_rt)
	rm -f $(BUILT) $(BUILT).o $(STATIC) lib/libkrbfile.so $(ARCHIVE)
	rm -rf crates/*/out/rlib
	tests/samples_of_corpus
	tests/wrong --beside $(WRONG) rt ci
	touch -c crates/*/out/rlib/*.rlib $(BUILT)
	$(MAKE) --no-print-directory all
	-test ! -f $(BUILT).o || $(MAKE) --no-print-directory static
	$(MAKE) --no-print-directory lib
	tests/run; run=$$?; cat $(WRONG); grep -q '^[1-9][0-9]* wrong bodies refused, 0 not$$' $(WRONG) && exit $$run

long-test: all
	tests/run --long --program $(PROGRAM)

# Ends unless a file is built.
need = @test -f $(1) || { echo "there is no $(1): build it by make $(2)" >&2; exit 1; }

# Puts text below DESTDIR.
put = install -D -m 644 /dev/stdin $(DESTDIR)$(1)

# The program's help gives the completions.
install-program:
	$(call need,$(PROGRAM),all)
	install -D -m 755 $(PROGRAM) $(DESTDIR)$(BINDIR)/krbfile
	install -D -m 644 -t $(DESTDIR)$(MANDIR)/man1 docs/krbfile.1
	install -D -m 644 -t $(DESTDIR)$(MANDIR)/man5 docs/krbfile.5
	install -D -m 644 -t $(DESTDIR)$(DOCDIR) $(DOCUMENTS)
	install -D -m 644 -t $(DESTDIR)$(DOCDIR)/examples $(EXAMPLES)
	completions/generate $(PROGRAM) $(DESTDIR)$(DATADIR)

install-lib:
	$(call need,$(SHARED),lib)
	install -D -m 644 -t $(DESTDIR)$(INCLUDEDIR) $(HEADERS)
	install -D -m 644 -t $(DESTDIR)$(LIBDIR) $(LIBRARY)
	install -D -m 755 -t $(DESTDIR)$(LIBDIR) $(SHARED)
	ln -sf libkrbfile.so.1 $(DESTDIR)$(LIBDIR)/libkrbfile.so
	install -D -m 644 -t $(DESTDIR)$(MANDIR)/man3 docs/krbfile.3
	for call in $(CALLS); do echo .so man3/krbfile.3 | $(call put,$(MANDIR)/man3/$$call.3) || exit 1; done
	text=$$(sed -e 's|@PREFIX@|$(or $(PREFIX),$${pcfiledir}/../..)|' -e 's|@VERSION@|$(VERSION)|' \
		-e 's|@LIBDIR@|$(LIBDIR:$(PREFIX)/%=$${prefix}/%)|' \
		-e 's|@INCLUDEDIR@|$(INCLUDEDIR:$(PREFIX)/%=$${prefix}/%)|' c/krbfile.pc.in) && \
		echo "$$text" | $(call put,$(LIBDIR)/pkgconfig/krbfile.pc)

install-python:
	$(if $(PYTHONDIR),install -D -m 644 -t $(DESTDIR)$(PYTHONDIR)/krbfile $(MODULE))

install: install-program install-lib install-python

uninstall:
	for path in $(BINDIR)/krbfile $(HEADERS:c/%=$(INCLUDEDIR)/%) $(LIBDIR)/libkrbfile.a $(LIBDIR)/libkrbfile.so \
		$(LIBDIR)/libkrbfile.so.1 $(LIBDIR)/pkgconfig/krbfile.pc $(MANDIR)/man1/krbfile.1 $(MANDIR)/man5/krbfile.5 \
		$(patsubst %,$(MANDIR)/man3/%.3,krbfile $(CALLS)) $(DATADIR)/bash-completion/completions/krbfile \
		$(DATADIR)/zsh/site-functions/_krbfile $(DATADIR)/fish/vendor_completions.d/krbfile.fish $(DOCDIR) \
		$(if $(PYTHONDIR),$(PYTHONDIR)/krbfile); do rm -rf "$(DESTDIR)$$path"; done

# Puts what pip builds the module from into $(1).
define put_project
	install -D -m 644 -t $(1)/krbfile $(MODULE)
	install -m 644 README.md $(1)
	sed 's|@VERSION@|$(VERSION)|' python/pyproject.toml.in > $(1)/pyproject.toml
endef

# Packs in a folder of its own, and moves what is packed to DIST. If that fails, nothing is left.
dist deb rpm wheel:
	rm -rf $(PARTS) && mkdir -p $(PARTS)/packed
	trap : INT TERM; $(MAKE) --no-print-directory pack-$@ PARTS=$(PARTS) || { rm -rf $(PARTS); exit 1; }
	mv $(PARTS)/packed/* $(DIST); moved=$$?; rm -r $(PARTS); exit $$moved

dist: $(STATIC) $(LIBRARY) $(SHARED)

# With no PREFIX, pkg-config finds the library wherever the archive is unpacked.
pack-dist:
	$(MAKE) --no-print-directory install-program install-lib DESTDIR=$(ROOT) PREFIX= BINDIR=/bin LIBDIR=/lib \
		INCLUDEDIR=/include DATADIR=/share MANDIR=/share/man DOCDIR=/share/doc/krbfile PROGRAM=$(STATIC)
	$(call put_project,$(ROOT)/python)
	cp -r --parents $(DOCUMENTS) docs examples $(LINKED) $(ROOT)
	ln -s include $(ROOT)/c
	tests/samples $(ROOT)/samples
	install -m 755 tests/selftest $(ROOT)
	cd $(ROOT) && find * -type f -exec sha256sum {} + > ../sums && LC_ALL=C sort -k 2 ../sums > SHA256SUMS
	chmod -R u=rwX,go=rX $(ROOT) && chmod 600 $(ROOT)/samples/*
	tar -C $(PARTS) --format=ustar --sort=name --owner=0 --group=0 --numeric-owner --mtime=@$(SOURCE_DATE_EPOCH) \
		-I 'gzip -n' -cf $(PARTS)/packed/$(NAME).tar.gz $(NAME)

pack-deb:
	packaging/deb $(VERSION) $(PARTS)

pack-rpm:
	rpmbuild -bb --quiet --build-in-place -D '_topdir $(abspath $(PARTS))' -D '_tmppath %_topdir' \
		-D '_rpmdir %_topdir/packed' -D '_rpmfilename %%{NAME}-%%{VERSION}-%%{RELEASE}.%%{ARCH}.rpm' \
		-D 'version_built $(VERSION)' packaging/krbfile.spec

pack-wheel:
	$(call need,$(SHARED),lib)
	$(call put_project,$(PARTS)/project)
	install -m 644 $(SHARED) $(PARTS)/project/krbfile
	printf '[bdist_wheel]\nplat_name = linux_x86_64\n' > $(PARTS)/project/setup.cfg
	$(PYTHON) -m build --wheel --no-isolation --outdir $(PARTS)/packed $(PARTS)/project

clean:
	rm -rf bin lib samples $(DIST)/$(NAME).tar.gz $(DIST)/$(NAME).*-parts
	rm -f $(foreach name,krbfile krbfile-devel libkrbfile* python3-krbfile,$(foreach kind,deb rpm whl, \
		$(DIST)/$(name)[_-]$(VERSION)[_-]*.$(kind)))

help:
	@sed -n '/^$$/q; s/^# \?//p' Makefile
