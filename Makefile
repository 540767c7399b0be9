# Builds, installs and packs ertime: its programs, the C library, the pages and the completions.
#
#     make              proves and builds what isn't built yet
#     make install      into prefix, which is /usr/local
#     make uninstall
#     make dist         a tar archive for machines without the toolchain, in build/dist
#                       (make dist TARGET=aarch64 the one of the C library for that processor, by a cross compiler)
#     make deb          packages for Debian, in build/deb
#     make hex          the package for Erlang and Elixir with the C libraries for both processors, in build/hex (it needs
#                       the cross compiler too)
#     make wasm         the programs as modules for browsers and node, in build/wasm
#     make page         the page to play with time, one file that a browser opens from the disk, in build/page
#     make html         all documents as a site with a search, in build/site
#     make release      checks the version, makes the archive and tags it
#     make prove        proves what has changed since it was built, and builds it
#     make clean        removes build/; what was proved stays
#
# The directories are those of the GNU standards, and DESTDIR stands before each of them.

prefix = /usr/local
exec_prefix = $(prefix)
bindir = $(exec_prefix)/bin
libdir = $(exec_prefix)/lib
includedir = $(prefix)/include
datarootdir = $(prefix)/share
docdir = $(datarootdir)/doc/ertime
mandir = $(datarootdir)/man
pkgconfigdir = $(libdir)/pkgconfig
cmakedir = $(libdir)/cmake/ertime
bashcompletiondir = $(datarootdir)/bash-completion/completions
zshcompletiondir = $(datarootdir)/zsh/site-functions
fishcompletiondir = $(datarootdir)/fish/vendor_completions.d
# gdb looks here for what shows the types of a library, by the path of the library.
gdbdir = $(datarootdir)/gdb/auto-load$(libdir)

# The processor: x86_64, or aarch64, for which the toolchain builds the C library alone.
TARGET = x86_64
ifeq ($(filter $(TARGET),x86_64 aarch64),)
$(error TARGET is x86_64 or aarch64)
endif
is_native = $(filter x86_64,$(TARGET))
CROSS = $(if $(is_native),,$(TARGET)-linux-gnu-)

INSTALL = install
INSTALL_PROGRAM = $(INSTALL)
INSTALL_DATA = $(INSTALL) -m 644
CC = $(if $(is_native),cc,$(CROSS)gcc)
LD = $(CROSS)ld
OBJCOPY = $(CROSS)objcopy
OBJDUMP = $(CROSS)objdump
AR = $(CROSS)ar
PYTHON = python3
# Tells the loader of a library that was installed for this machine itself, where whoever installs may.
LDCONFIG = ldconfig
tell_loader = [ -n '$(DESTDIR)' ] || $(LDCONFIG) 2>/dev/null || :

# What was proved: the programs and the archives of the libraries. `rt ci` and `packaging/prove` leave them there; other places
# can be given. The heap by which the archives call malloc is made from C. The folder of the toolchain has the notices of its
# crates.
KIT = $(patsubst %/bin/rt,%,$(realpath $(shell command -v rt 2>/dev/null)))
ERTIME = crates/ert_cli/out/ert_cli
ERTAUDIT = crates/ert_audit_cli/out/ert_audit_cli
at_target = $(if $(is_native),,$(TARGET)-unknown-linux-gnu/)
ARCHIVE = crates/ert_c/out/$(at_target)libert_c.a
TEXT_ARCHIVE = crates/ert_text/out/$(at_target)libert_text.a
HEAP = $(B)/heap.o

# The version is taken from the header. (.ci/check_documents compares the other places that have it.)
part = $(shell sed -n 's/^.define ERTIME_VERSION_$(1) //p' include/ertime.h)
MAJOR := $(call part,MAJOR)
MINOR := $(call part,MINOR)
VERSION := $(MAJOR).$(MINOR).$(call part,PATCH)

B = build$(if $(is_native),,/$(TARGET))
SONAME = libertime.so.$(MAJOR)
REAL = libertime.so.$(VERSION)
PROGRAMS = $(if $(is_native),ertime ertaudit)
PAGES1 = $(addsuffix .1,$(PROGRAMS))
PAGES3 = ertime.3 ertime_text.3
PAGES5 = $(if $(is_native),ertime-scenario.5 ertime-history.5)
PAGES = $(addprefix $(B)/man/,$(PAGES1) $(PAGES3) $(PAGES5))
EXAMPLES = examples/c/event_loop.c examples/c/idle.c examples/c/seats.c examples/c/repeating.c examples/c/threads.c \
  $(if $(is_native),examples/ertime/timer_expires.json examples/races/two_cancels.json examples/ertaudit/early_expiry.txt)
DOCUMENTS = CHANGELOG.md EMBEDDING.md
HEADERS = ertime.h ertime_tsan.h ertime_text.h
ARCHIVES = libertime.a libertime_text.a
LIBRARIES = $(addprefix $(B)/,$(ARCHIVES) $(REAL))
# Where the modules for browsers go.
W = $(B)/wasm

# The page is made of the programs as a module of WebAssembly (`make wasm`), for which Debian's binaryen is needed:
# without it all else is made.
HAS_PLAYGROUND = $(and $(is_native),$(shell command -v wasm-opt 2>/dev/null))
PLAYGROUND = $(B)/page/ertime.html
PLAYGROUND_SOURCES = packaging/page $(wildcard tools/web/*.mjs tools/web/page/* tools/web/picture/*.mjs tools/playing/*.py) \
  docs/GUIDE.md docs/FORMATS.md docs/scenario.schema.json

.PHONY: all prove pages install install-strip uninstall dist deb hex page html wasm release clean
.DELETE_ON_ERROR:

all: $(if $(is_native),$(ERTIME) $(ERTAUDIT)) $(LIBRARIES) pages $(B)/THIRD-PARTY $(addprefix $(B)/doc/,$(DOCUMENTS)) \
  $(if $(HAS_PLAYGROUND),$(PLAYGROUND))
pages: $(PAGES)
page: $(PLAYGROUND)

# What exists is taken as it is: proofs take long, so none begins because a file has a newer date.
PROVED = crates/ert_cli/out/ert_cli crates/ert_audit_cli/out/ert_audit_cli crates/ert_c/out/libert_c.a \
  crates/ert_text/out/libert_text.a
$(PROVED) &:
	packaging/prove $(filter $(PROVED),$(ERTIME) $(ERTAUDIT) $(ARCHIVE) $(TEXT_ARCHIVE))
.PRECIOUS: $(PROVED)

# Over what was proved, the libraries are built for another processor.
OTHERS = $(foreach it,ert_c ert_text,crates/$(it)/out/aarch64-unknown-linux-gnu/lib$(it).a)
$(OTHERS):
	.ci/build_archive --crate $(patsubst lib%.a,%,$(@F)) aarch64-unknown-linux-gnu
.PRECIOUS: $(OTHERS)

$(B)/heap.o: packaging/heap.c
	mkdir -p $(B)
	$(CC) -std=c11 -O2 -Wall -Wextra -Werror -fPIC -c $< -o $@

prove:
	packaging/prove --anew $(PROVED)

# The functions of a header. No other name of its library can be seen from outside.
$(B)/%.symbols: include/%.h
	mkdir -p $(B)
	sed -n 's/^u\{0,1\}int32_t \(ert_[a-z_]*\)(.*/\1/p' $< >$@

# A library's code in one section, and of the one for timers the tables by which a backtrace goes on through it.
$(B)/ertime.bare.o: $(ARCHIVE)
$(B)/ertime_text.bare.o: $(TEXT_ARCHIVE)
$(B)/ertime.bare.o $(B)/ertime_text.bare.o: packaging/text.ld
	mkdir -p $(B)
	$(LD) -r -T packaging/text.ld --whole-archive $(filter %.a,$^) -o $@

$(B)/unwind.o: $(B)/ertime.bare.o packaging/unwind
	$(PYTHON) packaging/unwind --objdump '$(OBJDUMP)' $< >$(B)/unwind.s
	$(CC) -c $(B)/unwind.s -o $@

# A library's archive and the heap as one object, in which every other name is local. The linker takes the tables as they
# are: it would ask that those of an object stand in it.
OBJECTS = $(B)/ertime.o $(B)/ertime_text.o
$(B)/ertime.o: $(if $(is_native),$(B)/unwind.o)
$(OBJECTS): $(B)/%.o: $(B)/%.bare.o $(B)/%.symbols $(HEAP)
	$(LD) -r --traditional-format --whole-archive $(filter %bare.o %unwind.o,$^) $(HEAP) -o $@
	$(OBJCOPY) --keep-global-symbols=$(B)/$*.symbols $@
.SECONDARY: $(OBJECTS) $(OBJECTS:.o=.bare.o) $(B)/unwind.o

$(B)/lib%.a: $(B)/%.o
	rm -f $@
	$(AR) rcsD $@ $<

$(B)/$(REAL): $(B)/ertime.o
	$(CC) -shared -Wl,-soname,$(SONAME) -Wl,-z,defs -Wl,-z,relro -Wl,-z,now $(LDFLAGS) -o $@ $<

# The commands over texts as modules for browsers and node, with what loads them. Not proved: packaging/wasm/build tells
# how they are made, and .ci/check_wasm compares them with the programs.
wasm: $(W)/ertime.wasm $(W)/ertime.mjs
$(W)/ertime.wasm: crates/ert_text/out/libert_text.a $(wildcard packaging/wasm/*)
	[ -f $(dir $<)module.bc ] || .ci/build_archive --crate ert_text
	packaging/wasm/build $(W)
$(W)/ertime.mjs: tools/web/ertime.mjs
	mkdir -p $(W)
	cp $< $@

$(B)/man/%: man/%.in man/render docs/FORMATS.md $(addprefix include/,$(HEADERS))
	mkdir -p $(B)/man
	$(PYTHON) man/render --version $(VERSION) $< >$@

# A document by itself: a link to another file of the repository becomes its text.
$(B)/doc/CHANGELOG.md: CHANGELOG.md
$(B)/doc/EMBEDDING.md: docs/EMBEDDING.md
$(addprefix $(B)/doc/,$(DOCUMENTS)):
	mkdir -p $(B)/doc
	sed -E 's/!?\[([^]]*)\]\((\.\.\/)*[A-Za-z_]+(\.md|\/)[^)]*\)/\1/g' $< >$@

$(B)/THIRD-PARTY: packaging/notices crates.txt
	mkdir -p $(B)
	$(PYTHON) packaging/notices $(KIT) >$@

$(PLAYGROUND): $(W)/ertime.wasm $(B)/THIRD-PARTY LICENSE $(PLAYGROUND_SOURCES)
	mkdir -p $(@D)
	$(PYTHON) packaging/page $< $(B)/THIRD-PARTY $(VERSION) $@

# A path below the prefix as pkg-config writes it, and a path as seen from the folder of the CMake file.
pc_prefix = $(prefix)
below = $(patsubst $(prefix)/%,$${prefix}/%,$(1))
from_cmake = $(shell realpath -m --relative-to='$(cmakedir)' '$(1)')
FILL = sed -e 's|@VERSION@|$(VERSION)|' -e 's|@TARGET@|$(TARGET)|' -e 's|@MAJOR@|$(MAJOR)|' -e 's|@MINOR@|$(MINOR)|'

PKGCONFIG = ertime.pc ertime_text.pc
in = $(foreach it,$(2),"$(DESTDIR)$($(1))/$(it)")

D1 = $(DESTDIR)$(mandir)/man1
D3 = $(DESTDIR)$(mandir)/man3
D5 = $(DESTDIR)$(mandir)/man5

install: all
	$(INSTALL) -d "$(DESTDIR)$(includedir)" "$(DESTDIR)$(libdir)" "$(DESTDIR)$(pkgconfigdir)" "$(DESTDIR)$(cmakedir)" \
	  "$(D3)" "$(DESTDIR)$(docdir)/examples" "$(DESTDIR)$(gdbdir)" $(if $(PROGRAMS),"$(DESTDIR)$(bindir)" "$(D1)" "$(D5)" \
	  "$(DESTDIR)$(bashcompletiondir)" "$(DESTDIR)$(zshcompletiondir)" "$(DESTDIR)$(fishcompletiondir)")
ifneq ($(PROGRAMS),)
	$(INSTALL_PROGRAM) $(ERTIME) "$(DESTDIR)$(bindir)/ertime"
	$(INSTALL_PROGRAM) $(ERTAUDIT) "$(DESTDIR)$(bindir)/ertaudit"
	$(INSTALL_DATA) $(addprefix $(B)/man/,$(PAGES1)) "$(D1)"
	$(INSTALL_DATA) $(addprefix $(B)/man/,$(PAGES5)) "$(D5)"
	for it in $(PROGRAMS); do \
	  $(INSTALL_DATA) completions/$$it.bash "$(DESTDIR)$(bashcompletiondir)/$$it" && \
	  $(INSTALL_DATA) completions/_$$it "$(DESTDIR)$(zshcompletiondir)" && \
	  $(INSTALL_DATA) completions/$$it.fish "$(DESTDIR)$(fishcompletiondir)" || exit; \
	done
	$(INSTALL_DATA) docs/scenario.schema.json $(if $(HAS_PLAYGROUND),$(PLAYGROUND)) "$(DESTDIR)$(docdir)"
	@$(if $(HAS_PLAYGROUND),:,echo 'There is no wasm-opt (binaryen), so the page to play with time is left out.' >&2)
endif
	$(INSTALL_DATA) $(addprefix include/,$(HEADERS)) "$(DESTDIR)$(includedir)"
	$(INSTALL_DATA) $(LIBRARIES) "$(DESTDIR)$(libdir)"
	ln -sf $(REAL) "$(DESTDIR)$(libdir)/$(SONAME)"
	ln -sf $(SONAME) "$(DESTDIR)$(libdir)/libertime.so"
	for it in $(PKGCONFIG); do \
	  $(FILL) -e 's|@prefix@|$(pc_prefix)|' -e 's|@libdir@|$(call below,$(libdir))|' \
	    -e 's|@includedir@|$(call below,$(includedir))|' packaging/$$it.in >"$(DESTDIR)$(pkgconfigdir)/$$it" || exit; \
	done
	$(FILL) -e 's|@libdir@|$(call from_cmake,$(libdir))|' -e 's|@includedir@|$(call from_cmake,$(includedir))|' \
	  packaging/ertime-config.cmake.in >"$(DESTDIR)$(cmakedir)/ertime-config.cmake"
	$(FILL) packaging/ertime-config-version.cmake.in >"$(DESTDIR)$(cmakedir)/ertime-config-version.cmake"
	chmod 644 $(call in,pkgconfigdir,$(PKGCONFIG)) "$(DESTDIR)$(cmakedir)"/*.cmake
	$(INSTALL_DATA) $(addprefix $(B)/man/,$(PAGES3)) "$(D3)"
	$(INSTALL_DATA) tools/gdb/ertime.py "$(DESTDIR)$(gdbdir)/$(REAL)-gdb.py"
	$(INSTALL_DATA) LICENSE $(B)/THIRD-PARTY $(addprefix $(B)/doc/,$(DOCUMENTS)) "$(DESTDIR)$(docdir)"
	$(INSTALL_DATA) $(EXAMPLES) "$(DESTDIR)$(docdir)/examples"
	$(tell_loader)

install-strip:
	$(MAKE) INSTALL_PROGRAM='$(INSTALL_PROGRAM) -s' install

# Removes the files, and then the folders that held them and are empty, up to the prefix.
FOLDERS = $(bindir) $(includedir) $(pkgconfigdir) $(cmakedir) $(libdir) $(mandir)/man1 $(mandir)/man3 $(mandir)/man5 \
  $(docdir)/examples $(docdir) $(bashcompletiondir) $(zshcompletiondir) $(fishcompletiondir) $(gdbdir)
uninstall:
	rm -f $(call in,bindir,$(PROGRAMS)) $(call in,includedir,$(HEADERS)) $(call in,pkgconfigdir,$(PKGCONFIG))
	rm -f $(call in,libdir,$(ARCHIVES) libertime.so $(SONAME) $(REAL))
	rm -f $(call in,mandir,$(addprefix man1/,$(PAGES1)) $(addprefix man3/,$(PAGES3)) $(addprefix man5/,$(PAGES5)))
	rm -f $(call in,bashcompletiondir,$(PROGRAMS)) $(call in,zshcompletiondir,$(addprefix _,$(PROGRAMS)))
	rm -f $(call in,fishcompletiondir,$(addsuffix .fish,$(PROGRAMS)))
	rm -f $(call in,cmakedir,ertime-config.cmake ertime-config-version.cmake)
	rm -f $(call in,gdbdir,$(REAL)-gdb.py)
	rm -f $(call in,docdir,LICENSE THIRD-PARTY scenario.schema.json ertime.html $(DOCUMENTS) $(addprefix examples/,$(notdir $(EXAMPLES))))
	for at in $(FOLDERS); do \
	  while [ "$$at" != '$(prefix)' ] && [ "$$at" != / ] && { [ ! -e '$(DESTDIR)'"$$at" ] || rmdir '$(DESTDIR)'"$$at" 2>/dev/null; }; do \
	    at=$$(dirname "$$at"); \
	  done; \
	done
	$(tell_loader)

# A tar archive that can be unpacked anywhere. Its files are the same whenever it is made from the same commit.
NAME = ertime-$(VERSION)-$(TARGET)-linux
EPOCH = $(or $(SOURCE_DATE_EPOCH),$(shell git log -1 --format=%ct 2>/dev/null),0)
dist: all
	rm -rf $(B)/dist
	$(MAKE) install DESTDIR='$(abspath $(B))/dist/$(NAME)' prefix= exec_prefix= pc_prefix='$$$${pcfiledir}/../..'
	$(FILL) $(if $(is_native),packaging/README.dist,packaging/README.library) >$(B)/dist/$(NAME)/README
	cd $(B)/dist/$(NAME) && find . -type f ! -name SHA256SUMS -print0 | LC_ALL=C sort -z | xargs -0 sha256sum >SHA256SUMS
	cd $(B)/dist && tar --sort=name --owner=0 --group=0 --numeric-owner --mtime=@$(EPOCH) -cf - $(NAME) | gzip -9n >$(NAME).tar.gz
	cd $(B)/dist && sha256sum $(NAME).tar.gz >$(NAME).tar.gz.sha256
	rm -r $(B)/dist/$(NAME)
	@echo "$(B)/dist/$(NAME).tar.gz"

# Debian's packages of what was built here: ertime, libertime$(MAJOR) and libertime-dev.
DEB = $(B)/deb/ertime-$(VERSION)
deb: all
	@command -v dpkg-buildpackage dh >/dev/null || { echo 'make deb needs the packages dpkg-dev and debhelper'; exit 1; }
	rm -rf $(B)/deb
	mkdir -p $(DEB)
	cp -R packaging/debian $(DEB)/debian
	$(FILL) -e "s|@DATE@|$$(date -u -R -d @$(EPOCH))|" packaging/debian/changelog.in >$(DEB)/debian/changelog
	rm $(DEB)/debian/changelog.in
	cat $(B)/THIRD-PARTY >>$(DEB)/debian/copyright
	$(if $(HAS_PLAYGROUND),,sed -i '/ertime.html/d' $(DEB)/debian/ertime.install)
	$(MAKE) install DESTDIR='$(abspath $(DEB))/installed' prefix=/usr libdir=/usr/lib/x86_64-linux-gnu \
	  zshcompletiondir=/usr/share/zsh/vendor-completions
	cd $(DEB) && SOURCE_DATE_EPOCH=$(EPOCH) dpkg-buildpackage -b -us -uc -nc -d
	@ls $(B)/deb/*.deb

# The libraries for aarch64 are made by another run of make, in a folder below, of what was built for it.
TO_HEX = $(addprefix $(B)/,$(ARCHIVES) $(addprefix aarch64/,$(ARCHIVES)))
hex: $(addprefix $(B)/,$(ARCHIVES)) $(B)/THIRD-PARTY
	$(MAKE) TARGET=aarch64 B=$(B)/aarch64 ARCHIVE=$(firstword $(OTHERS)) TEXT_ARCHIVE=$(lastword $(OTHERS)) \
	  HEAP=$(B)/aarch64/heap.o $(filter $(B)/aarch64/%,$(TO_HEX))
	$(PYTHON) packaging/hex $(B)/hex $(B)/THIRD-PARTY $(TO_HEX)

# All documents, the contracts and definitions of each crate, the pages and the references as a site, with the page to play with time where it is built or its proved
# crate is there. Nothing is proved for it. The search needs a server: `python3 -m http.server -d build/site` is one.
IN_SITE = $(or $(wildcard $(PLAYGROUND)),$(and $(HAS_PLAYGROUND),$(wildcard crates/ert_text/out/libert_text.a)))
html: pages $(if $(IN_SITE),$(PLAYGROUND))
	$(PYTHON) packaging/site $(B)/site $(B)/man $(if $(IN_SITE),$(PLAYGROUND))

# One version everywhere, with its changes told and nothing left to commit; then the archive and the tag.
release:
	$(PYTHON) packaging/release --check
	$(MAKE) dist
	$(PYTHON) packaging/release --tag

clean:
	rm -rf $(B)
