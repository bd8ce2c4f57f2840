# A release without the prover, from the archive that `tools/build.sh suontarvi` writes (or the one in SUONTARVI_LIB).
#
#   make                    library, tool, manual pages and completions, in target/release
#   make check              tests of C, Rust and Python, and of a release in a clean root
#   make dist               dist/: the tarball of all, the wheel, and their sums
#   make install PREFIX=P   and `make uninstall PREFIX=P`; DESTDIR is put before P
PREFIX ?= /usr/local
SUONTARVI_LIB ?= target/staticlib
CC ?= cc
CARGO ?= cargo
PYTHON ?= /usr/bin/python3
SHELL = /bin/bash -eu -o pipefail

archive = $(SUONTARVI_LIB)/libsuontarvi.a
version := $(shell sed -n 's/^\#define SUONTARVI_VERSION "\(.*\)"/\1/p' include/suontarvi.h)
major := $(word 1,$(subst ., ,$(version)))
minor := $(word 2,$(subst ., ,$(version)))
made = target/release
name = suontarvi-$(version)-linux-x86_64
shared = libsuontarvi.so.$(version)
soname = libsuontarvi.so.$(major)
filled = sed -e 's/@VERSION@/$(version)/g' -e 's/@MAJOR@/$(major)/g' -e 's/@MINOR@/$(minor)/g'
# programs of the text files, if `tools/build.sh` has made them
programs = $(wildcard target/bin/ties target/bin/pairs)
pages = $(addprefix $(made)/,suontarvi.1 ties.1 pairs.1)
configs = $(addprefix $(made)/,suontarvi.pc suontarvi-config.cmake suontarvi-config-version.cmake)
completions = $(addprefix $(made)/,suontarvi.bash _suontarvi suontarvi.fish)

# the path of the archive that was used last: another one makes new files, however old it is
used = $(made)/archive

all: $(made)/$(shared) $(made)/suontarvi $(pages) $(configs) $(completions)

$(archive):
	@echo "$(archive) is not there: run \`tools/build.sh suontarvi\`, or set SUONTARVI_LIB" >&2; exit 1

$(used): always
	@mkdir -p $(made)
	@echo '$(abspath $(archive))' | cmp -s - $@ || echo '$(abspath $(archive))' > $@

$(made)/$(shared): $(archive) $(used) release/suontarvi.map
	@mkdir -p $(made)
	$(CC) -shared -Wl,-soname,$(soname) -Wl,--version-script=release/suontarvi.map -Wl,-z,defs -Wl,-z,relro,-z,now \
	    -Wl,--whole-archive $(archive) -Wl,--no-whole-archive -o $@

# with the C library in it, so that it runs on every Linux of its kind
$(made)/suontarvi: $(archive) $(used) $(shell find host/src host/build.rs host/Cargo.toml -type f)
	@mkdir -p $(made)
	SUONTARVI_LIB=$(abspath $(SUONTARVI_LIB)) RUSTFLAGS='-C target-feature=+crt-static -C strip=symbols' \
	    CARGO_TARGET_DIR=target/release-cargo $(CARGO) build --release --quiet --offline --bin suontarvi \
	    --target x86_64-unknown-linux-gnu --manifest-path host/Cargo.toml
	install -m 755 target/release-cargo/x86_64-unknown-linux-gnu/release/suontarvi $@

$(made)/suontarvi.1: $(made)/suontarvi release/manual.py
	$(made)/suontarvi --help | $(PYTHON) release/manual.py suontarvi $(version) \
	    'matching and scaling of sparse matrices' > $@

$(made)/ties.1 $(made)/pairs.1: $(made)/%.1: release/%.txt release/manual.py
	@mkdir -p $(made)
	$(PYTHON) release/manual.py $* $(version) 'the match of a tie file' < $< > $@

$(configs): $(made)/%: release/%.in include/suontarvi.h
	@mkdir -p $(made)
	$(filled) $< > $@

$(completions) &: $(made)/suontarvi release/completions.py
	$(made)/suontarvi --help | $(PYTHON) release/completions.py $(made)

# a new file in the place of the old one, which a program may have mapped
target/python/libsuontarvi.so: $(made)/$(shared)
	@mkdir -p target/python
	install -m 755 $< $@

check: dist target/python/libsuontarvi.so
	release/easy.sh
	release/failures.sh
	SUONTARVI_LIB=$(abspath $(SUONTARVI_LIB)) $(CARGO) test --release --quiet --offline --manifest-path host/Cargo.toml
	$(PYTHON) python/test_suontarvi.py
	release/clean_root.sh

root = $(DESTDIR)$(PREFIX)
installed = bin/suontarvi bin/ties bin/pairs lib/libsuontarvi.a lib/libsuontarvi.so lib/$(soname) lib/$(shared) \
    lib/pkgconfig/suontarvi.pc lib/cmake/suontarvi/suontarvi-config.cmake \
    lib/cmake/suontarvi/suontarvi-config-version.cmake include/suontarvi.h include/suontarvi_easy.h \
    share/man/man1/suontarvi.1 share/man/man1/ties.1 share/man/man1/pairs.1 \
    share/bash-completion/completions/suontarvi share/zsh/site-functions/_suontarvi \
    share/fish/vendor_completions.d/suontarvi.fish share/doc/suontarvi/LICENSE share/doc/suontarvi/NOTICE \
    share/doc/suontarvi/CHANGELOG.md share/doc/suontarvi/README.md

install: all
	install -d $(addprefix $(root)/,$(sort $(dir $(installed))))
	install -m 755 $(made)/suontarvi $(programs) $(root)/bin
	install -m 644 $(archive) $(root)/lib
	install -m 755 $(made)/$(shared) $(root)/lib
	ln -sf $(shared) $(root)/lib/$(soname)
	ln -sf $(soname) $(root)/lib/libsuontarvi.so
	install -m 644 include/suontarvi.h include/suontarvi_easy.h $(root)/include
	install -m 644 $(made)/suontarvi.pc $(root)/lib/pkgconfig
	install -m 644 $(made)/suontarvi-config.cmake $(made)/suontarvi-config-version.cmake $(root)/lib/cmake/suontarvi
	install -m 644 $(pages) $(root)/share/man/man1
	install -m 644 $(made)/suontarvi.bash $(root)/share/bash-completion/completions/suontarvi
	install -m 644 $(made)/_suontarvi $(root)/share/zsh/site-functions
	install -m 644 $(made)/suontarvi.fish $(root)/share/fish/vendor_completions.d
	install -m 644 LICENSE NOTICE CHANGELOG.md README.md $(root)/share/doc/suontarvi

uninstall:
	rm -f $(addprefix $(root)/,$(installed))
	rmdir $(root)/share/doc/suontarvi $(root)/lib/cmake/suontarvi 2> /dev/null || true

dist: all
	rm -rf dist
	mkdir -p dist
	$(MAKE) --no-print-directory install DESTDIR=dist PREFIX=/$(name) > /dev/null
	$(PYTHON) release/wheel.py $(version) $(made)/$(shared) dist
	cp dist/*.whl dist/$(name)
	cd dist/$(name) && find . -type f -printf '%P\n' | LC_ALL=C sort | xargs sha256sum > ../sums && mv ../sums SHA256SUMS
	tar -C dist --sort=name --mtime=@0 --owner=0 --group=0 --numeric-owner -cf - $(name) | gzip -n9 > dist/$(name).tar.gz
	rm -r dist/$(name)
	cd dist && sha256sum *.tar.gz *.whl > SHA256SUMS
	@tar -tvzf dist/$(name).tar.gz | awk '{ print $$3, $$6, $$7, $$8 }'
	@cd dist && wc -c * | awk '{ print $$1, $$2 }'

clean:
	rm -rf $(made) target/release-cargo dist

always:

.PHONY: all always check install uninstall dist clean
.DELETE_ON_ERROR:
