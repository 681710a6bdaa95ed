# Installs the proved program, its manual page, a completion for bash, the Python package, pages, examples and file types
# for editors: make install PREFIX=/usr/local DESTDIR=. `make deb` makes a package of the same for Debian in build/.
# The program is proved and built first, where it is not yet (./bee); PROGRAM names another one.
PREFIX ?= /usr/local
DESTDIR ?=
PROGRAM ?= crates/bee/out/bee
BUILD ?= build
VERSION ?= 0.$(shell git rev-list --count HEAD 2>/dev/null || echo 0)
at = $(DESTDIR)$(PREFIX)
put = install -m 644 -D -t

.PHONY: all install uninstall deb pages check clean
all: $(PROGRAM)

crates/bee/out/bee: FORCE
	./bee queens 8 >/dev/null

install: $(PROGRAM)
	install -D $(PROGRAM) $(at)/bin/bee
	mkdir -p $(at)/share/man/man1 $(at)/share/bash-completion/completions
	python3 tools/manual.py man | gzip -9n >$(at)/share/man/man1/bee.1.gz
	python3 tools/manual.py bash >$(at)/share/bash-completion/completions/bee
	$(put) $(at)/lib/python3/dist-packages/beemodel python/beemodel/*.py python/beemodel/py.typed
	$(put) $(at)/share/doc/bee README.md CHANGELOG.md docs/*.md
	$(put) $(at)/share/doc/bee/examples examples/*.bee examples/*.opb
	$(put) $(at)/share/doc/bee/examples/python python/examples/*.py
	$(put) $(at)/share/vim/vimfiles/syntax share/vim/syntax/bee.vim
	$(put) $(at)/share/vim/vimfiles/ftdetect share/vim/ftdetect/bee.vim
	$(put) $(at)/share/textmate share/textmate/bee.tmLanguage.json

uninstall:
	rm -f $(at)/bin/bee $(at)/share/man/man1/bee.1.gz $(at)/share/bash-completion/completions/bee
	rm -rf $(at)/lib/python3/dist-packages/beemodel $(at)/share/doc/bee
	rm -f $(at)/share/vim/vimfiles/syntax/bee.vim $(at)/share/vim/vimfiles/ftdetect/bee.vim
	rm -f $(at)/share/textmate/bee.tmLanguage.json

deb: $(PROGRAM)
	rm -rf $(BUILD)/deb
	$(MAKE) install PREFIX=/usr DESTDIR=$(BUILD)/deb PROGRAM=$(PROGRAM)
	mkdir -p $(BUILD)/deb/DEBIAN
	sed 's/@VERSION@/$(VERSION)/' share/debian/control >$(BUILD)/deb/DEBIAN/control
	dpkg-deb --build --root-owner-group $(BUILD)/deb $(BUILD)/bee_$(VERSION)_amd64.deb

# Pages and tables that scripts make of the code and of results.
pages:
	python3 tools/crates_page.py
	python3 tools/places.py --write
	python3 tools/results.py

# What .ci/run compares behind the proofs.
check:
	python3 -B -m unittest discover -s tools

clean:
	rm -rf $(BUILD)

FORCE:
