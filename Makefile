# make           proves what the program needs, and builds it to build/drain, with build/libdrain.a
# make demo      shows it on the bundled samples, in two minutes; without a proved program it runs the sources unproved
# make library   builds build/libdrain.a alone, for C and Python (docs/LIBRARY.md)
# make install   puts program, man pages, completions for bash, libraries and their header below PREFIX (/usr/local;
#                DESTDIR goes in front), and does make install-companion: the command drain-gis, and drain_gis for
#                Python's import. They need python3-rasterio, -matplotlib, -jinja2, -click and -tqdm to run
# make dist      packs a release for users without the toolchain into build/release (RELEASING.md)
# make deb       packs a .deb there
# make wheel     packs drain-gis for pip there, with the static program and the library in it
# make plugin    packs the plugin for QGIS there
# make same      proves and builds from nothing, and compares with FILE=PROVED of a release
# make test      passes everything: every proof, then side by side the edits of the gate and all tests; with FAST=1 no
#                proof, for a change of Python or documents: the tests run with the build/drain that is there
# make companion-test   passes the companion's tests with build/drain, or with DRAIN=PROGRAM
# make large     runs each command on 100 million cells: 4 GB of disk, 2 GB of memory, some minutes; and drain_gis on
#                30 million cells in memory
# make edits     tries all edits, those that the gate leaves out too; CRATES=".." names the crates (all of them)
# make bench     measures it beside its twins in plain Rust (docs/BENCH.md)
# make clean     drops what these made

# A file that a failed command left in part is no target.
.DELETE_ON_ERROR:

PREFIX ?= /usr/local
CRATES ?=

# The program and its record build/drain.proved, with the library; nothing is done where they fit the sources, by their sums.
build/drain: FORCE
	@tools/build.py $@ build/libdrain.a

build/drain.1: build/drain tools/man_page.py
	@tools/man_page.py build/drain >$@

build/drain.bash: build/drain tools/completions.py
	@tools/completions.py build/drain >$@

build/libdrain.a: FORCE
	@tools/build.py $@

# The program for x86-64-v3, of the same proved sources.
build/drain-v3: FORCE
	@tools/build.py build/drain build/libdrain.a $@

# What gcc links of the proved objects and archive.
build/drain-static: build/drain-v3
	@tools/static_program.sh build/drain $@

build/libdrain.so.0: build/libdrain.a
	@tools/shared_library.sh $< $@

.PHONY: FORCE library demo install install-companion dist deb wheel plugin same test companion-test large edits bench clean

demo:
	@tools/run_demo.sh build/drain

library: build/libdrain.a

install: build/drain build/drain.1 build/drain.bash build/libdrain.so.0 install-companion
	install -D -m 755 build/drain "$(DESTDIR)$(PREFIX)/bin/drain"
	install -D -m 644 build/drain.1 "$(DESTDIR)$(PREFIX)/share/man/man1/drain.1"
	install -D -m 644 build/drain.bash "$(DESTDIR)$(PREFIX)/share/bash-completion/completions/drain"
	install -D -m 644 build/libdrain.a "$(DESTDIR)$(PREFIX)/lib/libdrain.a"
	install -D -m 644 build/libdrain.so.0 "$(DESTDIR)$(PREFIX)/lib/libdrain.so.0"
	ln -sf libdrain.so.0 "$(DESTDIR)$(PREFIX)/lib/libdrain.so"
	install -D -m 644 crates/drain_c/include/drain.h "$(DESTDIR)$(PREFIX)/include/drain.h"

# Where Python looks below PREFIX: for /usr/local and ~/.local on Debian lib/python3.11/dist-packages, site-packages.
install-companion:
	@mkdir -p build
	@cat build/drain.proved build/libdrain.so.0.linked >build/PROVED 2>/dev/null || true
	@tools/put_companion.sh "$(DESTDIR)" "$(PREFIX)" - build/PROVED
	@tools/man_page.py companion/drain-gis >build/drain-gis.1
	install -D -m 644 build/drain-gis.1 "$(DESTDIR)$(PREFIX)/share/man/man1/drain-gis.1"

dist: build/drain-static build/libdrain.so.0
	@tools/dist.sh build/drain build/drain-static build/libdrain.so.0 build/release

deb: build/drain build/libdrain.so.0
	@tools/deb.sh build/drain build/libdrain.so.0 build/release

wheel: build/drain-static build/libdrain.so.0
	@companion/build_wheel.sh build/drain build/drain-static build/libdrain.so.0 build/release

plugin:
	@tools/plugin.py build/release

same:
	@tools/same.sh "$(FILE)"

large: build/drain build/libdrain.so.0
	tests/program/sizes.py build/drain --largest
	cd companion && DRAIN=$(abspath build/drain) /usr/bin/python3 -m pytest -q -p no:cacheprovider -m large tests

edits:
	tools/try_edits.sh $(CRATES)

test:
	FAST=$(FAST) tools/gate.sh

companion-test:
	tests/companion.sh $(or $(DRAIN),build/drain)

bench: build/drain
	bench/run.sh build/drain
	bench/windows.py build/drain

clean:
	rm -rf build crates/*/out
