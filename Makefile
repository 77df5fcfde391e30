# Builds, proves and checks; `make help` lists the targets. Works with GNU make and with bmake.
.POSIX:
.NOTPARALLEL:

# The compiler that the environment names, or else the first that is installed.
CC != echo $${CC:-$$(for name in cc gcc clang tcc; do command -v $$name >/dev/null && echo $$name && break; done)}
CFLAGS = -O2
PREFIX = $(HOME)/.local
LIBDIR = lib
# Archives have the time of the last change, so that making them twice gives the same bytes.
TIME != echo $${SOURCE_DATE_EPOCH:-$$(git log -1 --format=%at 2>/dev/null || date -r CHANGELOG.md +%s)}
export SOURCE_DATE_EPOCH=$(TIME)
# The scripts get the folder from the environment, where quotes in its name are harmless.
export TRAC_PREFIX=$(PREFIX)
export TRAC_TO=$(DESTDIR)$(PREFIX)
# Debian's own Python has Debian's packages of pytest and Selenium. For the page any Python will do.
PYTHON != command -v /usr/bin/python3 || echo python3
VERSION != cat VERSION
SOURCES != find crates.txt crates -name out -prune -o -type f \( -name '*.rt' -o -name '*.antt' -o \
    -name crates.txt \) -print
PAGE != find hosts/page hosts/js examples docs/EXERCISES.md docs/LANGUAGE.md docs/LESSON.md -type f ! -name '*.pyc'
# The crates whose edits `make edits` tries: those that the gate leaves out.
CRATES != ls further-edits

RT = $(PYTHON) checks/progress.py
PYTEST = $(PYTHON) -m pytest -q -n auto --dist loadfile

TERMINAL = hosts/c/terminal.c hosts/c/calls.c hosts/c/listing.c hosts/c/loading.c hosts/c/replacing.c hosts/c/saving.c \
    hosts/c/suspicions.c hosts/c/texts.c hosts/c/typing.c
TRACER = hosts/c/trace.c hosts/c/calls.c hosts/c/listing.c hosts/c/suspicions.c hosts/c/texts.c
# libedit edits lines, if it is installed.
EDITING = -DWITH_LIBEDIT -ledit
# A file is made under another name, and renamed when it is complete and on the disk. So nothing uses an incomplete file
# that a kill, a full disk or lost power leaves.
NEW = $@.$$$$
DONE = sync $(NEW) && mv -f $(NEW) $@

# The engine in units that take about as long to compile, and are compiled in parallel. A run needs the first four.
RUN_UNITS = build/units/1.o build/units/2.o build/units/3.o build/units/4.o
CHECK_UNITS = build/units/5.o build/units/6.o build/units/7.o
UNITS = $(RUN_UNITS) $(CHECK_UNITS)
COMPILE = compile() { \
    file=build/units/$$1.o && $(CC) -std=c11 $(CPPFLAGS) $(CFLAGS) $$2 -fPIC -ffunction-sections -DTRAC_EXPORT \
        -DTRAC_UNIT=$$1 -c -o $$file.$$$$ hosts/c/trac_engine.c && sync $$file.$$$$ && \
    mv -f $$file.$$$$ $$file; }
WAIT = for process in $$started; do wait $$process || exit; done
# In trac_check one function has three thousand lines. gcc compiles it in half the time with -O1, and as well.
CHECK_CFLAGS = -O1
# The name of the shared library has the part of the version by which trac_abi refuses a program: all but the patch.
ABI != cut -d . -f 1,2 VERSION
SHARED = build/libtrac.so.$(ABI)

all: build/trac build/trac_terminal build/trac_trace

# The times are for four cores, with nothing built or proved yet.
help:
	@sed -n 's/^## //p' Makefile

## make            the programs in C, build/trac, build/trac_terminal and build/trac_trace (a C compiler; 6 seconds)
build/trac: hosts/c/trac.c hosts/c/words.h $(RUN_UNITS)
	$(CC) -std=c11 $(CPPFLAGS) $(CFLAGS) $(LDFLAGS) -o $(NEW) hosts/c/trac.c $(RUN_UNITS) && $(DONE)

# The launcher regards these as out of date if any file of hosts/c is newer.
build/trac_terminal: hosts/c/*.[ch] $(UNITS)
	{ $(CC) -std=c11 $(CPPFLAGS) $(CFLAGS) $(LDFLAGS) -o $(NEW) $(TERMINAL) $(UNITS) $(EDITING) 2>/dev/null || \
	    $(CC) -std=c11 $(CPPFLAGS) $(CFLAGS) $(LDFLAGS) -o $(NEW) $(TERMINAL) $(UNITS); } && $(DONE)

build/trac_trace: hosts/c/*.[ch] $(UNITS)
	$(CC) -std=c11 $(CPPFLAGS) $(CFLAGS) $(LDFLAGS) -o $(NEW) $(TRACER) $(UNITS) && $(DONE)

## make prove      the proved program, crates/trac_cli/out/trac_cli (the Rattle kit; 12 minutes)
prove: crates/trac_cli/out/trac_cli

crates/trac_cli/out/trac_cli crates/trac_trace/out/trac_trace: $(SOURCES)
	@$(RT) $(@F) rt run
	touch $@

programs: prove crates/trac_trace/out/trac_trace

## make check      all that needs no kit, over the programs in C (Debian's packages, which it installs; 5 minutes)
check: check-tools all build/libtrac.a $(SHARED) page npm
	$(PYTEST) -m 'not timed' checks --ignore checks/proved --ignore checks/machines

## make check-machines  the engine in C on six other processors (emulators, which it installs; 6 minutes)
check-machines: check-tools
	@checks/tools machines
	$(PYTEST) --dist load checks/machines

## make test       the gate: all checks, proofs, tests and edits (the kit, Debian's packages; 45 minutes)
test:
	@checks/gate check check-machines proofs check-proved check-timed

# `rt lib` uses nothing that `rt ci` proves. If nothing was proved yet, a copy of the tree proves and builds the
# libraries in parallel, with the processors that `rt ci` leaves idle.
proofs:
	@copy=$$(mktemp -d) && trap 'kill -- "-$$!" 2>/dev/null || :; rm -rf "$$copy"' EXIT && \
	    trap 'exit 130' HUP INT TERM && status=0 && \
	    if [ ! -d crates/trac_c/out ]; then \
	        tar -cf - --exclude=.git --exclude=out --exclude=./build --exclude=./dist . | tar -xf - -C "$$copy" && \
	        { setsid nice -n 19 make -C "$$copy" libraries >"$$copy/said" 2>&1 & }; \
	    fi; \
	    $(RT) . rt ci || status=$$?; [ ! -f "$$copy/said" ] || tail -n +1 -f --pid="$$!" "$$copy/said"; \
	    [ ! -f "$$copy/dist/libtrac.a" ] || { rm -rf crates/*/out/rlib && \
	        (cd "$$copy" && tar -cf - build dist crates/*/out/rlib crates/trac_c/out) | tar -xf -; }; exit "$$status"

check-proved: check-tools programs dist
	$(PYTEST) checks/proved
	$(PYTHON) bench/bench.py --smoke

# Checks that measure time run alone.
check-timed: check-tools page
	$(PYTEST) -n 0 -m timed checks/test_page*.py

## make edits      the edits that the gate leaves out; CRATES='trac_space ..' names some (the kit; not timed)
edits:
	@copy=$$(mktemp -d) && trap 'rm -rf "$$copy"' EXIT && \
	    cp -a crates crates.txt HANDLES "$$copy" && rm -f "$$copy"/crates/*/must-fail/*.edit && \
	    for crate in $(CRATES); do \
	        mkdir -p "$$copy/crates/$$crate/must-fail" && \
	        cp further-edits/$$crate/*.edit "$$copy/crates/$$crate/must-fail" || exit; \
	    done && cd "$$copy" && printf '%s\n' $(CRATES) | xargs -n 1 -P "$$(nproc)" rt must-fail

## make new-function  tries ARCHITECTURE's way to add a function, in a copy of the tree (the kit; 20 minutes)
new-function: check-tools
	$(PYTHON) checks/new_function.py

## make format     the sources and proofs of the crates as rt fmt writes them, which rt ci wants (the kit; seconds)
format:
	@for crate in crates/*; do (cd "$$crate" && rt fmt) || exit; done

## make generate   hosts/c/trac_engine.c and hosts/wasm/trac.wasm anew (the kit, Python, binaryen, wabt; 15 minutes)
generate: format
	hosts/c/generate

## make rust       the crate for Rust, hosts/rust, anew from the sources of the crates (Python; a second)
rust:
	hosts/rust/generate

## make rows       the tests' scripts that were worked by hand, rows.rt, anew from checks/rows.txt (Python; a second)
rows:
	$(PYTHON) checks/worked_rows.py

## make editors    the functions' names in editors/ and for the fuzzers, by the engine's table (a C compiler; 5 seconds)
editors: $(SHARED)
	$(PYTHON) checks/function_names.py $(SHARED)

# The part of dist/ that the kit makes, if there is a kit.
PROVED != ! command -v rt >/dev/null || echo programs dist/libtrac.a

## make dist       what is handed out, in dist/; the kit makes what is proved (what make check needs; 25 minutes)
dist: $(PROVED) all build/libtrac.a $(SHARED) page npm dist/trac_t64-$(VERSION).tar.gz dist/trac.pdf
	rm -rf dist/trac dist/trac_trace dist/doc dist/npm
	cp docs/*.[0-9] hosts/c/trac.h hosts/c/trac.c hosts/c/words.h hosts/c/trac_engine.c build/trac.html dist
	cp -p build/trac_terminal build/trac_trace dist && cp -R build/npm dist
	@if [ -n "$(PROVED)" ]; then \
	    cp -p crates/trac_trace/out/trac_trace dist && cp -p crates/trac_cli/out/trac_cli dist/trac; \
	else \
	    rm -f dist/libtrac.a && \
	    echo 'dist: trac and libtrac.a are missing: they are proved and built by the Rattle kit' >&2; \
	fi
	@stage=$$(mktemp -d) && trap 'rm -rf "$$stage"' EXIT && hosts/system/stage "$$stage/all" /usr/local lib && \
	    cp -R "$$stage/all/share/doc/trac-t64" dist/doc
	@# The lines about missing files are left out.
	sed 's/@VERSION@/$(VERSION)/' hosts/system/README.in | awk '/^[a-z]/ { name = $$1; sub(",", "", name); \
	    missing = system("test -e dist/" name) } !missing' >dist/README

# The proved library: its exports are hidden behind the functions of trac.h.
dist/libtrac.a: $(SOURCES) hosts/c/proved.c hosts/c/api.c hosts/c/trac.h
	mkdir -p build dist
	@$(RT) trac_c rt lib
	$(CC) -std=c11 $(CFLAGS) -fPIC -c -o build/proved.o hosts/c/proved.c
	ld -r -o build/libtrac.o build/proved.o --whole-archive crates/trac_c/out/libtrac_c.a
	objcopy -w --keep-global-symbol='trac_[!e]*' build/libtrac.o
	rm -f $(NEW) && ar rcs $(NEW) build/libtrac.o && $(DONE)

# The same library for browsers too, from which hosts/c/generate makes its files.
libraries: dist/libtrac.a
	@$(RT) trac_c rt lib --target wasm64-unknown-unknown

## make page       build/trac.html, which steps through a script in any browser (any Python; a second)
page: build/trac.html

build/trac.html: hosts/wasm/trac.wasm $(PAGE) VERSION
	mkdir -p build
	$(PYTHON) hosts/page/make.py hosts/wasm/trac.wasm $(VERSION) $(NEW) && $(DONE)

## make npm        build/npm, the package for JavaScript in browsers and Node (a shell; a second)
npm: build/npm/package.json

build/npm/package.json: hosts/wasm/trac.wasm hosts/js/*.* VERSION
	mkdir -p build/npm
	cp hosts/wasm/trac.wasm hosts/js/README.md hosts/js/trac.d.mts build/npm
	sed 's/@VERSION@/$(VERSION)/' hosts/js/trac.mjs >build/npm/trac.mjs
	sed 's/"version": "[^"]*"/"version": "$(VERSION)"/' hosts/js/package.json >$(NEW) && $(DONE)

# The package for Python, as an archive from which pip builds it.
dist/trac_t64-$(VERSION).tar.gz: hosts/c/trac.h hosts/c/trac_engine.c hosts/python/*.* hosts/python/trac_t64/*.*
	mkdir -p build dist
	top=$$(pwd) && cd hosts/python && $(PYTHON) setup.py -q egg_info --egg-base "$$top/build" \
	    sdist --formats=tar --dist-dir "$$top/build/python"
	rm -rf build/python/*/ && cd build/python && tar -xf trac?t64-$(VERSION).tar && \
	    tar --sort=name --mtime=@$(TIME) --owner=0 --group=0 --numeric-owner --mode=u=rwX,go=rX -cf archive */
	gzip -9n <build/python/archive >$(NEW) && $(DONE)

# The language on one page, to print.
dist/trac.pdf: docs/trac.7
	mkdir -p dist
	groff -t -man -T pdf -dpaper=a4 -P-pa4 docs/trac.7 >$(NEW) && $(DONE)

## make types      the types of the module for JavaScript, from its comments (TypeScript's tsc; 4 seconds)
types:
	tsc -p hosts/js
	sed -i '1i // Generated from trac.mjs by `make types`, and never edited.' hosts/js/trac.d.mts

$(RUN_UNITS): hosts/c/trac_engine.c hosts/c/trac.h
	mkdir -p build/units
	$(COMPILE); for unit in 1 2 3 4; do compile $$unit & started="$$started $$!"; done; $(WAIT)

$(CHECK_UNITS): hosts/c/trac_engine.c hosts/c/trac.h
	mkdir -p build/units
	$(COMPILE); for unit in 5 6 7; do compile $$unit "$(CHECK_CFLAGS)" & started="$$started $$!"; done; $(WAIT)

# One object, in which the names that the units share are hidden.
build/libtrac.a: $(UNITS)
	$(CC) -r -nostdlib -o build/units/libtrac.o $(UNITS)
	! command -v objcopy >/dev/null || objcopy --localize-hidden build/units/libtrac.o
	rm -f $(NEW) && ar rcs $(NEW) build/units/libtrac.o && $(DONE)

$(SHARED): $(UNITS)
	$(CC) $(LDFLAGS) -shared -Wl,-soname,$(@F) -o $(NEW) $(UNITS) && $(DONE)

## make install    puts what is built below PREFIX, ~/.local (a C compiler; 10 seconds); make uninstall undoes it
install: needs-prefix all build/libtrac.a $(SHARED)
	@stage=$$(mktemp -d) && trap 'rm -rf "$$stage"' EXIT && chmod 755 "$$stage" && \
	    hosts/system/stage "$$stage/all" "$$TRAC_PREFIX" "$(LIBDIR)" && \
	    hosts/system/install "$$stage/all" "$$TRAC_TO"

uninstall: needs-prefix
	@hosts/system/install --undo "$$TRAC_TO"

needs-prefix:
	@case $$TRAC_PREFIX in \
	    /.local) [ -n "$$HOME" ] || { echo 'install: HOME is empty, so give PREFIX' >&2; exit 1; } ;; \
	    /*) ;; \
	    *) echo "install: PREFIX is to begin with /, and is '$$TRAC_PREFIX'" >&2; exit 1 ;; \
	    esac

## make package    Debian packages, in dist/ (a C compiler, dpkg-dev, binutils; 10 seconds)
package: all build/libtrac.a $(SHARED)
	@stage=$$(mktemp -d) && trap 'rm -rf "$$stage"' EXIT && \
	    lib=lib/$$(dpkg-architecture -qDEB_HOST_MULTIARCH 2>/dev/null || $(CC) -print-multiarch) && \
	    hosts/system/stage "$$stage/all" /usr "$$lib" && hosts/system/package "$$stage/all" "$$lib"

## make clean      takes away what was built, but no proofs
clean:
	rm -rf build dist

# Installs what the checks need, from Debian's packages.
check-tools:
	@checks/tools

.PHONY: all help prove programs check check-machines test proofs check-proved check-timed edits new-function format \
    generate rust rows editors types dist libraries page npm install uninstall needs-prefix package clean check-tools
