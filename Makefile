# make            proves every crate, builds the library, the programs, their man pages and the test program, and runs the programs on the samples
# make demo       the programs on the samples once more
# make test       the gate: every proof, every must-fail edit, every test
# make edits      the wrong programs that are kept aside: the prover must refuse each
# make wrong      wrong versions of the C programs: their tests must refuse each
# make bench      the library beside the best C, unchecked C and memcpy, in one run; BEFORE=../old/build/libtiming.a: beside that too
# make torture    a longer comparison with the second program, over every call it finds: SEED=.. COUNT=.. (cases a call)
# make install    PREFIX=/usr/local: header, library, programs, man pages and pkg-config file; needs no toolchain when built
# make uninstall  takes them away again
PREFIX ?= /usr/local
SEED ?= 1
COUNT ?= 20000
CC ?= cc
CFLAGS ?= -O2
WARNINGS = -std=c99 -Wall -Wextra -pedantic

CRATES := crates.txt $(shell find crates -type f -not -path '*/must-fail/*' -not -path '*/out/*')
HEADERS := $(wildcard console/*.h include/*.h)
SHARED = console/gull.c console/text.c console/input.c
CHECK = console/gullcheck.c console/report.c console/names.c console/volume.c console/hint.c console/jobs.c
CONVERT = console/convert.c console/letters.c
PROGRAMS = gullcheck gullpack gullunpack gulllist
PAGES = $(PROGRAMS:%=build/man/%.1) build/man/gullcordage.3
VERSION = $(shell sed -n 's/^\#define GULL_VERSION "\(.*\)"/\1/p' include/gullcordage.h)
LINK = $(CC) $(CPPFLAGS) $(WARNINGS) $(CFLAGS) $(LDFLAGS) -o $@ $(filter %.c,$^) build/libgullcordage.a -pthread $(LDLIBS)

.DELETE_ON_ERROR:
.PHONY: all prove lib timing programs man demo test edits wrong bench torture install uninstall clean FORCE

all: build/proved build/demo.txt man build/bin/cases

prove: build/proved
lib: build/libgullcordage.a
timing: build/libtiming.a
programs: $(PROGRAMS:%=build/bin/%)
man: $(PAGES)

# tools/rt lets one rt run at a time. The gate makes build/proved too, where `rt ci` passed.
build/proved: $(CRATES)
	@mkdir -p build
	@tools/rt all check
	@touch $@

build/libgullcordage.a: $(CRATES)
	@tools/rt -C console_c lib
	cp crates/console_c/out/libconsole_c.a $@

build/libtiming.a: $(CRATES)
	@tools/rt -C timing_c lib
	cp crates/timing_c/out/libtiming_c.a $@

# A program stays in its crate's out/ where `rt run` has run it, and where `rt ci` has.
crates/cases/out/cases: $(CRATES)
	@tools/rt -C cases run < /dev/null
	@touch $@

crates/list/out/list: $(CRATES)
	@tools/rt -C list run -- --help
	@touch $@

build/bin/cases: crates/cases/out/cases
	@mkdir -p build/bin
	cp crates/cases/out/cases $@

build/bin/gulllist: crates/list/out/list
	@mkdir -p build/bin
	cp crates/list/out/list $@

build/bin/gullcheck: $(CHECK) $(SHARED) $(HEADERS) build/libgullcordage.a
	@mkdir -p build/bin
	$(LINK)

build/bin/gullpack: console/gullpack.c $(CONVERT) $(SHARED) $(HEADERS) build/libgullcordage.a
	@mkdir -p build/bin
	$(LINK)

build/bin/gullunpack: console/gullunpack.c $(CONVERT) $(SHARED) $(HEADERS) build/libgullcordage.a
	@mkdir -p build/bin
	$(LINK)

build/man/gulllist.1: man/gulllist.1 include/gullcordage.h
	@mkdir -p build/man
	sed 's/@VERSION@/$(VERSION)/' man/gulllist.1 > $@

build/man/%.1: build/bin/% man/help.awk
	@mkdir -p build/man
	build/bin/$* --help | awk -v name=$* -v version=$(VERSION) -f man/help.awk > $@

build/man/gullcordage.3: include/gullcordage.h man/header.awk
	@mkdir -p build/man
	awk -v version=$(VERSION) -f man/header.awk include/gullcordage.h > $@

build/demo.txt: console/demo $(PROGRAMS:%=build/bin/%) | build/proved
	@sh console/demo > $@ 2>&1
	@cat $@

demo: programs
	@sh console/demo

test:
	bash .ci/run

edits:
	tests/edits/try

wrong: build/proved programs
	tests/wrong/try

# Of an earlier build of the library, its decoding and set check under other names; made anew each time, since BEFORE may change.
build/bench/before.o: $(BEFORE) FORCE
	@mkdir -p build/bench
	$(LD) -r --whole-archive -o $@ $(BEFORE)
	objcopy --redefine-sym gull_time_decode=before_decode --redefine-sym gull_time_check_set=before_check_set $@
	objcopy --keep-global-symbol=before_decode --keep-global-symbol=before_check_set $@

FORCE:

build/bench/beside: build/bench/before.o

build/bench/bench build/bench/beside: $(wildcard bench/*.c bench/*.h) include/gullcordage.h build/libgullcordage.a build/libtiming.a
	@mkdir -p build/bench
	$(CC) -std=gnu11 -O3 -Wall -Wextra $(LDFLAGS) -o $@ $(filter %.c %.o,$^) build/libgullcordage.a build/libtiming.a

bench: build/bench/$(if $(BEFORE),beside,bench)
	$<

torture: build/bin/cases
	cd second && cargo build --offline --release
	second/target/release/compare build/bin/cases --calls present --seed $(SEED) --count $(COUNT)

install: lib programs man
	install -d $(DESTDIR)$(PREFIX)/include $(DESTDIR)$(PREFIX)/lib/pkgconfig $(DESTDIR)$(PREFIX)/bin
	install -d $(DESTDIR)$(PREFIX)/share/man/man1 $(DESTDIR)$(PREFIX)/share/man/man3
	install -m 644 include/gullcordage.h $(DESTDIR)$(PREFIX)/include/
	install -m 644 build/libgullcordage.a $(DESTDIR)$(PREFIX)/lib/
	sed 's|@PREFIX@|$(PREFIX)|; s|@VERSION@|$(VERSION)|' gullcordage.pc.in > $(DESTDIR)$(PREFIX)/lib/pkgconfig/gullcordage.pc
	chmod 644 $(DESTDIR)$(PREFIX)/lib/pkgconfig/gullcordage.pc
	install -m 755 $(PROGRAMS:%=build/bin/%) $(DESTDIR)$(PREFIX)/bin/
	install -m 644 $(PROGRAMS:%=build/man/%.1) $(DESTDIR)$(PREFIX)/share/man/man1/
	install -m 644 build/man/gullcordage.3 $(DESTDIR)$(PREFIX)/share/man/man3/

uninstall:
	rm -f $(DESTDIR)$(PREFIX)/include/gullcordage.h $(DESTDIR)$(PREFIX)/lib/libgullcordage.a
	rm -f $(DESTDIR)$(PREFIX)/lib/pkgconfig/gullcordage.pc $(PROGRAMS:%=$(DESTDIR)$(PREFIX)/bin/%)
	rm -f $(PROGRAMS:%=$(DESTDIR)$(PREFIX)/share/man/man1/%.1) $(DESTDIR)$(PREFIX)/share/man/man3/gullcordage.3

clean:
	rm -rf build second/target crates/*/out
