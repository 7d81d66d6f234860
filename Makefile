# Tlepozaluh. `make run`: the tools on a good file, on rings and on a record at fault, then the worked examples. `make test`: the gate.
# `make lib`: the static libraries for C. `make tools`: the programs. `make bench`: the speed of check, reader and epochs against the
# same in plain C. `make install`: header, libraries, programs and manual pages below PREFIX, with DESTDIR before it.
# `make neighbours`: each must-fail edit is refused, and its true neighbour is not.
.PHONY: run examples test neighbours lib tools bench install clean build/tlepozaluh.pc build/tlepozaluh_read.pc

VERSION = 0.7.0
PREFIX = /usr/local
DESTDIR =
CFLAGS = -std=c11 -O2 -Wall -Wextra -Wpedantic

# The archives that rt makes, libNAME.a of each crate NAME_c with calls for C. libtlepozaluh.a has all but the benchmark's,
# libtlepozaluh_read.a the reader and epochs.
READER = $(addprefix target/staticlib/,libreader.a libepochs.a)
ARCHIVES = target/staticlib/libcalls.a $(READER)
LIBRARIES = build/libtlepozaluh.a build/libtlepozaluh_read.a
PACKAGES = build/tlepozaluh.pc build/tlepozaluh_read.pc

# The programs, each tools/NAME.c, with what they share and their own parts; each has a manual page man/NAME.1.
# cdfread is made of the reader and epochs alone.
PROGRAMS = cdfcheck cdfnight cdfread
SHARED = $(addprefix tools/,area.c console.c input.c job.c options.c print.c record.c saved.c text.c window.c words.c)
READING = $(addprefix tools/,attribute.c console.c input.c look.c options.c record.c text.c values.c variable.c window.c words.c)
HEADERS = include/tlepozaluh.h $(wildcard tools/*.h)

run: tools
	build/cdfcheck samples/01_base_A.cdf samples/02_h_le.cdf
	! build/cdfcheck samples/rings/ring_entry_back_to_first.cdf samples/rings/ring_uir.cdf
	build/cdfread samples/rings/ring_entry_back_to_first.cdf --at 0x308
	build/cdfread samples/02_h_le.cdf
	build/cdfread samples/02_h_le.cdf z 0
	$(MAKE) examples

examples:
	cd crates/worked_examples && rt run

test:
	.ci/run

neighbours:
	rt all check
	tests/neighbours/run

lib: $(LIBRARIES)

target/staticlib/lib%.a: $(wildcard crates/*/src/*.rt)
	cd crates/$*_c && rt lib
	install -D -m 644 crates/$*_c/out/lib$*_c.a $@

# Each call begins a cache line, so that its speed does not hang on what is linked before it.
ALIGN = objcopy --set-section-alignment '.text.tlz_*=64'

build/libtlepozaluh.a: $(ARCHIVES)
build/libtlepozaluh_read.a: $(READER)
$(LIBRARIES):
	mkdir -p build
	rm -f $@
	printf 'create $@\n$(foreach archive,$^,addlib $(archive)\n)save\nend\n' | ar -M
	$(ALIGN) $@

tools: $(addprefix build/,$(PROGRAMS))

NIGHT = $(addprefix tools/,listing.c night.c)
build/cdfnight: OWN = $(NIGHT)
build/cdfnight: $(NIGHT)

build/cdf%: tools/cdf%.c $(SHARED) $(HEADERS) build/libtlepozaluh.a
	$(CC) $(CFLAGS) -DVERSION='"$(VERSION)"' -Iinclude -Itools -o $@ $< $(OWN) $(SHARED) build/libtlepozaluh.a

build/cdfread: tools/cdfread.c $(READING) $(HEADERS) build/libtlepozaluh_read.a
	$(CC) $(CFLAGS) -DVERSION='"$(VERSION)"' -Iinclude -Itools -o $@ $< $(READING) build/libtlepozaluh_read.a -lm

# The clearing of marks by itself is timed by a call of its own, which is in no library. The time of so short a loop hangs on
# where it lies in a cache line, so it is linked four times, 0, 16, 32 and 48 bytes from a line's start.
BENCH = $(addprefix bench/,bench.c check.c clearing.c dates.c epochs.c files.c read.c rounds.c times.c turns.c)
CLEARING = $(patsubst %,build/clearing_%.o,0 16 32 48)

$(CLEARING): build/clearing_%.o: target/staticlib/libclearing.a
	mkdir -p build
	ar p $< clearing_c.o >$@.whole
	objcopy --redefine-sym clearing_records=clearing_records_$* $@.whole $@.own
	printf '.section .text.clearing_records,"ax"\n.p2align 6\n.fill $*, 1, 0x90\n.section .note.GNU-stack,""\n' | as -o $@.before
	ld -r -o $@ $@.before $@.own
	rm $@.whole $@.own $@.before

build/bench: $(BENCH) $(wildcard bench/*.h) include/tlepozaluh.h build/libtlepozaluh.a $(CLEARING)
	$(CC) $(CFLAGS) -Iinclude -o $@ $(BENCH) build/libtlepozaluh.a $(CLEARING)

bench: build/bench
	build/bench

$(PACKAGES): build/%.pc: %.pc.in
	mkdir -p build
	sed 's|@PREFIX@|$(PREFIX)|; s|@VERSION@|$(VERSION)|' $< >$@

install: lib tools $(PACKAGES)
	install -d $(addprefix '$(DESTDIR)$(PREFIX)'/,include lib/pkgconfig bin share/man/man1)
	install -m 644 include/tlepozaluh.h '$(DESTDIR)$(PREFIX)'/include
	install -m 644 $(LIBRARIES) '$(DESTDIR)$(PREFIX)'/lib
	install -m 644 $(PACKAGES) '$(DESTDIR)$(PREFIX)'/lib/pkgconfig
	install -m 755 $(addprefix build/,$(PROGRAMS)) '$(DESTDIR)$(PREFIX)'/bin
	install -m 644 $(PROGRAMS:%=man/%.1) '$(DESTDIR)$(PREFIX)'/share/man/man1

clean:
	rm -rf target build host/target
