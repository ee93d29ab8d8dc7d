# make: the programs and the libraries for C. make run: the tally of a small capture. make report: a page of a larger one,
# target/report.html. make test: the whole gate.
PREFIX ?= /usr/local

# Functions that go or change give the shared library another number.
soname = libshaftglimmer.so.2

# Code for every x86-64 processor.
cpu = --cpu x86-64

.PHONY: all program archive run report check test bench libraries examples install install-built uninstall clean

all:
	$(MAKE) --no-print-directory program archive
	$(MAKE) --no-print-directory libraries
	$(MAKE) --no-print-directory target/bin/shaftglimmer

# The program, and the archive of what is exported to C: proved with every crate below, where something has changed, and built.
program:
	cd crates/tally && rt run $(cpu) -- --version > /dev/null
	install -C -D -m 755 crates/tally/out/tally target/bin/tally

archive:
	cd crates/host_c && rt lib $(cpu)
	install -C -D -m 644 crates/host_c/out/libhost_c.a target/staticlib/libhost.a

run: target/bin/tally
	target/bin/tally samples/small.txt

# The page of the larger sample, with names and prices.
report: target/bin/shaftglimmer
	target/bin/shaftglimmer report --names samples/names.txt --prices samples/prices.txt samples/capture.txt > target/report.html

check:
	rt all check

test:
	bash .ci/run

bench: target/bin/tally target/staticlib/libhost.a
	cd tests && cargo build --release --offline
	cd tests && TALLY="$(CURDIR)/target/bin/tally" cargo run --release --offline --quiet --bin bench

# Made where they are missing; make brings them up to date.
target/bin/tally:
	@echo "There is no program here yet. First it is proved, with every crate below it, and then it is built."
	@echo "That takes a while. Each function is named when it is proved."
	$(MAKE) --no-print-directory program

target/staticlib/libhost.a:
	$(MAKE) --no-print-directory archive

libraries: target/libshaftglimmer.a target/libshaftglimmer.so

target/libshaftglimmer.a: target/staticlib/libhost.a
	cp $< $@

# All of the archive; the map says which names it shows.
target/$(soname): target/libshaftglimmer.a include/shaftglimmer.map
	$(CC) -shared -Wl,-soname,$(soname) -Wl,--version-script,include/shaftglimmer.map -Wl,-z,defs -Wl,-z,now -Wl,-z,noexecstack \
		-Wl,--whole-archive $< -Wl,--no-whole-archive -o $@

# A copy and no link: rt ci refuses a checkout that has links in it.
target/libshaftglimmer.so: target/$(soname)
	rm -f $@
	cp $< $@

examples: $(patsubst examples/%.c,target/examples/%,$(wildcard examples/*.c))

target/examples/%: examples/%.c examples/input.h include/shaftglimmer.h target/libshaftglimmer.a
	@mkdir -p target/examples
	$(CC) -std=c99 -O2 -Wall -Wextra -pedantic -Iinclude $< target/libshaftglimmer.a -o $@

target/bin/shaftglimmer: target/staticlib/libhost.a $(shell find rust/build.rs rust/src rust/command/Cargo.toml rust/command/src -type f)
	SHAFTGLIMMER_LIB="$(CURDIR)/target/staticlib" cargo build --release --offline --quiet \
		--manifest-path rust/command/Cargo.toml --target-dir target/command
	install -D -m 755 target/command/release/shaftglimmer $@

# PREFIX is where the files will be used, DESTDIR a folder to lay them out in before that. Either may have spaces.
place = $(DESTDIR)$(PREFIX)

install: all
	$(MAKE) --no-print-directory install-built

# What has been built already.
install-built:
	install -D -m 755 target/bin/tally "$(place)/bin/tally"
	install -D -m 755 target/bin/shaftglimmer "$(place)/bin/shaftglimmer"
	install -D -m 644 include/shaftglimmer.h "$(place)/include/shaftglimmer.h"
	install -D -m 644 target/libshaftglimmer.a "$(place)/lib/libshaftglimmer.a"
	install -D -m 755 target/$(soname) "$(place)/lib/$(soname)"
	ln -sf $(soname) "$(place)/lib/libshaftglimmer.so"
	install -D -m 644 docs/man/tally.1 "$(place)/share/man/man1/tally.1"
	install -D -m 644 docs/man/shaftglimmer.1 "$(place)/share/man/man1/shaftglimmer.1"
	install -D -m 644 docs/man/shaftglimmer.3 "$(place)/share/man/man3/shaftglimmer.3"
	install -d "$(place)/lib/pkgconfig"
	sed 's|@PREFIX@|$(PREFIX)|' include/shaftglimmer.pc.in > "$(place)/lib/pkgconfig/shaftglimmer.pc"
	chmod 644 "$(place)/lib/pkgconfig/shaftglimmer.pc"
	for file in $$(cd rust && find Cargo.toml build.rs README.md src examples -type f); do \
		install -D -m 644 rust/$$file "$(place)/share/shaftglimmer/rust/$$file" || exit 1; \
	done
	for file in $$(cd python && find pyproject.toml shaftglimmer -type f ! -path '*/__pycache__/*'); do \
		install -D -m 644 python/$$file "$(place)/share/shaftglimmer/python/$$file" || exit 1; \
	done

uninstall:
	rm -f "$(place)/bin/tally" "$(place)/bin/shaftglimmer" "$(place)/include/shaftglimmer.h"
	rm -f "$(place)/lib/libshaftglimmer.a" "$(place)/lib/$(soname)" "$(place)/lib/libshaftglimmer.so"
	rm -f "$(place)/share/man/man1/tally.1" "$(place)/share/man/man1/shaftglimmer.1" "$(place)/share/man/man3/shaftglimmer.3"
	rm -f "$(place)/lib/pkgconfig/shaftglimmer.pc"
	rm -rf "$(place)/share/shaftglimmer/rust" "$(place)/share/shaftglimmer/python"

clean:
	rm -rf target tests/target rust/target rust/command/target crates/*/out
