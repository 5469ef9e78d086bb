# `make run` shows a campaign by the library that ships; `make test` is the gate. All that is built goes into target/.
.PHONY: run test check fmt lib ship shipped install replay tells compare compare-short callers bench
.DELETE_ON_ERROR:
MAKEFLAGS += --no-print-directory
export CC

PREFIX ?= /usr/local
SHIPPED := lib/x86_64-linux
VERSION := $(shell sed -n 's/^.define DE_VERSION "\(.*\)"/\1/p' include/emkhurtov.h)

# The Rattle files that the library is made of: those of exports_c and of the crates that it stands on.
CRATES := $(shell tac crates.txt | awk -F: '{ split($$1, w, " ") } w[1] == "exports_c" || w[1] in below { print w[1]; split($$2, d, " "); for (i in d) below[d[i]] }')
RATTLE := $(shell find $(CRATES:%=crates/%) -name '*.rt' -o -name '*.antt')

# The campaign of a gateway's disk: trials, best setting, generations. It needs a C compiler and nothing else.
run: target/run/gateway
	@target/run/gateway

target/run/gateway: bindings/c/gateway.c include/emkhurtov.h $(SHIPPED)/libemkhurtov.a
	@[ "$$(uname -sm)" = "Linux x86_64" ] || { echo "make run: the library that ships is for Linux on x86-64." >&2; exit 1; }
	@mkdir -p $(@D)
	@$(CC) -std=c11 -O2 -ffp-contract=off -I include $< $(SHIPPED)/libemkhurtov.a -o $@

# The gate: it ends in the toolchain's own verdict, whose last line is `N passed, 0 failed`.
test:
	@.ci/gate

# What changed since the last check, and what stands on it.
check:
	rt all check

fmt:
	@for c in crates/*/; do (cd $$c && rt fmt) || exit 1; done

# The library from the proved crates: target/lib/libemkhurtov.a. Its proved half is the static library exports_c, which has
# an object of its own with the calls of the header.
lib: target/lib/libemkhurtov.a

crates/exports_c/out/libexports_c.a: crates.txt $(RATTLE)
	@mkdir -p target/lib
	@command -v rt >/dev/null || { echo "make: the library is built by the Rattle toolchain, and rt is not on the PATH." >&2; exit 1; }
	@echo "exports_c, proved and compiled, and first what it stands on where that has changed (target/lib/rt.log) .."
	@(cd crates/exports_c && rt lib) >target/lib/rt.log 2>&1 || { tail -n 40 target/lib/rt.log; exit 1; }

# The C beside the proved code. Nothing of the folder, the time, the language or the caller's flags goes into the object.
target/lib/emkhurtov.o: bindings/c/emkhurtov.c include/emkhurtov.h
	@mkdir -p $(@D)
	@LC_ALL=C $(CC) -std=c11 -O2 -fPIC -g0 -fno-ident -ffile-prefix-map="$(CURDIR)"=. -Wall -Wextra -Wpedantic -Werror \
		-I include -c $< -o $@

target/lib/libemkhurtov.a: crates/exports_c/out/libexports_c.a target/lib/emkhurtov.o
	@rm -f $@
	@ar p $< >target/lib/exports.o
	@ar rcsD $@ target/lib/exports.o target/lib/emkhurtov.o

# Builds the library and puts it, with its hash and what it was built with, where it ships: after a change of the library.
ship: lib
	@lib/shipped ship

# Whether the library that ships is, byte for byte, the one that the proved crates give.
shipped: lib
	@lib/shipped verify

# Header, library and pkg-config file: make install PREFIX=..
install:
	install -d "$(DESTDIR)$(abspath $(PREFIX))/include" "$(DESTDIR)$(abspath $(PREFIX))/lib/pkgconfig" \
		"$(DESTDIR)$(abspath $(PREFIX))/share/doc/emkhurtov"
	install -m 644 include/emkhurtov.h "$(DESTDIR)$(abspath $(PREFIX))/include"
	install -m 644 $(SHIPPED)/libemkhurtov.a "$(DESTDIR)$(abspath $(PREFIX))/lib"
	sed -e 's|@PREFIX@|$(abspath $(PREFIX))|' -e 's|@VERSION@|$(VERSION)|' lib/emkhurtov.pc.in \
		>"$(DESTDIR)$(abspath $(PREFIX))/lib/pkgconfig/emkhurtov.pc"
	install -m 644 LICENSE NOTICE "$(DESTDIR)$(abspath $(PREFIX))/share/doc/emkhurtov"

# The program that runs campaign scripts: target/bin/replay.
replay:
	@mkdir -p target/bin
	cd crates/replay && rt run </dev/null
	cp crates/replay/out/replay target/bin/

# The program that writes a metrics export as `tell` lines: target/bin/tells.
tells:
	@mkdir -p target/bin
	cd crates/tells && rt run </dev/null
	cp crates/tells/out/tells target/bin/

# Five million calls through the Rust and through `replay`, every answer and state compared (docs/ORACLE.md).
compare: replay
	oracle/run full

# The gate's part of it, and metrics exports. Where the Rust is not beside the repository there is nothing to compare with (status 3), and it says so.
compare-short: replay tells
	oracle/run gate || [ $$? -eq 3 ]

# The C and Rust tests and examples, with the library that ships.
callers: replay
	bindings/test

# Times, ratios and memory against the Rust original in one run, the parts of a call, and the largest counts of draws next
# to their ceilings (docs/BENCHMARKS.md): of the library as it is built here, shipped or not yet.
bench: lib
	@mkdir -p target/bin
	cd crates/bench && rt run
	cp crates/bench/out/bench target/bin/
	target/bin/bench run
	cd bench && EMKHURTOV_LIB="$(CURDIR)/target/lib" cargo build --quiet --release --locked --offline
	target/bench/release/bench
