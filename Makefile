# The gate and its parts.
#
#   make demo      proves and builds the two programs, and shows a merge of three small lists
#   make test      the gate: `rt ci`, which refuses what is not laid out, then the static library and the programs, the checks of
#                  documents and form where there is python3, the quick differential run where cargo and the Rust source are at hand, the
#                  Rust and C checks where there is cargo and a C compiler, the demonstration, and an installation into a temporary folder.
#                  It fails too where a must-fail edit is bad. The last line is that of `rt ci`, only if all of it succeeded, and before it
#                  stands what was left out. With WHOLE=yes, as `.ci/run` has it, nothing may be left out
#   make install   the programs, the library, the header and a pkg-config file, below PREFIX; DESTDIR stands before it
#   make uninstall takes these files away again
#   make oracle    the long differential run
#   make vectors   writes the frozen answers that the programs `*_vectors` replay
#   make bench     times beside the Rust's, in one run
#
# NOLAN_SRC is the folder of the Rust source.
NOLAN_SRC ?= $(abspath ../shared/docs/src)
export NOLAN_SRC

PREFIX ?= /usr/local
DESTDIR ?=
VERSION = 0.3.0

CC ?= cc
CFLAGS ?= -O2
CXX ?= c++
CXXFLAGS ?= -O2
strict = -std=c99 -Wall -Wextra -Werror

SHELL = bash
.SHELLFLAGS = -eu -o pipefail -c

cargo = cargo run --release --offline --quiet --manifest-path
bound = --offline --quiet --manifest-path bindings/rust/Cargo.toml
again = $(MAKE) --no-print-directory
# What `rt` says of crates that it proves now, without those that are proved already.
progress = awk '/^rt:/ && !/begins with what/ { print; fflush() }'

.PHONY: demo test missing beside documents differential tidy rust c c-with shown installed install put uninstall oracle vectors bench capi \
    archive programs

demo: programs
	@demo/run

# The programs, proved and built, in target/bin; what has not changed is not proved again. `rt run` is what builds a program, and runs it: with
# no list to read trackmerge refuses, and with no argument trackdump says how it is called.
programs:
	@echo "rt run: proves the two programs and what they use; the first time that takes some minutes"
	@for name in trackmerge trackdump; do \
	    (cd crates/$$name && rt run </dev/null 2>&1) | $(progress) || { echo "not proved: rt run in crates/$$name says why"; exit 1; }; \
	    install -D -m 755 crates/$$name/out/$$name target/bin/$$name; \
	done

test:
	@log=$$(mktemp); trap 'rm -f "$$log"' EXIT; \
	missing=$$($(again) missing); \
	if [ -n "$(WHOLE)" ] && [ -n "$$missing" ]; then echo "$$missing"; exit 1; fi; \
	rt ci | tee "$$log"; \
	if grep -qE '^rt: ok.*, [0-9]+ bad' "$$log"; then echo "a must-fail edit is bad: rt ci says above which"; exit 1; fi; \
	$(again) beside; \
	[ -z "$$missing" ] || echo "$$missing"; \
	tail -n 1 "$$log"

# Tells what the parts beside the proofs need and is not at hand, a line for each.
missing:
	@command -v cargo >/dev/null || echo "left out: the differential run and the Rust checks, there is no cargo"
	@[ -d "$(NOLAN_SRC)/src/linalg" ] || echo "left out: the differential run, there is no Rust source, and NOLAN_SRC is $(NOLAN_SRC)"
	@command -v $(CC) >/dev/null || echo "left out: the C checks, there is no $(CC)"
	@command -v python3 >/dev/null || echo "left out: the checks of documents and form, there is no python3"

# What follows the proofs, each part where it can be run.
beside: capi programs
	@if command -v python3 >/dev/null; then $(again) documents; fi
	@if command -v cargo >/dev/null && [ -d "$(NOLAN_SRC)/src/linalg" ]; then $(again) differential; fi
	@if command -v cargo >/dev/null; then $(again) rust; fi
	@if command -v $(CC) >/dev/null; then $(again) c; fi
	@$(again) shown installed

# The six parts take the library and the programs as they stand. The first needs neither: what disagrees in documents, header and form.
documents:
	tools/test-audit
	tools/audit

# The run is first shown to find faults; the frozen answers are those that the Rust gives now.
differential:
	@for project in oracle bench; do $(again) tidy project=$$project; done
	$(cargo) oracle/Cargo.toml -- selftest
	$(cargo) oracle/Cargo.toml -- vectors check
	$(cargo) oracle/Cargo.toml -- quick

# The layout of a cargo project and the lints, where cargo has them.
tidy:
	@if cargo fmt --version >/dev/null 2>&1; then cargo fmt --check --manifest-path $(project)/Cargo.toml; else echo "$(project): no cargo fmt"; fi
	@if cargo clippy --version >/dev/null 2>&1; then \
	    cargo clippy --offline --quiet --release --all-targets --manifest-path $(project)/Cargo.toml -- -D warnings; \
	else \
	    echo "$(project): no cargo clippy"; \
	fi

# The crate's tests and documents, and its example on the lists of the demonstration.
rust:
	@$(again) tidy project=bindings/rust
	cargo test $(bound)
	RUSTDOCFLAGS="-D warnings" cargo doc --no-deps $(bound)
	cd demo && cargo run --offline --quiet --manifest-path ../bindings/rust/Cargo.toml --example merge -- base.trk ours.trk theirs.trk \
	    | diff ../bindings/rust/examples/merge.out -
	cargo run $(bound) --example readme | diff bindings/rust/examples/readme.out -
	@echo "Rust: tests, documents and the example are as they should be"

c:
	@$(again) c-with flags="-I include target/staticlib/libcapi.a"
	@echo "C: the examples, the empty slices and the header's numbers are as they should be"
	@tools/figures
	@tools/test-figures

# Compiles the C programs with these flags, the header's numbers as C++ too, runs them, under valgrind where it is at hand, and tells a
# call of the header that is not tried with empty slices or whose stack is not measured.
c-with:
	@folder=$$(mktemp -d); trap 'rm -rf "$$folder"' EXIT; \
	for name in example readme constants empty; do $(CC) $(strict) $(CFLAGS) bindings/c/$$name.c -o "$$folder/$$name" $(flags); done; \
	for name in example readme; do "$$folder/$$name" | diff bindings/c/$$name.out -; done; \
	"$$folder/constants"; \
	"$$folder/empty"; \
	if command -v valgrind >/dev/null; then \
	    for name in example constants empty; do valgrind -q --error-exitcode=1 "$$folder/$$name" >/dev/null; done; \
	else \
	    echo "the C programs did not run under valgrind: there is none"; \
	fi; \
	if command -v $(CXX) >/dev/null; then \
	    $(CXX) -x c++ $(strict:c99=c++11) $(CXXFLAGS) bindings/c/constants.c -x none -o "$$folder/as-c++" $(flags); "$$folder/as-c++" >/dev/null; \
	else \
	    echo "the header was not tried as C++: there is no $(CXX)"; \
	fi; \
	sed -nE 's/^(uint32_t|void) (pel_[a-z0-9_]+)\(.*/\2/p' include/pelosumba.h | while read -r name; do \
	    grep -q "$$name(" bindings/c/empty.c || { echo "$$name: not tried with empty slices"; exit 1; }; \
	    grep -q "$$name(" bindings/c/stack.c || { echo "$$name: its stack is not measured"; exit 1; }; \
	done

# The demonstration's text.
shown:
	@demo/run | diff demo/stdout -
	@echo "demo: as it should be"

# An installation below a temporary folder, with and without DESTDIR; what was installed is used, and taken away again.
installed:
	@folder=$$(mktemp -d); trap 'rm -rf "$$folder"' EXIT; \
	$(again) put PREFIX=/opt/pelosumba DESTDIR="$$folder/staged" >/dev/null; \
	$(again) put PREFIX="$$folder/own" DESTDIR= >/dev/null; \
	diff <(cd "$$folder/staged/opt/pelosumba" && find . -type f | sort) <(cd "$$folder/own" && find . -type f | sort); \
	diff <("$$folder/own/bin/trackdump" demo/base.trk) <(target/bin/trackdump demo/base.trk); \
	demo/run "$$folder/own/bin" | diff demo/stdout -; \
	if ! command -v $(CC) >/dev/null; then \
	    echo "install: tried without the C example, there is no $(CC)"; \
	elif command -v pkg-config >/dev/null; then \
	    export PKG_CONFIG_PATH="$$folder/own/lib/pkgconfig"; \
	    [ "$$(pkg-config --modversion pelosumba)" = $(VERSION) ]; \
	    $(again) c-with flags="$$(pkg-config --cflags --libs pelosumba)"; \
	    export PKG_CONFIG_PATH="$$folder/staged/opt/pelosumba/lib/pkgconfig" PKG_CONFIG_SYSROOT_DIR="$$folder/staged"; \
	    $(again) c-with flags="$$(pkg-config --cflags --libs pelosumba)"; \
	else \
	    echo "install: tried without pkg-config"; \
	    $(again) c-with flags="-I$$folder/own/include -L$$folder/own/lib -lpelosumba"; \
	fi; \
	$(again) uninstall PREFIX=/opt/pelosumba DESTDIR="$$folder/staged" >/dev/null; \
	$(again) uninstall PREFIX="$$folder/own" DESTDIR= >/dev/null; \
	[ -z "$$(find "$$folder" -type f)" ]; \
	echo "install: as it should be, and nothing is left after uninstall"

install: capi programs
	@$(again) put

# The library and the programs as they stand, put below PREFIX.
put:
	install -d "$(DESTDIR)$(PREFIX)/bin" "$(DESTDIR)$(PREFIX)/lib/pkgconfig" "$(DESTDIR)$(PREFIX)/include"
	install -m 755 target/bin/trackmerge target/bin/trackdump "$(DESTDIR)$(PREFIX)/bin"
	install -m 644 target/staticlib/libcapi.a "$(DESTDIR)$(PREFIX)/lib/libpelosumba.a"
	install -m 644 include/pelosumba.h "$(DESTDIR)$(PREFIX)/include"
	sed 's|@PREFIX@|$(PREFIX)|; s|@VERSION@|$(VERSION)|' bindings/c/pelosumba.pc.in >"$(DESTDIR)$(PREFIX)/lib/pkgconfig/pelosumba.pc"

uninstall:
	rm -f "$(DESTDIR)$(PREFIX)/bin/trackmerge" "$(DESTDIR)$(PREFIX)/bin/trackdump" \
	    "$(DESTDIR)$(PREFIX)/lib/libpelosumba.a" "$(DESTDIR)$(PREFIX)/lib/pkgconfig/pelosumba.pc" \
	    "$(DESTDIR)$(PREFIX)/include/pelosumba.h"

oracle: capi programs
	$(cargo) oracle/Cargo.toml -- long

vectors: capi
	$(cargo) oracle/Cargo.toml -- vectors

bench: capi
	@$(again) archive name=bench_pairing
	$(cargo) bench/Cargo.toml

# The static library that the runs above link, in target/staticlib. The bench links that of the pairing too.
capi:
	@$(again) archive name=capi

archive:
	@(cd crates/$(name) && rt lib 2>&1) | $(progress) || { echo "not proved: rt lib in crates/$(name) says why"; exit 1; }
	@install -D -m 644 crates/$(name)/out/lib$(name).a target/staticlib/lib$(name).a
