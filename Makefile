# make run           serve a sample log by the proved library, answers by name beside their words; LOG=FILE serves another one
# make test          the gate
# make soak          the library beside the second program on random histories, for SECONDS (60), from SEED on
# make bench         the proved library beside plain Rust: times
# make instructions  the same, counted by callgrind
# make restarts      how often restarted guests get their own TreeLings again, and how often they did before
# make install       header, libraries, replay and their manual pages to PREFIX (/usr/local); DESTDIR stands before it
# make uninstall     take them away again
# make fmt           format the Rattle and the Rust
# make clean         remove everything that was built, the proved library too
# make help          print this
.PHONY: run test soak bench instructions restarts fmt install uninstall clean help
LOG ?= examples/ten.log
PLOT ?= target/growth.svg
SECONDS ?= 60
LIBRARY = target/staticlib/libivleague.a

run: $(LIBRARY)
	@tools/need gcc make
	@$(MAKE) --silent -C host >&2
	@target/host/replay --format both $(LOG)

# Standard output is kept for answers.
$(LIBRARY): crates.txt $(shell find crates -mindepth 2 -name out -prune -o -print)
	@tools/need rt
	@echo "proving the library; from nothing this takes some minutes" >&2
	@tools/staticlib >&2
	@touch $@

test:
	.ci/run

soak: $(LIBRARY)
	@tools/need cargo
	cargo run --release --quiet --manifest-path tests/compare/Cargo.toml --bin soak -- target/soak $(SECONDS) $(SEED)

bench: $(LIBRARY)
	@tools/need cargo
	cargo run --release --quiet --manifest-path bench/Cargo.toml -- $(PLOT)

instructions: $(LIBRARY)
	@tools/need cargo valgrind
	cargo run --release --quiet --manifest-path bench/Cargo.toml -- instructions

restarts: $(LIBRARY)
	@tools/need cargo
	cargo run --release --quiet --manifest-path bench/Cargo.toml -- restarts

fmt:
	for crate in crates/*/; do (cd $$crate && rt fmt) || exit 1; done
	cd second && cargo fmt
	cd tests/compare && cargo fmt
	cd bench && cargo fmt

PREFIX ?= /usr/local
TO = $(DESTDIR)$(PREFIX)
VERSION = $(shell sed -n 's/^.define IVLEAGUE_VERSION "\(.*\)"/\1/p' host/ivleague.h)
# Each has a page that leads to ivleague.3.
FUNCTIONS = $(shell sed -n 's/^\.Nm \(ivleague_[a-z_]*\).*/\1/p' host/ivleague.3)
SHARED = libivleague.so.$(firstword $(subst ., ,$(VERSION)))

install: $(LIBRARY)
	$(MAKE) --silent -C host all libraries
	install -D -m 644 host/ivleague.h "$(TO)/include/ivleague.h"
	install -D -m 644 target/host/libivleague.a "$(TO)/lib/libivleague.a"
	install -D -m 755 target/host/$(SHARED) "$(TO)/lib/$(SHARED)"
	ln -sf $(SHARED) "$(TO)/lib/libivleague.so"
	sed 's|@PREFIX@|$(abspath $(PREFIX))|; s|@VERSION@|$(VERSION)|' host/ivleague.pc.in | \
	    install -D -m 644 /dev/stdin "$(TO)/lib/pkgconfig/ivleague.pc"
	install -D -m 755 target/host/replay "$(TO)/bin/replay"
	install -D -m 644 host/replay.1 "$(TO)/share/man/man1/replay.1"
	install -D -m 644 host/ivleague.3 "$(TO)/share/man/man3/ivleague.3"
	for name in $(FUNCTIONS); do echo .so man3/ivleague.3 >"$(TO)/share/man/man3/$$name.3"; done
	chmod 644 $(FUNCTIONS:%="$(TO)/share/man/man3/%.3")
	install -D -m 644 host/replay.bash "$(TO)/share/bash-completion/completions/replay"

uninstall:
	rm -f "$(TO)/include/ivleague.h" "$(TO)"/lib/libivleague.a "$(TO)"/lib/libivleague.so "$(TO)/lib/$(SHARED)"
	rm -f "$(TO)/lib/pkgconfig/ivleague.pc" "$(TO)/bin/replay" "$(TO)/share/bash-completion/completions/replay"
	rm -f "$(TO)/share/man/man1/replay.1" "$(TO)/share/man/man3/ivleague.3" $(FUNCTIONS:%="$(TO)/share/man/man3/%.3")

clean:
	rm -rf target second/target bench/target tests/compare/target

help:
	@sed -n 's/^# make/make/p' Makefile
