# A user's commands: demo, test, lib, install, bench, soak. `compare` is the part of the gate that comes after the proofs.
CARGO = cargo --quiet
RELEASE = --release --offline
SECONDS = 60
PREFIX = /usr/local
DIST = dist
ARCHIVE = $(DIST)/lib/libfeefledown.a
VERSION = $(shell sed -n 's/^.define FEEFLEDOWN_VERSION "\(.*\)"/\1/p' include/feefledown.h)
STRICT = -Wall -Wextra -Werror -pedantic
INSTALLED = -Itarget/c/installed/include -Ltarget/c/installed/lib -lfeefledown
SANITIZED = -g -fsanitize=address,undefined -fno-sanitize-recover=all
.PHONY: demo test lib install bench soak compare probe desk FORCE

# The front desk's day, and the same bundle as the lister sees it. What the programs stand on is proved first, a crate at a time, lowest
# first; what is proved already is not proved again.
demo: NEEDED = $(shell awk -F: 'NR == FNR { if ($$1 ~ /^(frontdesk|lister)$$/) need = need " " $$1 $$2 " "; next } \
    index(need, " " $$1 " ") { print $$1 }' crates.txt crates.txt)
demo:
	@mkdir -p target/demo && rm -f target/demo/bundle
	@echo 'The demo stands on $(words $(NEEDED)) crates, which are proved before they run. The first time that takes some minutes.'
	@left=$(words $(NEEDED)); for each in $(NEEDED); do \
	    left=$$((left - 1)); \
	    printf '  %-12s' $$each; \
	    start=$$(date +%s); \
	    (cd crates/$$each && rt check) > target/demo/log 2>&1 || { echo FAILED; tail -n 40 target/demo/log; exit 1; }; \
	    echo "proved ($$(($$(date +%s) - start)) s), $$left left"; \
	done
	@$(MAKE) --no-print-directory -s target/bin/frontdesk target/bin/lister
	@echo
	@cd target/demo && ../bin/frontdesk
	@echo
	@echo 'The lister, on the same bundle:'
	@./target/bin/lister < target/demo/bundle

test:
	bash .ci/run

# The archive of a crate, target/staticlib/libNAME.a, and a program, target/bin/NAME: the crate is proved, and rt leaves them in its out/.
# A program is run where it is built, on no input; the front desk leaves its bundle there.
target/staticlib/lib%.a: FORCE
	cd crates/$* && rt lib
	install -D -m 644 crates/$*/out/lib$*.a $@

target/bin/%: FORCE
	@mkdir -p target/log
	cd crates/$* && rt run < /dev/null > ../../target/log/$* 2>&1 || { tail -n 40 ../../target/log/$*; exit 1; }
	rm -f crates/$*/bundle
	install -D crates/$*/out/$* $@

# The exports for tests and benchmarks.
probe: target/staticlib/libprobe.a

# What a C or Rust program links, in dist/, where no other target removes it: the archive, the header, and a pkg-config file that
# finds them from where it stands itself.
lib: target/staticlib/libdesk.a
	install -D -m 644 include/feefledown.h $(DIST)/include/feefledown.h
	install -D -m 644 target/staticlib/libdesk.a $(ARCHIVE)
	mkdir -p $(DIST)/lib/pkgconfig
	sed 's,@VERSION@,$(VERSION),' include/feefledown.pc.in > $(DIST)/lib/pkgconfig/feefledown.pc

# The same three files below PREFIX: make install PREFIX=$$HOME/desk. What `make lib` left is made anew only if a source is newer.
install: $(ARCHIVE)
	set -e; for each in include/feefledown.h lib/libfeefledown.a lib/pkgconfig/feefledown.pc; do \
	    install -D -m 644 $(DIST)/$$each $(DESTDIR)$(PREFIX)/$$each; \
	done

$(ARCHIVE): $(wildcard include/*) $(shell find crates -name '*.rt' -o -name '*.antt')
	$(MAKE) lib

# The C programs, over an installed copy, as C99 and as C++: run plain, under the sanitizers, and under valgrind where it is installed.
# README's C compiles, and an answer that nobody reads is warned of.
desk: lib
	$(MAKE) install PREFIX=target/c/installed
	sed -n '/^```c$$/,/^```$$/ { /^```/!p }' README.md > target/c/readme.c
	gcc -std=c99 $(STRICT) $(INSTALLED) -c target/c/readme.c -o target/c/readme.o
	printf '#include <feefledown.h>\nvoid unread(uint8_t *d) { feefledown_sha3_256(NULL, 0, d, 32); }\n' > target/c/unread.c
	gcc $(INSTALLED) -c target/c/unread.c -o target/c/unread.o 2>&1 | grep -q unused-result
	set -e; for each in desk checks; do \
	    gcc -std=c99 $(STRICT) c/$$each.c $(INSTALLED) -o target/c/$$each; \
	    gcc -std=c99 $(STRICT) $(SANITIZED) c/$$each.c $(INSTALLED) -o target/c/$$each-sanitized; \
	    g++ -x c++ $(STRICT) $(SANITIZED) c/$$each.c -x none $(INSTALLED) -o target/c/$$each-c++; \
	    ./target/c/$$each; \
	    ./target/c/$$each-sanitized > target/c/out; \
	    ./target/c/$$each-c++ > target/c/out; \
	    if command -v valgrind > target/c/out; then valgrind -q --error-exitcode=1 ./target/c/$$each > target/c/out; fi; \
	done

# Both archives and the lister beside the reference. From outside the archives need `memcpy` alone. All of the Rust side is built, and the
# compiler's advice is taken.
compare: probe desk target/bin/lister
	! nm -u target/staticlib/lib*.a | grep ' U ' | grep -vw memcpy
	cd rust && $(CARGO) clippy $(RELEASE) --all-targets -- -D warnings
	cd rust && $(CARGO) build $(RELEASE) --all-targets
	cd rust && $(CARGO) test $(RELEASE)
	cd rust && $(CARGO) run $(RELEASE) --package soak -- 5

bench: probe lib
	cd rust && $(CARGO) run $(RELEASE) --package bench

# Every export with arbitrary bytes beside the reference: make soak SECONDS=600.
soak: probe lib
	cd rust && $(CARGO) run $(RELEASE) --package soak -- $(SECONDS)
