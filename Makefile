# try: runs the session script crates/hothummei/stdin before anything is proved, in a minute or two.
# run: builds the program, which proves it, and runs the same script.
# test: proves every crate and its tests from nothing, tries the must-fail edits, and runs the programs (rt ci). The merge
# gate is .ci/run, which looks at the pages and the width of lines first, and behind that runs the C library over bytes
# that are written down (.ci/c), and all against a real PostgreSQL.
# live: the program against a real PostgreSQL, in a scratch cluster (live/run).
# lib: the C library, its header and its pkg-config file, in build/c; install puts them in place (docs/C.md). check-lib runs
# it over bytes of servers that are written down (c/canned.c), under valgrind.
# edits: the must-fail edits of a crate that the gate leaves out and .ci/tried does not have, as committed (make edits
# CRATE=pgw_query; without CRATE those of all crates, which takes hours).
# plant: wrong bodies that a crate's contracts let through (make plant CRATE=pgw_wire).
SHELL = /bin/bash
PROGRAM = crates/hothummei/out/hothummei
VISIT = crates/example_visit/out/example_visit
RELAY = crates/example_relay/out/example_relay
CLIENT = crates/example_client/out/example_client
POOL = crates/example_pool/out/example_pool
WEB = crates/example_web/out/example_web
LIBRARY = build/c
LOG = build.log

.PHONY: try run install test program visit relay client pool web lib check-lib live fmt edits plant needs-rt

needs-rt:
	@command -v rt > /dev/null || { echo "rt is not in the PATH: install the Rattle kit that README.md names, and put its folder bin into the PATH" >&2; exit 1; }

try: needs-rt
	@cd crates/hothummei && rt try hothummei < stdin

run: needs-rt
	@echo "proves each crate below the program that has changed, and builds it: the first time this may take half an hour and 6 GB of memory (make try takes a minute or two); the whole log is $(LOG)" >&2
	@(cd crates/hothummei && rt run hothummei < stdin 2> >(tee ../../$(LOG) | grep --line-buffered -E '^rt: chose|^so far' >&2)) || { echo "make run: the build or the run failed, see $(LOG)" >&2; exit 1; }
	@cp $(PROGRAM) hothummei
	@echo "the program is ./hothummei: run it on another script by ./hothummei < SCRIPT" >&2

# install: copies what was built to PREFIX (make install PREFIX=/usr/local): the program to bin, with its page for man and its
# completions for bash, the C library to lib, its header to include.
PREFIX = /usr/local
install:
	@test -x $(PROGRAM) -o -f $(LIBRARY)/libhothummei.a || { echo "make run builds the program first, and make lib the C library" >&2; exit 1; }
	@if test -x $(PROGRAM); then \
	    install -v -D -m 755 $(PROGRAM) $(DESTDIR)$(PREFIX)/bin/hothummei && \
	    install -v -D -m 644 man/hothummei.1 $(DESTDIR)$(PREFIX)/share/man/man1/hothummei.1 && \
	    install -v -D -m 644 completions/hothummei.bash $(DESTDIR)$(PREFIX)/share/bash-completion/completions/hothummei; fi
	@if test -f $(LIBRARY)/libhothummei.a; then \
	    install -v -D -m 644 $(LIBRARY)/libhothummei.a $(DESTDIR)$(PREFIX)/lib/libhothummei.a && \
	    install -v -D -m 644 include/hothummei.h $(DESTDIR)$(PREFIX)/include/hothummei.h && \
	    mkdir -p $(DESTDIR)$(PREFIX)/lib/pkgconfig && \
	    sed 's|^prefix=.*|prefix=$(PREFIX)|; s|^libdir=.*|&/lib|; s|^includedir=.*|&/include|' $(LIBRARY)/hothummei.pc > $(DESTDIR)$(PREFIX)/lib/pkgconfig/hothummei.pc; fi

# The archive, put together by c/pack, and conversations with servers that need none (c/check).
lib: needs-rt
	@(cd crates/hothummei_c && rt lib >> ../../$(LOG) 2>&1) || { echo "make lib: the build failed, see $(LOG)" >&2; exit 1; }
	@c/pack crates/hothummei_c/out/libhothummei_c.a $(LIBRARY)

check-lib: lib
	@c/check $(LIBRARY)

test: needs-rt
	rt ci

program: needs-rt
	@(cd crates/hothummei && rt run -- --version > ../../$(LOG) 2>&1) || { echo "make program: the build failed, see $(LOG)" >&2; exit 1; }

visit: needs-rt
	@(cd crates/example_visit && rt run >> ../../$(LOG) 2>&1) || { echo "make visit: the build failed, see $(LOG)" >&2; exit 1; }

relay: needs-rt
	@(cd crates/example_relay && rt run >> ../../$(LOG) 2>&1) || { echo "make relay: the build failed, see $(LOG)" >&2; exit 1; }

client: needs-rt
	@(cd crates/example_client && rt run >> ../../$(LOG) 2>&1) || { echo "make client: the build failed, see $(LOG)" >&2; exit 1; }

pool: needs-rt
	@(cd crates/example_pool && rt run >> ../../$(LOG) 2>&1) || { echo "make pool: the build failed, see $(LOG)" >&2; exit 1; }

web: needs-rt
	@(cd crates/example_web && rt run >> ../../$(LOG) 2>&1) || { echo "make web: the build failed, see $(LOG)" >&2; exit 1; }

live: program visit relay client pool web check-lib
	@live/run $(PROGRAM) $(VISIT) $(RELAY) $(CLIENT) $(POOL) $(WEB) $(LIBRARY)

fmt:
	@for crate in crates/*/; do (cd $$crate && rt fmt) || exit 1; done

edits: needs-rt
	.ci/edits $(CRATE)

plant: needs-rt
	@test -n "$(CRATE)" || { echo "make plant wants a crate, as make plant CRATE=pgw_wire; crates.txt lists them" >&2; exit 1; }
	cd crates/$(CRATE) && rt plant
