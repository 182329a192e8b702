# Proves and builds Poltxegun. The kit's `rt` does all the work; this file only names the usual targets. `make help` lists them.

PREFIX ?= /usr/local
RT ?= rt
# the program that `dist` and `install` take; name another with PROGRAM=..
PROGRAM := bin/chaosd
BENCHES := codec links window host file seal turn
PROGRAM_BENCHES := lines copies calls show lab loop stack simulate
DIALOGUES := out/checked/random_dialogues
SEALS := out/checked/random_seals
SEED ?= $(shell date +%s)
PACKETS ?= 1000000
DATAGRAMS ?= 1000000
RUNS ?= 100000

.PHONY: all help try demo test check fmt fmt-check lint wrong-bodies dialogues seals simulate planted coverage pictures bench $(PROGRAM_BENCHES:%=bench-%) $(BENCHES:%=bench-%) dist deb ncp install uninstall clean unstamped current

all: bin/chaosd ## prove the program and all crates below it, and build bin/chaosd

help: ## list these targets
	@sed -n 's/^\([a-zA-Z][^:=]*\):[^#]*## \(.*\)/\1\t\2/p' $(MAKEFILE_LIST) | while IFS="$$(printf '\t')" read -r target what; do printf 'make %-14s %s\n' "$$target" "$$what"; done

# proved again where its stamp doesn't say that it was proved from these sources
.SECONDEXPANSION:
bin/chaosd: $$(if $$(shell tools/stamp check bin/chaosd 2>&1),unstamped)
	@echo "Proving and building bin/chaosd takes some $$((80 / $$(nproc) > 25 ? 80 / $$(nproc) : 25)) minutes on these $$(nproc) cores; 'make try' needs no proof."
	@RT=$(RT) tools/build chaosd --help
	install -D -m 644 crates/chaosd/out/chaosd.stamp $@.stamp
	install crates/chaosd/out/chaosd $@

# what is installed and packed is there where it was built from these sources, proved or not
current: $$(if $$(shell tools/stamp built $(PROGRAM) > /dev/null 2>&1 || echo no),$(PROGRAM))

try: ## build bin/chaosd without proof and with the compiler's checks, in two minutes: much slower than the proved program, and for trying
	@tools/stamp built bin/chaosd 2> /dev/null || { \
	  echo "Compiling bin/chaosd with checks and without proof takes two minutes, and longer on a busy machine." && \
	  RT=$(RT) tools/checked chaosd > /dev/null && install -D -m 644 out/checked/chaosd.stamp bin/chaosd.stamp && \
	  install out/checked/chaosd bin/chaosd && tools/stamp built bin/chaosd; }

demo: try ## show a FILE session between two hosts in one process, by bin/chaosd as it is proved or tried
	@tools/demo

test: ## run all tests without proof, in some minutes; NAME=.. is a crate of tests, a file or class of tests/, or a word of a name
	@RT=$(RT) tools/test $(NAME)

check: ## run the gate: claims, every proof from nothing, mutants, tests, and the program as a user meets it
	@RT=$(RT) tools/gate

fmt: ## format all .rt, .antt and .rt.in files
	@RT=$(RT) tools/fmt

fmt-check: ## name the files that aren't formatted
	@RT=$(RT) tools/fmt --check

lint: ## check documents, links, scripts and tracked files, in seconds
	@tools/lint

wrong-bodies: ## try every mutant of wrong-bodies/, before a release and with a new kit; the gate tries only those that a change affects
	@RT=$(RT) tools/wrong-bodies

dialogues: ## play random dialogues between two hosts, a million packets from a seed of the clock; SEED=.. PACKETS=..
	@RT=$(RT) tools/checked random_dialogues
	@$(DIALOGUES) $(SEED) $(PACKETS)

seals: ## flip bits of a million sealed datagrams from a seed of the clock, none of which may hand a packet up; SEED=.. DATAGRAMS=..
	@RT=$(RT) tools/checked random_seals
	@$(SEALS) flips $(SEED) $(DATAGRAMS)

simulate: ## play the whole program in simulated worlds, 100,000 runs from a seed of the clock; SEED=.. RUNS=..
	@RT=$(RT) tools/simulate --seed $(SEED) --runs $(RUNS) --jobs $$(nproc)

planted: ## plant bugs, one at a time, and print after how many runs the simulator finds each
	@RT=$(RT) tools/planted

coverage: ## print the lines of the program that no simulated run reached, of 20,000 runs
	@RT=$(RT) tools/coverage

pictures: ## draw the pictures of the documents again (python3, graphviz)
	@tools/ladder --pictures docs/pictures
	@tools/layers | tred | dot -Tsvg -o docs/pictures/layers.svg
	@python3 bench/plot.py docs/SPEED.md > docs/pictures/lines.svg

bench: bin/chaosd ## time everything beside the same work in plain Rust, and write docs/SPEED.md; bench-show, bench-lab and so on run one bench
	@RT=$(RT) python3 bench/speed.py

$(PROGRAM_BENCHES:%=bench-%): bench-%: bin/chaosd
	@python3 bench/$*.py

$(BENCHES:%=bench-%): bench-%:
	@RT=$(RT) python3 bench/beside.py $*

dist: current ## pack the program, its manual page, documents, examples, dissector and licences into a tar file in out/, with its SHA-256 beside it; the file's name says if the program isn't proved
	@tools/dist $(PROGRAM) out

deb: current ## pack the same into a Debian package in out/, with its SHA-256 beside it, which dpkg-deb builds and `apt install ./out/FILE` installs
	@tools/dist --deb $(PROGRAM) out

ncp: ## prove the library for C, libchaos_ncp.a, and put it into out/ncp with its header and the example `get`: docs/NCP.md
	@RT=$(RT) tools/build chaos_ncp
	@mkdir -p out/ncp
	@install -m 644 crates/chaos_ncp/out/libchaos_ncp.a crates/chaos_ncp/include/chaos_ncp.h out/ncp
	@cd out/ncp && ar x "$$(dirname "$$(readlink -f "$$(command -v $(RT))")")/../c/liblibc_c.a" heap.pic.o && ar q libchaos_ncp.a heap.pic.o && rm heap.pic.o
	@$(CC) -std=c11 -O2 -D_POSIX_C_SOURCE=200809L -I out/ncp examples/c/get.c out/ncp/libchaos_ncp.a -o out/ncp/get
	@echo "out/ncp has libchaos_ncp.a, chaos_ncp.h and get"

# systemd reads units below /usr/local and /usr; the one that is installed names the program where it was put
install: current ## install the program, proved or tried, its stamp, its manual page, the dissector and the unit for systemd below PREFIX, by default /usr/local
	@tools/stamp check $(PROGRAM) || true
	install -d "$(DESTDIR)$(PREFIX)/bin" "$(DESTDIR)$(PREFIX)/share/man/man1" "$(DESTDIR)$(PREFIX)/share/chaosd" "$(DESTDIR)$(PREFIX)/lib/systemd/system"
	install -m 755 $(PROGRAM) "$(DESTDIR)$(PREFIX)/bin/chaosd"
	if tools/stamp print $(PROGRAM) > /dev/null; then install -m 644 $(PROGRAM).stamp "$(DESTDIR)$(PREFIX)/share/chaosd/chaosd.stamp"; else rm -f "$(DESTDIR)$(PREFIX)/share/chaosd/chaosd.stamp"; fi
	install -m 644 docs/chaosd.1 "$(DESTDIR)$(PREFIX)/share/man/man1/chaosd.1"
	install -m 644 tools/wireshark/chaosnet.lua "$(DESTDIR)$(PREFIX)/share/chaosd/chaosnet.lua"
	install -m 644 examples/chaosd.service "$(DESTDIR)$(PREFIX)/lib/systemd/system/chaosd.service"
	sed -i 's|/usr/local/bin/chaosd|$(PREFIX)/bin/chaosd|' "$(DESTDIR)$(PREFIX)/lib/systemd/system/chaosd.service"

uninstall: ## remove what `make install` with the same PREFIX installed
	rm -f "$(DESTDIR)$(PREFIX)/bin/chaosd" "$(DESTDIR)$(PREFIX)/share/man/man1/chaosd.1"
	rm -f "$(DESTDIR)$(PREFIX)/lib/systemd/system/chaosd.service" "$(DESTDIR)$(PREFIX)/share/chaosd/chaosnet.lua" "$(DESTDIR)$(PREFIX)/share/chaosd/chaosd.stamp"
	test ! -d "$(DESTDIR)$(PREFIX)/share/chaosd" || rmdir --ignore-fail-on-non-empty "$(DESTDIR)$(PREFIX)/share/chaosd"

clean: ## remove all that was built
	rm -rf bin out crates/*/out
