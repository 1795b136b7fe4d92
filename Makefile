# The gate, the proved program, and the programs that show it at work.

.PHONY: help build demo announced try install uninstall deb packages documents examples test mutants tried times \
	allocations bench hostile clean

PREFIX ?= /usr/local
CPU ?= $(shell scripts/cpu)
ROOT = $(DESTDIR)$(PREFIX)
# The documents that `install` copies. Each keeps its folder, so that the links between them work.
INSTALLED = LICENSE *.md docs/*.md docs/*.json examples/*.md examples/*/*

# Lists these targets.
help:
	@awk '/^# / { said = said (said ? " " : "") substr($$0, 3); next } \
		/^[a-z]+:/ && said { name = $$0; sub(/:.*/, "", name); printf "%-12s %s\n", name, said } { said = "" }' Makefile

# Proves the program and the crates that it depends on, a line each, and leaves it as build/sdfw, for the processor of
# this machine. With CPU=x86-64-v2 it runs on any processor since 2009. What `make test` proved is taken from there.
build:
	scripts/prove --cpu $(CPU)
	cp crates/sdfw/out/sdfw build/sdfw
	@echo "built: build/sdfw, for $(CPU)"

# Proves and builds the program, then converts a real 44,100 Hz file to 48,000 Hz.
demo: announced build
	@echo
	build/sdfw check examples/44100-to-48000/graph.toml
	build/sdfw run examples/44100-to-48000/graph.toml examples/gain/sine-mono-44100.wav build/sine-48000.wav
	@echo "converted examples/gain/sine-mono-44100.wav to 48,000 samples a second: build/sine-48000.wav"
	build/sdfw run examples/gain/gain.toml examples/gain/sine-mono-44100.wav build/half.wav
	@echo "made it half as loud: build/half.wav"

announced:
	@scripts/expected

# A first look within two minutes, with nothing proved: checks the rate converter and converts the shipped sound by it.
try:
	@scripts/try

# Copies the built program, its man page, its completions, its documents and its examples below PREFIX (/usr/local).
install:
	@test -x build/sdfw || { echo "there is no build/sdfw: make build" >&2; exit 1; }
	install -D -m 755 build/sdfw "$(ROOT)/bin/sdfw"
	install -D -m 644 docs/sdfw.1 "$(ROOT)/share/man/man1/sdfw.1"
	install -D -m 644 docs/completions/sdfw.bash "$(ROOT)/share/bash-completion/completions/sdfw"
	install -D -m 644 docs/completions/_sdfw "$(ROOT)/share/zsh/site-functions/_sdfw"
	install -D -m 644 docs/completions/sdfw.fish "$(ROOT)/share/fish/vendor_completions.d/sdfw.fish"
	for it in $(INSTALLED); do install -D -m 644 $$it "$(ROOT)/share/doc/sdfw/$$it" || exit 1; done

# Removes what `install` copied.
uninstall:
	rm -f "$(ROOT)/bin/sdfw" "$(ROOT)/share/man/man1/sdfw.1"
	rm -f "$(ROOT)/share/bash-completion/completions/sdfw"
	rm -f "$(ROOT)/share/zsh/site-functions/_sdfw"
	rm -f "$(ROOT)/share/fish/vendor_completions.d/sdfw.fish"
	rm -rf "$(ROOT)/share/doc/sdfw"

# Makes a Debian package of what `install` copies: build/sdfw.deb. Build the program with CPU=x86-64-v2 first, so that
# the package runs on every processor since 2009.
deb:
	scripts/deb

# Tries install, uninstall and deb below a temporary folder, without root: files, links, and that the program starts.
# Then make try, which takes about two minutes.
packages: build
	scripts/packages

# Whether the documents say what the program and the sources say: kinds, faults, JSON schemas, what commands print,
# functions without an edit, pages, the pictures of the examples. Whether all that they name is installed with them.
documents: build
	python3 docs/tables.py
	scripts/pages --check
	scripts/packages
	for it in $(filter-out examples/stuck/%,$(wildcard examples/*/graph.toml)); do \
		build/sdfw draw $$it --workers 2 | cmp - $${it%.toml}.svg || exit 1; done

# Whether each design of examples/, and designs that seeds make, make the bytes that Python's own arithmetic makes, also
# in parts, at both ends of pipes, what stands at a terminal, and what is left of an old OUT (needs python3.11; about
# three minutes).
examples: build
	scripts/examples
	scripts/pipes
	scripts/kept
	scripts/terminal
	scripts/sound --limits

# The gate: each proof that did not pass on this machine before, from nothing, the tests, each program as two compilers
# build it, and the wrong bodies that have names. What `make build` proved is taken from there.
test:
	scripts/gate

# The wrong bodies in mutants/ that were not refused on this machine before: of one crate (CRATE=name), or of all.
# With ALL=1 also those in must-fail/.
mutants:
	scripts/mutants $(if $(ALL),--all) $(CRATE)

# Which crates have changed, other than in comments and names, since their wrong bodies were last tried.
tried:
	scripts/tried

# Where a whole check's time goes: each crate and the fifty dearest functions, on a copy.
times:
	scripts/times $(CRATE)

# Counts the requests for memory of a short run and of a long one, by each runner, and of schedules: the numbers are
# equal, apart from those that start threads (needs python3 and gcc).
allocations:
	scripts/allocations

# Seconds and memory on noise, in turn with C for the same processor, and with sox and ffmpeg where they are installed
# (needs python3 and gcc); then what `run --parallel` gains on all cores and on one, beside C that cuts the sound in a
# part for each thread, and four copies of one thread at once.
bench: build
	python3 bench/run.py --cpu $(CPU)
	python3 bench/parallel.py --program $(CPU)=build/sdfw
	python3 bench/parallel.py --program $(CPU)=build/sdfw --core

# Memory, reads, writes and threads refused, one call at a time, devices that fail, and workers that are held up
# (needs python3 and gcc).
hostile: build
	scripts/prove hostile_calls
	cp crates/hostile_calls/out/hostile_calls build/hostile_calls
	gcc -O2 -Wall -Wextra -shared -fPIC -o build/refuse.so hostile/refuse.c
	python3 hostile/run.py

clean:
	rm -rf build crates/*/out
