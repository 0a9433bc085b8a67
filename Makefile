.PHONY: help run try test check bench lib example install uninstall

WARNINGS = -std=c99 -pedantic -Wall -Wextra -Werror
PREFIX = /usr/local
DESTDIR =

help: ## lists these targets
	@sed -n 's/^\([a-z]*\):.*## /\1\t/p' Makefile | expand -t 12

run: ## proves and builds the programs into target/bin, and transcribes the sample roll
	@echo "proving and building finetalc, rollmake and recode (some minutes the first time) ..."
	@tools/programs
	@target/bin/finetalc crates/finetalc/stdin

try: run ## runs the programs on a table of cases: arguments, input, output, messages, status
	@tools/cli.py

test: ## proves everything and runs all tests; its last line is 'N passed, 0 failed'
	@tools/repertoire.py --check
	@tools/gate

check: ## proves one crate, quickly: make check CRATE=name
	@test -n "$(CRATE)" || { echo "make check CRATE=name, a crate of crates.txt"; exit 2; }
	@cd crates/$(CRATE) && rt check

bench: run example ## measures recode and the C interface beside the system's iconv
	@bench/bench.py

lib: ## proves and builds the library for clients in C, target/lib/libfinetalc.a and libfinetalc.so
	@echo "proving and building libfinetalc (some minutes the first time) ..."
	@tools/library

example: lib ## builds the example clients, in C and in Python, and transcribes a line with each
	@cc $(WARNINGS) -O2 -Iinclude examples/transcribe.c target/lib/libfinetalc.a -o target/transcribe
	@echo "in C:" && printf 'caf\302\145 na\310\151ve\n' | target/transcribe 1 6
	@echo "in Python:" && printf 'caf\302\145 na\310\151ve\n' | examples/transcribe.py 1 6

install: target/bin/recode target/lib/libfinetalc.so ## puts all in place below PREFIX (/usr/local)
	@tools/install "$(DESTDIR)" "$(PREFIX)"

# What `make run` and `make lib` have built is installed as it stands.
target/bin/recode:
	@$(MAKE) --no-print-directory run

target/lib/libfinetalc.so:
	@$(MAKE) --no-print-directory lib

uninstall: ## takes away just what install puts there
	@tools/install --uninstall "$(DESTDIR)" "$(PREFIX)"
