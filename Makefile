# What can be done here. `make help` says it in words.
.PHONY: help list lib install test bench prove proofs fmt

export FILE ?= examples/small.wasm
export PREFIX ?= /usr/local

help:
	@echo 'make list    lists the sections of a module: FILE=module.wasm, or FILE=- for standard input;'
	@echo '             without FILE a small module of this repository'
	@echo 'make lib     proves the library and writes target/staticlib/libwakemiono.a, for C and Rust on x86-64'
	@echo 'make install lays down header, archive and pkg-config file below PREFIX (/usr/local), and the manual page and'
	@echo '             the completions of the command'
	@echo 'make test    the whole gate: proves every crate, has every must-fail edit refused,'
	@echo '             runs every program; its last line is "N passed, 0 failed"'
	@echo 'make bench   counts the instructions that the library and the second reader execute, as a table and as'
	@echo '             docs/bench.tsv'
	@echo 'make prove   proves what changed since the last proof'
	@echo 'make proofs  CRATES="names walk" fits their answers to the goals that there are now, those that only search;'
	@echo '             without CRATES it says which answers are made by hand'
	@echo 'make fmt     lays out every source file'

list:
	@tools/list "$$FILE"

lib:
	@tools/lib

install:
	@tools/install "$$PREFIX"

test:
	@tools/gate

bench:
	@tools/bench

prove:
	@tools/need rt
	@rt all check

proofs:
	@tools/proofs $(CRATES)

fmt:
	@tools/need rt
	@for crate in crates/*/; do (cd "$$crate" && rt fmt) || exit; done
