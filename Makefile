# `make run` runs the pass on a listing, FILE=.. or document 01's, and `make view` shows what it did (HOW=--html, --dot, --rounds:
# tools/view.py --help has them all); `make lib` makes the library for C and Rust; `make roles` prints the table of roles anew from the
# list of kinds; `make test` is the gate; `make compare` holds the port against the Rust at length; `make bench` writes docs/BENCH.md.
.PHONY: run view lib roles test compare bench
FILE = examples/listing.txt
export FILE

run:
	@tools/run.sh "$$FILE"

view:
	@tools/view.py $(HOW) "$$FILE"

lib:
	@tools/lib.sh
	@echo "target/lib has libvirdzeba.a and virdzeba.pc"

roles:
	@tools/roles.sh

test:
	.ci/run

compare:
	SUNK=100000 LARGE=400 tests/rust/compare.sh

bench:
	tests/rust/compare.sh --bench >docs/BENCH.md.new
	mv docs/BENCH.md.new docs/BENCH.md
