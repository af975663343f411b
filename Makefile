# make run      builds the programs makejob, verdicts, canonjob, replayjob and census, and lists a first example
# make c        builds the library, and runs the examples in C
# make test     all proofs, then all tests: what the gate does
# make bench    plain evaluation and runs beside other evaluators, as ratios
SHELL = /bin/bash
.SHELLFLAGS = -o pipefail -c
.PHONY: run programs c library test bench clean
compile = cc -std=c11 -Wall -Wextra -O2 -Iinclude

# shown: a line for each crate that is proved, and what rt says
programs:
	tests/built makejob verdicts canonjob replayjob census | grep -E '^(rt:|crate|error)'

run: programs
	target/bin/makejob < examples/fields/first.rules | target/bin/verdicts

library:
	tests/built zestchintz

c: library programs
	mkdir -p target/examples
	$(compile) -o target/examples/plain examples/c/plain.c target/staticlib/libzestchintz.a
	target/examples/plain
	$(compile) -o target/examples/parallax examples/c/parallax.c
	target/examples/parallax | cat - examples/fields/parallax.schedule | target/bin/verdicts

test:
	.ci/run

bench: library
	tests/built table_calls
	bench/run

clean:
	rm -rf target crates/*/out
