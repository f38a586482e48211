# make run      prove what the program stands on, and run its demonstration
# make test     the gate: every listed crate from nothing, the comparison with the reference, the call from C
# make compare  compare the program with the reference on 20,000 scripts; FIRST and COUNT choose others
# make fmt      lay out the sources anew

FIRST = 0
COUNT = 20000

.PHONY: run test compare fmt

run:
	scripts/build.sh velvetopal
	crates/velvetopal/out/velvetopal

test:
	scripts/gate.sh

compare:
	scripts/compare.sh $(FIRST) $(COUNT)

fmt:
	for crate in crates/*/; do (cd "$$crate" && rt fmt) || exit 1; done
