.PHONY: run test beside bugs bench

# Proves and builds the board program, and plays a sample of sayings.
run:
	cd crates/board && rt run </dev/null
	crates/board/out/board crates/board/stdin

# The gate.
test:
	.ci/run

# Many more random sayings than the gate has, said to the keeper and to a slow board; SEED and COUNT may be given.
SEED = 2
COUNT = 10000000
beside:
	cd crates/beside && rt run -- $(SEED) 0 </dev/null >/dev/null
	crates/beside/out/beside $(SEED) $(COUNT)

# The keeper beside other libraries, which bench/Makefile names: measures all, and writes docs/SPEED.md and docs/speed.svg. With WORD, measures the workloads
# whose name has it, and writes nothing.
bench:
	cd crates/keeper_c && rt lib
	$(MAKE) -C bench measure WORD="$(WORD)"

# Plants bugs one at a time, and asks the prover whether it refuses each (docs/BUGS.md). Takes an hour or two, and goes on where it was interrupted.
bugs:
	tools/plant_bugs.py --log out/bugs.jsonl --resume
	tools/plant_bugs.py --log out/bugs.jsonl --table
