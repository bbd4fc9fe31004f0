# The two commands of README.md, and what they are made of.
.PHONY: demo test check lib ceos differential fuzz peers bench clean

# sets up what is needed and runs the main job on a sample
demo:
	@scripts/demo

# everything: proofs, must-fail edits, programs, formatting, the library for C, the house's own rules
test:
	@scripts/test

# the quick look while working: the proofs; what has not changed is not proved again
check:
	rt all check

# the library for C, x86-64: target/lib/libseobangyu.a, libseobangyu.so, seobangyu.h
lib:
	@scripts/lib

# the program for whole products on disk: target/host/ceos
ceos:
	@scripts/host

# the library through its C boundary against the oracle, as many cases as wanted: make differential CASES=1000000 SEED=7
differential:
	@python3 tests/boundary/differential/run.py --cases $(or $(CASES),200000) --seed $(or $(SEED),20260)

# a fuzz run of the C boundary: make fuzz SECONDS=600
fuzz:
	@scripts/fuzz $(or $(SECONDS),60)

# GDAL beside this reader: every pixel of scenes made here, and damaged ones; writes docs/PEERS.md
peers:
	@scripts/peers

# times the library against plain C of the same jobs (docs/SPEED.md)
bench:
	@scripts/bench

clean:
	rm -rf target
