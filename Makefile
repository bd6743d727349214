# demo: answers the shop's requests, in about a minute; build: the proved program; test: the gate
# plants: tries the bugs of plants/, of all crates or of those named; bench: the measurements
.PHONY: demo build test plants bench

demo:
	@bash examples/demo

build:
	@bash examples/build

test:
	@bash examples/gate

# The words behind `plants` are crates: they are no targets of their own.
ifeq (plants,$(firstword $(MAKECMDGOALS)))
crates := $(wordlist 2,$(words $(MAKECMDGOALS)),$(MAKECMDGOALS))
.PHONY: $(crates)
$(crates): plants
	@:
endif

plants:
	@python3 plants/run $(crates)

bench:
	@bash bench/run
