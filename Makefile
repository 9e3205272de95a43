# The ways in. `make run` runs the program `names`, `make test` checks everything, `make time` says what that spent.
.PHONY: run test time bench

# The script that `make run` reads: document 01's example, or FILE=path.
FILE ?= crates/names/stdin

run:
	@tools/run.sh "$(FILE)"

test:
	@tools/test.sh

time:
	@tools/time.sh

bench:
	@bench/run.sh
