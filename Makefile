# What a new user and the gate call. `rt` is the command of the Rattle kit.

.PHONY: demo first-insert play test build bench bench-codecs bench-durable bench-growth

SHELL := bash
.SHELLFLAGS := -o pipefail -c

# Plays the example of docs/EXAMPLES.md from a fresh clone, and prints each command with its reply.
demo:
	@tools/mtx-play examples/bank.json

# Plays commands of one's own, one in JSON on each line: `make play FILE=mine.json`. TIMES=--times shows the times of replies.
FILE ?= examples/bank.json
play:
	@tools/mtx-play $(TIMES) $(FILE)

# Plays one insert, and prints the bytes that come back.
first-insert:
	cd crates/mtx && rt try -- play < ../../examples/first-insert.play

# The gate: every proof, every wrong body that must be refused, every test, and the program as two compilers build it.
test:
	bash .ci/run

# Proves the program and all below it, and leaves it at crates/mtx/out/mtx.
build:
	cd crates/mtx && rt run -- play < ../../examples/first-insert.play
	@ls -l crates/mtx/out/mtx

# How many commands a second the proved program does (docs/BENCH.md). No part of the gate.
bench:
	bench/commands

# How the time of a message grows with what it holds and with what is stored (docs/BENCH.md). No part of the gate.
bench-growth:
	bench/growth

# How many megabytes of documents a second are read and written (docs/BENCH.md). No part of the gate.
bench-codecs:
	cd crates/codec_cases && rt run > /dev/null
	bench/codecs

# How many inserts a second are kept in files for good, as a share of what the disk does (docs/BENCH.md). No part of the gate.
bench-durable:
	cd crates/mtx_durable && folder=$$(mktemp -d) && rt run -- $$folder < stdin > /dev/null && rm -r $$folder
	bench/durable
