#!/usr/bin/env bash
# Times `run` on graphs of four shapes, with the proved program, beside python3's reading of the same text. Wants the program
# built (./guppy does that), bash, python3 and GNU time.
#
# The shapes are a chain of gates; parts inside one another; a loop with a gate in each round, a measurement in each tenth and
# two branches; and a region whose children are all ready at once, run under picks that take the last of them. Each stands there
# at two sizes. For each the script prints the bytes of the text, the best wall time of three in seconds, the peak memory in MiB
# and how many times the text's bytes that is, the best time of python3 -c 'import json,sys; json.load(sys.stdin)', the ratio of
# the two times, and how much longer the larger size takes than the smaller one. The loop, whose text is short, is timed beside
# a program in Python that keeps the same values in a dictionary; the script fails where the two don't write the same lines.
set -eu
home=$(cd "$(dirname "${BASH_SOURCE[0]}")/.." && pwd)
program=$home/crates/guppy_top/out/guppy_top
[ -x "$program" ] || { echo "bench: build the program first, by ./guppy" >&2; exit 1; }
python3 "$home/bench/run.py" "$program"
