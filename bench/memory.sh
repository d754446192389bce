#!/usr/bin/env bash
# Refuses each request for memory in turn, in calls of the proved program, one run for each request: the status has to be 5, with
# nothing on standard error and a part from the front of the whole on standard output. Wants the program built (./guppy does that),
# a C compiler and python3. No clause says this, since none can tie want of memory to a request that was really refused.
set -eu
home=$(cd "$(dirname "${BASH_SOURCE[0]}")/.." && pwd)
program=$home/crates/guppy_top/out/guppy_top
[ -x "$program" ] || { echo "bench: build the program first, by ./guppy" >&2; exit 1; }
python3 "$home/bench/memory.py" "${1:-$program}" "$home/examples"
