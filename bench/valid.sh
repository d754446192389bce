#!/usr/bin/env bash
# Times how graphs are validated and tested for order: the proved program `hg_bench` builds the graph of a function whose one
# qubit passes through as many gates as it is told, or of a function with as many regions, each in the one before it, and
# tests it. Wants the program built (`rt run` in crates/hg_bench builds it), bash, python3 and GNU time.
#
# For each size it prints the best wall time of three in seconds, the microseconds a gate or region, and the peak memory in
# MiB, of building the graph and of testing it too: so the tests take the difference. Where they take the same time a node
# in a large graph as in a small one, the fourth column stays about the same.
set -eu
python3 "$(dirname "${BASH_SOURCE[0]}")/graphs.py" \
    grow 50000 chain 50000 grow 200000 chain 200000 nest 100000 nest 400000
