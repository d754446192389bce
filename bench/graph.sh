#!/usr/bin/env bash
# Times how graphs grow: the proved program `hg_bench` builds the graph of a function whose one qubit passes through
# as many gates as it is told, node by node and link by link, and ends; and then it does so by the calls of the builder. Wants the program built (`rt run` in
# crates/hg_bench builds it), bash, python3 and GNU time.
#
# For each size it prints the best wall time of three in seconds, the microseconds a gate, and the peak memory in MiB.
# Where growing takes the same time a gate in a large graph as in a small one, the fourth column stays about the same.
set -eu
python3 "$(dirname "${BASH_SOURCE[0]}")/graphs.py" grow 25000 grow 50000 grow 100000 grow 200000 \
    build 25000 build 50000 build 100000 build 200000
