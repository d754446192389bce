#!/usr/bin/env bash
# Times how source texts are checked and run: the proved program `gp_bench` reads a text and checks its lines, its names and
# its types, beside CPython's `ast.parse` and `compile` of the same text in the same run; and it runs a loop of a million
# turns, beside CPython's run of the same text. Wants the program built (`rt run` in crates/gp_bench builds it), bash, python3
# and GNU time.
#
# For each text it prints the best wall time of three in seconds and CPython's, their ratio, and the peak memory in MiB. Each
# text stands there at about 32, 64 and 128 KiB, and the last columns are how many times the time and the memory of the shorter
# one it takes, were it just twice as long: the script fails where that is more than 2.2, and where CPython's `compile` is
# faster. Besides texts of many lines, names, functions, structs, branches, sums and imports there are two of one long name: a
# struct whose field has it, in many tuples of the struct and in tuples nested deep.
set -eu
python3 "$(dirname "${BASH_SOURCE[0]}")/front.py"
