#!/usr/bin/env bash
# Runs the merge gate, and prints the processor seconds that each crate's proof, tests and must-fail edits took in it.
# What an earlier run on this machine passed isn't done again: the figures are those of a gate from nothing only on a
# machine that keeps nothing.
set -u
cd "$(dirname "$0")/.." || exit 1
exec python3 bench/gate.py "${1:-gate.log}"
