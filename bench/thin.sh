#!/usr/bin/env bash
# Times `compile` on thin texts and `run` on thin graphs, with the proved program, beside python3's reading of
# the same graph in the same run. Wants the program built (./guppy does that), bash, python3 and GNU time.
#
# For each size it prints the wall time in seconds, the peak memory in MiB, and the ratio of the program's time
# to that of python3 -c 'import json,sys; json.load(sys.stdin)' on the same graph: for `compile` the graph that
# it writes, for `run` the one that it reads.
set -eu
home=$(cd "$(dirname "${BASH_SOURCE[0]}")/.." && pwd)
program=$home/crates/guppy_top/out/guppy_top
[ -x "$program" ] || { echo "bench: build the program first, by ./guppy" >&2; exit 1; }
work=$(mktemp -d)
trap 'rm -rf "$work"' EXIT

PYTHONPATH=$home/bench PYTHONDONTWRITEBYTECODE=1 python3 - "$program" "$work" "$home/examples/coin.py" <<'PY'
import json
import os
import sys

from timing import timed

program, work, example = sys.argv[1:]
head = open(example).read().split("    h(q)\n")[0]


def reading(path):
    """The best time in which Python reads the graph."""
    return timed(["python3", "-c", "import json,sys; json.load(sys.stdin)"], stdin=path)[0]


def thin_graph(gates):
    nodes = [{"op": "Module", "parent": 0},
             {"ins": [], "name": "main", "op": "FuncDefn", "outs": [], "parent": 0},
             {"op": "Input", "parent": 1, "types": []}, {"op": "Output", "parent": 1, "types": []}]
    ops = ["alloc"] + [("h", "x")[k % 2] for k in range(gates)] + ["free"]
    nodes += [{"op": "quantum." + op, "parent": 1} for op in ops]
    edges = []
    for k in range(5, len(nodes)):
        edges += [[[k - 1, 0], [k, 0]], [[k - 1, None], [k, None]]]
    graph = {"edges": edges, "nodes": nodes, "version": "profile-2"}
    return json.dumps(graph, separators=(",", ":"))


graph = os.path.join(work, "thin.json")
print("compile: lines      bytes  seconds    MiB  python3  ratio")
for lines in (1000, 2000, 4000, 5000):
    body = "".join(f"    {'hx'[k % 2]}(q)\n" for k in range(lines - 1)) + "    discard(q)\n"
    path = os.path.join(work, "thin.py")
    open(path, "w").write(head + body)
    took, peak = timed([program, "compile", path], stdout=graph)
    python = reading(graph)
    print(f"        {lines:6}  {len(head + body):9}  {took:7.3f}  {peak:5.0f}  {python:7.3f}  {took / python:5.2f}")

print("run:     nodes      bytes  seconds    MiB  python3  ratio")
for count in (10_000, 100_000, 200_000):
    open(graph, "w").write(thin_graph(count - 6))
    took, peak = timed([program, "run", graph])
    python = reading(graph)
    print(f"        {count:6}  {os.path.getsize(graph):9}  {took:7.3f}  {peak:5.0f}  {python:7.3f}  {took / python:5.2f}")
PY
