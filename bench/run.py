"""Times `run` on graphs of four shapes, each at two sizes.

The words are the program's path; or `text SHAPE SIZE`, which prints the text of a shape's graph; or `lines SIZE`, which is the
loop in Python: it prints the lines that the run of the loop's graph writes.
"""
import filecmp
import json
import os
import subprocess
import sys
import tempfile

sys.dont_write_bytecode = True
from timing import timed

READING = ["python3", "-c", "import json,sys; json.load(sys.stdin)"]
MEASURED = 10
MOST_PICKS = 10_000
TRUTH = "(|)"
NEXT = "(int|)"


def node(op, parent, **keys):
    return {"op": op, "parent": parent, **keys}


def function():
    """The nodes of a module with the one function `main`, whose region is still empty."""
    return [node("Module", 0), node("FuncDefn", 0, name="main", ins=[], outs=[]),
            node("Input", 1, types=[]), node("Output", 1, types=[])]


def text_of(nodes, edges):
    graph = {"edges": edges, "nodes": nodes, "version": "profile-2"}
    return json.dumps(graph, separators=(",", ":"), sort_keys=True)


def chain(gates):
    """A qubit that passes through so many gates, with order links."""
    names = ["alloc"] + [("h", "x")[k % 2] for k in range(gates)] + ["free"]
    nodes = function() + [node("quantum." + name, 1) for name in names]
    edges = []
    for k in range(5, len(nodes)):
        edges += [[[k - 1, 0], [k, 0]], [[k - 1, None], [k, None]]]
    return text_of(nodes, edges)


def nested(levels):
    """So many parts, each inside the one before it, and nothing else."""
    nodes = function()
    outer = 1
    for _ in range(levels):
        part = len(nodes)
        nodes += [node("DFG", outer, ins=[], outs=[]), node("Input", part, types=[]), node("Output", part, types=[])]
        outer = part
    return text_of(nodes, [])


def wide(children):
    """So many tuples of nothing, all of which are ready at once."""
    return text_of(function() + [node("Tag", 1, rows=[[]], tag=0)] * children, [])


# The links of ports of the loop below: from a node and its port to a node and its port.
LOOP_LINKS = """5.0 6.0, 6.0 7.0, 4.0 7.1, 7.0 8.0, 9.1 11.0, 12.0 13.0, 9.0 14.0, 13.0 14.1, 15.0 16.0, 14.0 17.0, 16.0 17.1,
18.0 19.0, 17.0 20.0, 19.0 20.1, 20.0 21.0, 11.0 21.1, 21.0 10.1, 14.0 22.0, 19.0 22.1, 22.0 23.0, 14.0 23.1, 23.0 10.0,
25.0 26.0, 28.0 30.0, 30.0 29.0, 34.0 33.0, 36.0 38.0, 38.0 37.0"""


def loop(rounds):
    """A loop that counts down from so many: a gate in each round, and a measurement in each tenth."""
    nodes = function() + [
        node("quantum.alloc", 1), node("Const", 1, value=rounds), node("LoadConstant", 1),
        node("TailLoop", 1, again=["int"], leave=[], rest=["qubit"]), node("quantum.free", 1),
        node("Input", 7, types=["int", "qubit"]), node("Output", 7, types=[NEXT, "qubit"]), node("quantum.h", 7),
        node("Const", 7, value=1), node("LoadConstant", 7), node("int.sub", 7),
        node("Const", 7, value=MEASURED), node("LoadConstant", 7), node("int.mod", 7),
        node("Const", 7, value=0), node("LoadConstant", 7), node("int.eq", 7),
        node("Conditional", 7, rows=[[], []], ins=["qubit"], outs=["qubit"]), node("int.gt", 7),
        node("Conditional", 7, rows=[[], []], ins=["int"], outs=[NEXT])]
    for parent, row, inner in ((21, "qubit", None), (21, "qubit", node("quantum.measure", 27)),
                               (23, "int", node("Tag", 31, rows=[["int"], []], tag=1)),
                               (23, "int", node("Tag", 35, rows=[["int"], []], tag=0))):
        case = len(nodes)
        out = row if row == "qubit" else NEXT
        nodes += [node("Case", parent, ins=[row], outs=[out]),
                  node("Input", case, types=[row]), node("Output", case, types=[out])]
        nodes += [inner] if inner else []
    ends = [[[int(n) for n in end.split(".")] for end in link.split()] for link in LOOP_LINKS.split(",")]
    return text_of(nodes, ends)


def outcomes(rounds):
    return "".join("01"[k % 2] for k in range(rounds // MEASURED))


def print_lines(rounds):
    """What the run of the loop writes, with the value of each port in a dictionary."""
    left = iter(outcomes(rounds))
    values = {(5, 0): rounds, (4, 0): 0}
    lines = ["alloc 0"]
    values[9, 0], values[9, 1] = values[5, 0], values[4, 0]
    while True:
        values[11, 0] = values[9, 1]
        lines.append(f"h {values[11, 0]}")
        values[13, 0], values[16, 0], values[19, 0] = 1, MEASURED, 0
        values[14, 0] = values[9, 0] - values[13, 0]
        values[17, 0] = values[14, 0] % values[16, 0]
        values[20, 0] = values[17, 0] == values[19, 0]
        values[21, 0] = values[11, 0]
        if values[20, 0]:
            lines.append(f"measure {values[21, 0]} {next(left)}")
        values[22, 0] = values[14, 0] > values[19, 0]
        values[23, 0] = (0, values[14, 0]) if values[22, 0] else (1,)
        if values[23, 0][0] == 1:
            break
        values[9, 0], values[9, 1] = values[23, 0][1], values[21, 0]
    lines += [f"free {values[21, 0]}", "end return"]
    sys.stdout.write("".join(line + "\n" for line in lines))


def last_picks(children):
    """Picks that take the last of so many children that are ready at once, then the last of what is left, and so on."""
    return ",".join(str(children - 1 - k) for k in range(min(children, MOST_PICKS)))


# Each shape: what makes its text, its larger size, and the further words of the call.
SHAPES = {
    "chain": (chain, 200_000, lambda size: []),
    "nested": (nested, 240_000, lambda size: []),
    "loop": (loop, 1_000_000, lambda size: ["--turns", str(size), "--outcomes", outcomes(size)]),
    "wide": (wide, 200_000, lambda size: ["--picks", last_picks(size)]),
}


def beside(shape, size, path, trace, work):
    """The best time of what the run is compared with."""
    if shape != "loop":
        return timed(READING, stdin=path)[0]
    wanted = os.path.join(work, "wanted")
    took, _ = timed([sys.executable, os.path.abspath(__file__), "lines", str(size)], stdout=wanted)
    if not filecmp.cmp(trace, wanted, shallow=False):
        sys.exit(f"bench: the run of {shape} {size} writes other lines than Python")
    return took


def write_text(shape, size, path):
    """Makes the text in a process of its own: the peak of a process counts from that of the one that starts it."""
    with open(path, "w") as file:
        subprocess.run([sys.executable, os.path.abspath(__file__), "text", shape, str(size)], stdout=file, check=True)


def measure(program, work, shape):
    _, largest, words = SHAPES[shape]
    before = None
    for size in (largest // 2, largest):
        path, trace = os.path.join(work, "graph.json"), os.path.join(work, "trace")
        write_text(shape, size, path)
        took, peak = timed([program, "run", path, *words(size)], stdout=trace)
        python = beside(shape, size, path, trace, work)
        length = os.path.getsize(path)
        growth = "" if before is None else f"{took / before:6.2f}"
        print(f"{shape:>7} {size:8} {length:9}  {took:7.3f}  {peak:5.0f}  {peak * 1024 * 1024 / length:7.1f}"
              f"  {python:7.3f}  {took / python:5.2f}  {growth}", flush=True)
        before = took


def main(program):
    print("  shape     size     bytes  seconds    MiB  x bytes  python3  ratio  growth")
    with tempfile.TemporaryDirectory() as work:
        for shape in SHAPES:
            measure(program, work, shape)


if sys.argv[1:2] == ["text"]:
    sys.stdout.write(SHAPES[sys.argv[2]][0](int(sys.argv[3])))
elif sys.argv[1:2] == ["lines"]:
    print_lines(int(sys.argv[2]))
else:
    main(sys.argv[1])
