"""Times the program `gp_bench` on source texts of many shapes, each at three sizes, beside CPython's own front end on the same
texts; and a run of a loop beside CPython's run of the same text over a stand-in for the quantum module."""
import ast
import os
import sys
import tempfile
import time
import types

sys.dont_write_bytecode = True
from timing import timed

HOME = os.path.dirname(os.path.abspath(__file__))
PROGRAM = os.path.join(HOME, "../crates/gp_bench/out/gp_bench")
HEAD = open(os.path.join(HOME, "../examples/coin.py")).read().split("@guppy\n")[0]
GROWTH = 2.2
LIMIT = 131072
SIZES = (LIMIT // 4 - 512, LIMIT // 2 - 1024, LIMIT - 2048)
TURNS = 1_000_000


def function(name, lines):
    return f"@guppy\ndef {name}() -> None:\n" + "".join(f"    {line}\n" for line in lines)


def struct(field):
    return f"@guppy.struct\nclass P:\n    {field}: int\n"


def lines(size):
    """One name, in as many lines as there is room for."""
    return function("main", ["q = qubit()"] + ["h(q)"] * (size // 9) + ["discard(q)"])


def names(size):
    """As many names as there is room for, a hundred in each function."""
    row = [f"a{k} = {k}" for k in range(100)]
    return "".join(function(f"f{k}", row) for k in range(size // 1410))


def unchanged(size):
    """As many names as may be usable at once, and as many assignments that change none of their types as there is room for."""
    return function("main", [f"a{k} = {k}" for k in range(127)] + ["x = 1"] + ["x = x"] * ((size - 2000) // 10))


def functions(size):
    """As many functions as there is room for, each of which calls the one before it."""
    made = [function("f0", ["pass"])]
    made += [function(f"f{k}", [f"f{k - 1}()"]) for k in range(1, size // 47)]
    return "".join(made)


def structs(size):
    """As many structs as there is room for, in rows of sixteen, each of which has a field of the one before it."""
    return "".join(
        f"@guppy.struct\nclass S{k}:\n    a: int\n    b: {f'S{k - 1}' if k % 16 else 'int'}\n" for k in range(size // 55)
    )


def nested(size):
    """As many functions as there is room for, each with forty branches inside one another."""
    row = ["n = 1"] + ["    " * k + f"if n == {k}:" for k in range(40)] + ["    " * 40 + "n = 2"]
    text = function("f0", row)
    return "".join(function(f"f{k}", row) for k in range(size // (len(text) + 4)))


def expressions(size):
    """As many sums of a hundred numbers as there is room for."""
    line = "n = " + " + ".join(["1234"] * 100)
    return function("main", [line] * (size // (len(line) + 5)))


def imports(size):
    """As many imports as fill half of the room, and as many calls of what they import as fill the other half."""
    line = "from guppylang.std.quantum import s, t, cy, cz, rx, ry\n"
    row = ["q = qubit()"] + ["rx(q, 3)", "s(q)", "t(q)", "ry(q, 5)"] * (size // 2 // 51) + ["discard(q)"]
    return line * (size // 2 // len(line)) + function("main", row)


def long_field(size):
    """A struct whose field's name takes half of the text, and tuples of fifteen of its values in the other half."""
    line = "(" + ", ".join("p" * 15) + ")"
    user = "@guppy\ndef use(p: P) -> None:\n" + f"    {line}\n" * (size // 2 // (len(line) + 5))
    return struct("f" * (size // 2)) + user


def deep_tuples(size):
    """The same field, in tuples thirty deep around sixteen of the struct's values."""
    deep = "(" * 30 + ", ".join("p" * 16) + ",)" * 30
    user = "@guppy\ndef use(p: P) -> None:\n" + f"    {deep}\n" * (size // 2 // (len(deep) + 5))
    return struct("f" * (size // 2)) + user


def answer_of(text, words, wanted):
    """The best wall time and the peak memory of the program on a text, and a stop where it says another thing."""
    with tempfile.NamedTemporaryFile("w", suffix=".py") as source, tempfile.NamedTemporaryFile("r") as answer:
        source.write(text)
        source.flush()
        took, peak = timed([PROGRAM, *words], stdin=source.name, stdout=answer.name)
        verdict = answer.read().strip()
    if verdict != wanted:
        sys.exit(f"bench: the program says of a text not {wanted}, but {verdict}")
    return took, peak


def best(act):
    """The best wall time of three."""
    times = []
    for _ in range(3):
        start = time.perf_counter()
        act()
        times.append(time.perf_counter() - start)
    return min(times)


def doubled(before, now):
    """How many times the time and the memory of a text are those of another, were it just twice as long."""
    longer = now[2] / before[2] / 2
    return [now[k] / before[k] / longer for k in range(2)]


def compare_texts():
    """The shapes whose time or memory grows too much, and those on which CPython's `compile` is faster."""
    print("       text    bytes  seconds  ast.parse  compile  ratio    MiB  time and memory at twice the size")
    grown, slower = [], []
    for shape in (functions, lines, names, structs, nested, expressions, imports, unchanged, long_field, deep_tuples):
        before = None
        for size in SIZES:
            text = HEAD + shape(size)
            took, peak = answer_of(text, [], "passes")
            parsed = best(lambda: ast.parse(text))
            compiled = best(lambda: compile(text, "text", "exec"))
            now = took, peak, len(text)
            grows = [] if before is None else doubled(before, now)
            growth = " ".join(f"{it:6.2f}" for it in grows)
            row = f"{took:7.3f}  {parsed:9.3f}  {compiled:7.3f}  {took / compiled:5.2f}  {peak:5.0f}  {growth}"
            print(f"{shape.__name__:>11} {len(text):8}  {row}")
            if max(grows, default=0) > GROWTH:
                grown.append(f"{shape.__name__} of {len(text)} bytes")
            if took > compiled:
                slower.append(f"{shape.__name__} of {len(text)} bytes")
            before = now
    return grown, slower


def stand_in():
    """Modules in which the imports of a text find functions that do nothing."""
    for name in ("guppylang", "guppylang.std", "guppylang.std.builtins", "guppylang.std.quantum"):
        module = types.ModuleType(name)
        for it in ("owned", "result", "h", "x", "z", "cx", "rz", "measure", "project_z", "discard", "reset", "qubit"):
            setattr(module, it, lambda *values: None)
        module.guppy = lambda f: f
        sys.modules[name] = module


def compare_runs():
    """A loop of a million turns."""
    text = HEAD + function("main", ["a = 0", f"for i in range({TURNS}):", "    a = a + i % 7"])
    took, peak = answer_of(text, ["run"], "ran: Returned")
    stand_in()
    scope = {}
    exec(compile(text, "text", "exec"), scope)
    ran = best(scope["main"])
    print(f"a loop of {TURNS} turns: {took:.3f} seconds, CPython {ran:.3f}, ratio {took / ran:.2f}, {peak:.0f} MiB")


def main():
    if not os.access(PROGRAM, os.X_OK):
        sys.exit("bench: build gp_bench first, by rt run in crates/gp_bench")
    grown, slower = compare_texts()
    compare_runs()
    if grown:
        sys.exit(f"bench: more than {GROWTH} times as much at twice the size: {', '.join(grown)}")
    if slower:
        sys.exit(f"bench: slower than CPython's compile: {', '.join(slower)}")


main()
