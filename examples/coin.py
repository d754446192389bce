from guppylang import guppy
from guppylang.std.builtins import owned, result
from guppylang.std.quantum import qubit, h, x, z, cx, rz, measure, project_z, discard, reset
@guppy
def main() -> None:
    q = qubit()
    h(q)
    x(q)
    discard(q)
