"""Times the program `hg_bench` on the tasks and numbers of the command line, two words for each run."""
import os
import sys

sys.dont_write_bytecode = True
from timing import timed

program = os.path.join(os.path.dirname(os.path.abspath(__file__)), "../crates/hg_bench/out/hg_bench")
if not os.access(program, os.X_OK):
    sys.exit("bench: build hg_bench first, by rt run in crates/hg_bench")
print(" task   number  seconds  us/each    MiB")
for task, number in zip(sys.argv[1::2], sys.argv[2::2]):
    took, peak = timed([program, task, number])
    print(f"{task:>5} {number:>8}  {took:7.3f}  {took / int(number) * 1e6:7.2f}  {peak:5.0f}")
