"""Wall times and peak memory of commands, for the benchmarks beside this file."""
import os
import subprocess
import sys
import tempfile
import time

# GNU time: a process that it starts doesn't begin with the size of this one, as each child of this one would.
GNU_TIME = "/usr/bin/time"


def timed(words, stdin=os.devnull, stdout=os.devnull):
    """The best of three wall times in seconds, and the peak memory in MiB."""
    best, peak = None, 0
    with tempfile.NamedTemporaryFile("r") as told:
        for _ in range(3):
            with open(stdin) as source, open(stdout, "w") as target:
                start = time.perf_counter()
                measured = [GNU_TIME, "--format=%M", f"--output={told.name}", *words]
                status = subprocess.run(measured, stdin=source, stdout=target).returncode
                took = time.perf_counter() - start
            if status != 0:
                sys.exit(f"bench: {words} ended with {status}")
            best = took if best is None else min(best, took)
            told.seek(0)
            peak = max(peak, int(told.read()) / 1024)
    return best, peak
