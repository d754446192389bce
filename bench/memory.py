"""Refuses each request for memory in turn.

The words are the program's path and the folder of the examples. For each call it prints how many requests the whole run makes, and
in how many of the runs with one request refused the status is 5. It fails where a run ends in another way, unless the run is the
whole one: then the request was none that the call needs.
"""
import os
import subprocess
import sys
import tempfile

# Counts the requests for memory and refuses the one whose number is in REFUSED; at the end it writes the count to COUNT.
SHIM = r"""
#define _GNU_SOURCE
#include <dlfcn.h>
#include <errno.h>
#include <stdio.h>
#include <stdlib.h>

static long made, refused;
static const char *count;

__attribute__((constructor)) static void begin(void) {
    const char *word = getenv("REFUSED");
    refused = word ? atol(word) : 0;
    count = getenv("COUNT");
    made = 0;
}

__attribute__((destructor)) static void end(void) {
    long whole = made;
    refused = 0;
    FILE *file = count ? fopen(count, "w") : NULL;
    if (file) { fprintf(file, "%ld", whole); fclose(file); }
}

static int is_refused(void) { return ++made == refused; }

#define NEXT(type, name) static type next; if (!next) next = (type)dlsym(RTLD_NEXT, name)

typedef void *(*one)(size_t);
typedef void *(*two)(void *, size_t);
typedef int (*three)(void **, size_t, size_t);
typedef void *(*aligned)(size_t, size_t);

void *malloc(size_t size) {
    NEXT(one, "malloc");
    return is_refused() ? (errno = ENOMEM, NULL) : next(size);
}

void *realloc(void *old, size_t size) {
    NEXT(two, "realloc");
    return is_refused() ? (errno = ENOMEM, NULL) : next(old, size);
}

int posix_memalign(void **found, size_t align, size_t size) {
    NEXT(three, "posix_memalign");
    return is_refused() ? ENOMEM : next(found, align, size);
}

void *aligned_alloc(size_t align, size_t size) {
    NEXT(aligned, "aligned_alloc");
    return is_refused() ? (errno = ENOMEM, NULL) : next(align, size);
}
"""

CALLS = [
    ["compile", "coin.py"],
    ["validate", "loop.json"],
    ["migrate", "loop.json"],
    ["run", "loop.json", "--outcomes", "110"],
    ["run", "function_value.json", "--turns", "3", "--picks", "0,1"],
    ["run", "loop.json", "--entry", "other"],
    ["validate", "coin.py"],
]


def build(folder):
    """The shim, built in the folder."""
    source, library = os.path.join(folder, "shim.c"), os.path.join(folder, "shim.so")
    with open(source, "w", encoding="utf-8") as it:
        it.write(SHIM)
    subprocess.run(["cc", "-O1", "-shared", "-fPIC", "-o", library, source, "-ldl"], check=True)
    return library


def run(program, examples, words, library, **settings):
    """The run of a call under the shim."""
    env = {**os.environ, "LD_PRELOAD": library, **settings}
    return subprocess.run([program, *words], cwd=examples, env=env, capture_output=True, timeout=60)


def trial(program, examples, words, library, count):
    """Tries a call: whether each of its runs ended well."""
    whole = run(program, examples, words, library, COUNT=count)
    with open(count, encoding="utf-8") as it:
        made = int(it.read())
    stopped = 0
    for k in range(1, made + 1):
        told = run(program, examples, words, library, REFUSED=str(k))
        same = (told.returncode, told.stdout, told.stderr) == (whole.returncode, whole.stdout, whole.stderr)
        cut = told.returncode == 5 and told.stderr == b"" and whole.stdout.startswith(told.stdout)
        if not same and not cut:
            print(f"{' '.join(words)}: request {k}: status {told.returncode}, {told.stdout!r}, {told.stderr!r}")
            return False
        stopped += cut
    print(f"{' '.join(words)}: {made} requests, {stopped} runs without memory")
    return True


def main(program, examples):
    with tempfile.TemporaryDirectory() as folder:
        library = build(folder)
        fine = [trial(program, examples, words, library, os.path.join(folder, "count")) for words in CALLS]
    sys.exit(not all(fine))


main(*sys.argv[1:])
