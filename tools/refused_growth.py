#!/usr/bin/env python3
"""Refuses the program memory, one allocation a run, and looks at what each run comes to.

    tools/refused_growth.py PROGRAM [STEP]

PROGRAM is the built program, crates/memlens/out/memlens. For each of a few runs, every STEPth allocation is refused in turn,
the first to the last (every one without STEP). A run must end with status 11, having written and dumped a prefix, or as
the run does of which nothing is refused. It prints a line for each run, and ends with 1 where one came to anything else.

It needs gcc, for the library that refuses.
"""

import concurrent.futures
import os
import subprocess
import sys
import tempfile

HERE = os.path.dirname(os.path.abspath(__file__))
SAMPLES = os.path.join(os.path.dirname(HERE), "samples")
MEMORY = 11

# Counts the calls that ask for memory, refuses one, and tells that it did.
REFUSER = r"""
#define _GNU_SOURCE
#include <dlfcn.h>
#include <stdlib.h>
#include <unistd.h>

static long refused, count;
static int tells;

__attribute__((constructor)) static void begin(void) {
  refused = atol(getenv("REFUSED"));
  tells = atoi(getenv("TELLS"));
}

static int refuse(void) {
  if (!refused || ++count != refused) return 0;
  return write(tells, "r", 1) == 1;
}

void *malloc(size_t size) {
  static void *(*next)(size_t);
  if (!next) next = (void *(*)(size_t))dlsym(RTLD_NEXT, "malloc");
  return refuse() ? NULL : next(size);
}

void *realloc(void *block, size_t size) {
  static void *(*next)(void *, size_t);
  if (!next) next = (void *(*)(void *, size_t))dlsym(RTLD_NEXT, "realloc");
  return refuse() ? NULL : next(block, size);
}
"""


def sample(name):
    return os.path.join(SAMPLES, name)


RUNS = [
    ("a word", [sample("sixteen.raw"), sample("small_kernel.json")], b"read phys 0 16\n"),
    ("objects", [sample("small_machine.lime"), sample("small_machine.json")], b"layout task_struct\nsymbol init_task\nnear 0xffffffff81203004\n"),
    ("commands over a kernel", [sample("small_machine.lime"), sample("small_machine.json")], None),
    ("searches", [sample("small_machine.lime"), sample("small_machine.json")], b"banners\nscan phys 0 65536 Linux\npstree\nlsmod\ncheck_syscall\n"),
    ("a dump", [sample("sixteen.raw"), sample("small_kernel.json"), "DUMP"], b"dump phys 14 4\nread phys 0 1\n"),
    ("the made run", ["--make", "1"], b""),
]


def run_once(program, refuser, words, script, refused):
    """The status, the text, what was dumped, and whether an allocation was refused."""
    with tempfile.TemporaryDirectory() as folder:
        dump = os.path.join(folder, "dump")
        words = [dump if word == "DUMP" else word for word in words]
        reading, writing = os.pipe()
        env = {"LD_PRELOAD": refuser, "REFUSED": str(refused), "TELLS": str(writing)}
        ended = subprocess.run([program, *words], input=script, capture_output=True, env=env, pass_fds=(writing,), check=False)
        os.close(writing)
        did = os.read(reading, 1) != b""
        os.close(reading)
        dumped = b""
        if os.path.exists(dump):
            with open(dump, "rb") as file:
                dumped = file.read()
        return ended.returncode, ended.stdout, dumped, did


def judge(whole, seen):
    if seen[:3] == whole[:3]:
        return "whole"
    if seen[0] == MEMORY and whole[1].startswith(seen[1]) and whole[2].startswith(seen[2]):
        return "prefix"
    return "WRONG"


def sweep(program, refuser, name, words, script, step, pool):
    whole = run_once(program, refuser, words, script, 0)
    counts = {"whole": 0, "prefix": 0, "WRONG": 0}
    first, going = 1, True
    while going:
        numbers = range(first, first + 256 * step, step)
        first += 256 * step
        for number, seen in zip(numbers, pool.map(lambda n: run_once(program, refuser, words, script, n), numbers)):
            if not seen[3]:
                going = False
                break
            came = judge(whole, seen)
            counts[came] += 1
            if came == "WRONG":
                print(f"  {name}: allocation {number} refused: status {seen[0]}, {len(seen[1])} bytes of text")
    total = sum(counts.values())
    print(f"{name}: status {whole[0]}; {total} refused: {counts['prefix']} with status 11 and a prefix, {counts['whole']} as if none, {counts['WRONG']} wrong")
    return counts["WRONG"] == 0 and total > 0


def main(program, step="1"):
    program = os.path.abspath(program)
    with tempfile.TemporaryDirectory() as folder:
        source, refuser = os.path.join(folder, "refuser.c"), os.path.join(folder, "refuser.so")
        with open(source, "w", encoding="ascii") as file:
            file.write(REFUSER)
        subprocess.run(["gcc", "-shared", "-fPIC", "-O1", "-o", refuser, source, "-ldl"], check=True)
        with open(sample("first.txt"), "rb") as file:
            first = file.read()
        good = True
        with concurrent.futures.ThreadPoolExecutor(os.cpu_count()) as pool:
            for name, words, script in RUNS:
                good &= sweep(program, refuser, name, words, first if script is None else script, int(step), pool)
    return 0 if good else 1


if __name__ == "__main__":
    sys.exit(main(*sys.argv[1:]) if len(sys.argv) in (2, 3) else __doc__)
