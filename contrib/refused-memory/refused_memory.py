#!/usr/bin/env python3
"""Runs a program once for each of its requests for memory, with that one refused, and tells how it ended.

usage: refused_memory.py [--input FILE] [--compiler CC] [--first N] PROGRAM [WORD..]
Each run has the same words and the same input. Wanted is status 1 with the line `want of memory`, or nothing, on
standard error, and nothing on standard output; or, where the program does without, just what it gives with that
memory. Every other end is told, with the number of the request; so is a program that is ended by a signal or runs for
a minute. Exit status 1 where there is one, 2 where no run could be made.
"""
import argparse
import collections
import os
import subprocess
import sys
import tempfile

# The C library's requests, counted in a page of the file REQUESTS, so that they are told however the program ends; the one
# whose number is REFUSED_AT is refused.
SHIM = r"""
#include <errno.h>
#include <fcntl.h>
#include <stddef.h>
#include <stdlib.h>
#include <sys/mman.h>
#include <unistd.h>
extern void *__libc_malloc(size_t);
extern void *__libc_calloc(size_t, size_t);
extern void *__libc_realloc(void *, size_t);
static unsigned long refused_at, *requests;
static int is_refused(void) {
  if (!requests || __atomic_add_fetch(requests, 1, __ATOMIC_SEQ_CST) != refused_at) return 0;
  errno = ENOMEM;
  return 1;
}
void *malloc(size_t n) { return is_refused() ? NULL : __libc_malloc(n); }
void *calloc(size_t n, size_t m) { return is_refused() ? NULL : __libc_calloc(n, m); }
void *realloc(void *p, size_t n) { return is_refused() ? NULL : __libc_realloc(p, n); }
__attribute__((constructor)) static void begin(void) {
  const char *at = getenv("REFUSED_AT"), *path = getenv("REQUESTS");
  if (at) refused_at = strtoul(at, NULL, 10);
  int file = path ? open(path, O_RDWR | O_CREAT | O_TRUNC, 0600) : -1;
  if (file < 0 || ftruncate(file, sizeof *requests)) return;
  void *page = mmap(NULL, sizeof *requests, PROT_READ | PROT_WRITE, MAP_SHARED, file, 0);
  close(file);
  if (page != MAP_FAILED) requests = page;
}
"""
WANTED = {b"want of memory\n": "status 1, want of memory", b"": "status 1, no line"}
SAME = "the same as with that memory"


def build(compiler, folder):
    source, library = os.path.join(folder, "shim.c"), os.path.join(folder, "shim.so")
    with open(source, "w") as file:
        file.write(SHIM)
    subprocess.run([compiler, "-O1", "-fno-builtin", "-shared", "-fPIC", "-o", library, source], check=True)
    return library


def run(library, words, data, at, counts):
    """How a run ends, and how many requests it made."""
    env = dict(os.environ, LD_PRELOAD=library, REFUSED_AT=str(at), REQUESTS=counts)
    if os.path.exists(counts):
        os.remove(counts)
    try:
        done = subprocess.run(words, input=data, capture_output=True, env=env, timeout=60)
    except subprocess.TimeoutExpired:
        return None, b"", b"", None
    requests = None
    if os.path.exists(counts):
        with open(counts, "rb") as file:
            requests = int.from_bytes(file.read(), sys.byteorder)
    return done.returncode, done.stdout, done.stderr, requests


def name_of(status, text, line, plain):
    if status is None:
        return "no end in a minute"
    if status < 0:
        return f"signal {-status}"
    if status == 1 and text == b"" and line in WANTED:
        return WANTED[line]
    if (status, text, line) == plain:
        return SAME
    told = line.decode(errors="replace").strip() or "no line"
    return f"status {status}, {len(text)} bytes, {told}"


def main():
    parser = argparse.ArgumentParser(description=__doc__.splitlines()[0])
    parser.add_argument("--input", default=os.devnull, help="the file that is the input")
    parser.add_argument("--compiler", default=os.environ.get("CC", "cc"), help="a C compiler")
    parser.add_argument("--first", type=int, default=1, help="the number of the first request to be refused")
    parser.add_argument("program", nargs=argparse.REMAINDER)
    given = parser.parse_args()
    if not given.program:
        parser.error("no program")
    with open(given.input, "rb") as file:
        data = file.read()
    with tempfile.TemporaryDirectory() as folder:
        counts = os.path.join(folder, "requests")
        try:
            library = build(given.compiler, folder)
            *plain, requests = run(library, given.program, data, 0, counts)
        except (OSError, subprocess.CalledProcessError) as why:
            print(f"no run could be made: {why}", file=sys.stderr)
            return 2
        if not requests:
            print("the program told of no requests", file=sys.stderr)
            return 2
        ends = collections.Counter()
        wanted = {SAME, *WANTED.values()}
        for at in range(given.first, requests + 1):
            *end, _ = run(library, given.program, data, at, counts)
            if end[0] == plain[0] and end != plain:
                # The clock went on.
                *plain, _ = run(library, given.program, data, 0, counts)
            name = name_of(*end, tuple(plain))
            ends[name] += 1
            if name not in wanted:
                print(f"request {at}: {name}")
        print(f"{requests} requests, status {plain[0]} with all of them")
        for name, count in ends.most_common():
            print(f"{count} of them refused: {name}")
    return 0 if set(ends) <= wanted else 1


if __name__ == "__main__":
    sys.exit(main())
