#!/usr/bin/env python3
"""Refuses each growth of memory in turn: the program must answer `no memory`, or end as if nothing had been refused.

    bench/stress/memory.py PROGRAM

PROGRAM is the built program. A library in front of the system's (made here with cc, in a temporary folder) refuses call
N of malloc, calloc and realloc, for N from 1 on until a run is no longer touched. With status 12 output and the file of
--recon or --list hold prefixes of what they would hold, and report the line; with another status all is as it would have been.
The numbers of calls refused and of those answered by 12 are printed, a line a command."""

import os
import subprocess
import sys
import tempfile
from pathlib import Path

SHIM = r'''
#define _GNU_SOURCE
#include <dlfcn.h>
#include <errno.h>
#include <fcntl.h>
#include <stdatomic.h>
#include <stdlib.h>
#include <unistd.h>
static atomic_long calls;
static long refused;
static char early[65536];
static size_t used;
static void *(*next_malloc)(size_t), *(*next_calloc)(size_t, size_t), *(*next_realloc)(void *, size_t);
static void (*next_free)(void *);
__attribute__((constructor)) static void begin(void) {
    next_malloc = dlsym(RTLD_NEXT, "malloc");
    next_calloc = dlsym(RTLD_NEXT, "calloc");
    next_realloc = dlsym(RTLD_NEXT, "realloc");
    next_free = dlsym(RTLD_NEXT, "free");
    refused = getenv("REFUSE") ? atol(getenv("REFUSE")) : 0;
}
/* The call whose number it is leaves a file, by which the script knows that it was made. */
static int is_refused(void) {
    if (refused == 0 || atomic_fetch_add(&calls, 1) + 1 != refused) return 0;
    close(open(getenv("REFUSED"), O_CREAT | O_WRONLY, 0600));
    errno = ENOMEM;
    return 1;
}
static int is_early(void *p) { return (char *)p >= early && (char *)p < early + sizeof early; }
static void *before(size_t n) { void *p = early + used; used += (n + 15) & ~(size_t)15; return p; }
void *malloc(size_t n) { return !next_malloc ? before(n) : is_refused() ? 0 : next_malloc(n); }
void *calloc(size_t m, size_t n) { return !next_calloc ? before(m * n) : is_refused() ? 0 : next_calloc(m, n); }
void *realloc(void *p, size_t n) { return is_refused() ? 0 : next_realloc(p, n); }
void free(void *p) { if (p && !is_early(p)) next_free(p); }
'''


def frames(width, height, count):
    return b''.join(bytes((5 * t + 3 * x + 7 * y) % 256 for y in range(height) for x in range(width))
                    + bytes([128]) * (width * height // 2) for t in range(count))


def run(program, words, data, shim, number, folder):
    """The status, the line, output, what the file that is named holds, and whether a call was refused."""
    named, touched = Path(folder) / 'named', Path(folder) / 'touched'
    for path in (named, touched):
        path.unlink(missing_ok=True)
    env = {**os.environ, 'LD_PRELOAD': shim, 'REFUSE': str(number), 'REFUSED': str(touched)}
    done = subprocess.run([program, *words], input=data, capture_output=True, env=env, cwd=folder)
    held = named.read_bytes() if named.exists() else b''
    return done.returncode, done.stderr, done.stdout, held, touched.exists()


def tried(program, name, words, data, shim, folder):
    status, line, output, held, _ = run(program, words, data, shim, 0, folder)
    # pictures are left out where there is a list
    assert status == (18 if '--list' in words else 0), (name, status, line)
    assert bool(held) == ('named' in words), name
    refused = told = 0
    for number in range(1, 1000000):
        got = run(program, words, data, shim, number, folder)
        if not got[4]:
            break
        refused += 1
        if got[0] == 12:
            told += 1
            assert b'no memory\n'.startswith(got[1]), (name, number, got[1])
            assert output.startswith(got[2]) and held.startswith(got[3]), (name, number)
        else:
            assert got[:4] == (status, line, output, held), (name, number, got[0], got[1])
    print('%s: %d calls refused in turn, %d answered by status 12' % (name, refused, told))


def main():
    program = os.path.realpath(sys.argv[1])
    with tempfile.TemporaryDirectory() as folder:
        source, shim = Path(folder) / 'refuse.c', str(Path(folder) / 'refuse.so')
        source.write_text(SHIM)
        subprocess.run(['cc', '-O1', '-shared', '-fPIC', '-o', shim, source, '-ldl'], check=True)
        small = '--width 32 --height 32 --rate 3 --bits 200 --buffer 2 --search 2'.split()
        clip = frames(32, 32, 5)
        plain = subprocess.run([program, 'encode', *small], input=clip, capture_output=True, check=True).stdout
        # a last picture that is broken off, one after an end code, and one that is broken off at the end
        torn = plain[:-40] + plain + plain[plain.rindex(b'\0\0\1\0'):] + plain[:-40]
        for name, words, data in (
                ('flat', ['flat', '32', '32', '3', '4'], clip),
                ('encode', ['encode', *small, '--group', '2', '--step', '1', '--recon', 'named', '--workers', '2'], clip),
                ('decode', ['decode'], plain),
                ('decode by two workers', ['decode', '--workers', '2'], plain),
                ('check', ['check'], plain),
                ('audit', ['audit'], plain + plain),
                ('audit with each picture', ['audit', '--pictures'], plain + plain),
                ('mend', ['mend'], plain + plain),
                ('mend with a list', ['mend', '--list', 'named'], torn),
                ('make', ['make', '1'], b''),
        ):
            tried(program, name, words, data, shim, folder)


if __name__ == '__main__':
    main()
