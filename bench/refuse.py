"""Runs a program again and again, and refuses another one of its allocations each time. Wants a C compiler, `cc`."""

import contextlib
import itertools
import os
import subprocess
import tempfile

LIBRARY = r'''
#define _GNU_SOURCE
#include <dlfcn.h>
#include <stdatomic.h>
#include <stdlib.h>
#include <unistd.h>

static atomic_long calls;
static long refused;

static int refuses(void) {
    if (refused == 0) refused = atol(getenv("REFUSED") ? getenv("REFUSED") : "-1");
    return atomic_fetch_add(&calls, 1) + 1 == refused;
}

void *malloc(size_t size) {
    static void *(*real)(size_t);
    if (!real) real = dlsym(RTLD_NEXT, "malloc");
    return refuses() ? NULL : real(size);
}

void *realloc(void *old, size_t size) {
    static void *(*real)(void *, size_t);
    if (!real) real = dlsym(RTLD_NEXT, "realloc");
    return refuses() ? NULL : real(old, size);
}

void *aligned_alloc(size_t align, size_t size) {
    static void *(*real)(size_t, size_t);
    if (!real) real = dlsym(RTLD_NEXT, "aligned_alloc");
    return refuses() ? NULL : real(align, size);
}

/* A program with threads ends by this call, and so does one whose functions for its end have run. */
void _exit(int status) {
    void (*real)(int) = dlsym(RTLD_NEXT, "_exit");
    real(calls < refused ? 77 : status);
    __builtin_unreachable();
}

__attribute__((destructor)) static void last(void) {
    if (calls < refused) _exit(77);
}
'''


# The status of a run that ended before the allocation that was to be refused.
NONE_REFUSED = 77


@contextlib.contextmanager
def library():
    """The library to load before a program, so that one of its allocations is refused."""
    with tempfile.TemporaryDirectory() as folder:
        source, made = os.path.join(folder, "refuse.c"), os.path.join(folder, "refuse.so")
        with open(source, "w") as file:
            file.write(LIBRARY)
        subprocess.run(["cc", "-O1", "-shared", "-fPIC", "-o", made, source, "-ldl"], check=True)
        yield made


def environment(made, number):
    """The environment in which the allocation of this number is refused, from 1 on."""
    return {"LD_PRELOAD": made, "REFUSED": str(number)}


def runs(command, given=b""):
    """For each allocation of the command its number, from 1 on, and the run in which it was refused."""
    with library() as made:
        for number in itertools.count(1):
            run = subprocess.run(command, input=given, capture_output=True, env=environment(made, number))
            if run.returncode == NONE_REFUSED:
                return
            yield number, run
