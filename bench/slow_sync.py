"""A disk whose syncs take longer, for a program that is started with the library, and a count of them. Wants a C compiler, `cc`."""

import contextlib
import os
import struct
import subprocess
import tempfile

LIBRARY = r'''
#define _GNU_SOURCE
#include <dlfcn.h>
#include <fcntl.h>
#include <stdatomic.h>
#include <stdlib.h>
#include <sys/mman.h>
#include <time.h>
#include <unistd.h>

static _Atomic unsigned long *syncs;
static long micros;

__attribute__((constructor)) static void begin(void) {
    int fd = open(getenv("SYNCS"), O_RDWR);
    if (fd >= 0) syncs = mmap(NULL, sizeof *syncs, PROT_READ | PROT_WRITE, MAP_SHARED, fd, 0);
    if (getenv("SYNC_MICROS")) micros = atol(getenv("SYNC_MICROS"));
}

static int slowed(const char *name, int fd) {
    int (*real)(int) = dlsym(RTLD_NEXT, name);
    struct timespec rest = {micros / 1000000, micros % 1000000 * 1000};
    if (micros) nanosleep(&rest, NULL);
    if (syncs && syncs != MAP_FAILED) atomic_fetch_add(syncs, 1);
    return real(fd);
}

int fsync(int fd) { return slowed("fsync", fd); }

int fdatasync(int fd) { return slowed("fdatasync", fd); }
'''


class Syncs:
    """What a program is started with, and how many syncs it made."""

    def __init__(self, made, counted, millis):
        self.counted = counted
        self.environment = {**os.environ, "LD_PRELOAD": made, "SYNCS": counted, "SYNC_MICROS": str(int(millis * 1000))}

    def count(self):
        with open(self.counted, "rb") as file:
            return struct.unpack("Q", file.read(8))[0]


@contextlib.contextmanager
def slow_syncs(millis):
    """Syncs that take so many milliseconds longer."""
    with tempfile.TemporaryDirectory() as folder:
        source, made, counted = (os.path.join(folder, it) for it in ("sync.c", "sync.so", "syncs"))
        with open(source, "w") as file:
            file.write(LIBRARY)
        with open(counted, "wb") as file:
            file.write(bytes(8))
        subprocess.run(["cc", "-O2", "-shared", "-fPIC", "-o", made, source, "-ldl"], check=True)
        yield Syncs(made, counted, millis)
