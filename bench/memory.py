"""How much memory a program takes, for the benchmarks of this folder."""

import time


def peak_of(process):
    """The peak memory of a process that runs, in MB, looked at until it ends: what wait4 tells counts this program too."""
    peak = 0
    while True:
        with open("/proc/%d/status" % process.pid) as status:
            found = [line for line in status if line.startswith("VmHWM:")]
        if not found:
            return peak
        peak = max(peak, int(found[0].split()[1]) / 1024)
        time.sleep(0.002)
