"""Time and memory of a command, for the benchmarks."""
import subprocess
import sys

RUNS = 5

# Run in an interpreter of its own: a process's peak memory begins with that of the process that started it.
CHILD = """
import os, sys
process = os.spawnvp(os.P_NOWAIT, sys.argv[1], sys.argv[1:])
_, status, usage = os.wait4(process, 0)
print(os.waitstatus_to_exitcode(status), usage.ru_utime + usage.ru_stime, usage.ru_maxrss * 1024, file=sys.stderr)
"""


def once(command, folder):
    """Seconds of the processor, the peak memory in bytes, and what was printed."""
    ended = subprocess.run([sys.executable, '-c', CHILD, *command], cwd=folder, capture_output=True, check=True)
    status, seconds, peak = ended.stderr.split()
    if int(status) != 0:
        sys.exit(f'{command}: status {int(status)}, {ended.stdout!r}')
    return float(seconds), int(peak), ended.stdout


def best(command, folder):
    """The least seconds and the greatest peak memory of five runs, and what the first printed."""
    runs = [once(command, folder) for _ in range(RUNS)]
    return min(seconds for seconds, _, _ in runs), max(peak for _, peak, _ in runs), runs[0][2]
