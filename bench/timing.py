"""What a command takes."""
import os
import subprocess
import time


def timed(command, target):
    """Seconds on the clock and of a processor, and the most memory that it held in bytes. Its output goes into the target."""
    with open(target, "wb") as out:
        start = time.perf_counter()
        child = subprocess.Popen(command, stdout=out)
        _, status, used = os.wait4(child.pid, 0)
        child.returncode = os.waitstatus_to_exitcode(status)
        took = time.perf_counter() - start
    assert child.returncode == 0, command[:3]
    return took, used.ru_utime + used.ru_stime, used.ru_maxrss * 1024
