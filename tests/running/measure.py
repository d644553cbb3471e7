"""What a command costs."""

import ctypes
import os
import signal
import subprocess
from typing import NamedTuple

# prctl(2): children whose parent ended become ours.
PR_SET_CHILD_SUBREAPER = 36

# A process inherits the peak memory of the one that started it, and this one's is larger than what is measured. So a
# small shell starts the command and ends, and the command is taken over from it. It waits until the shell ended, which
# would else take note of its end itself.
START = ('ulimit -t "$1"; out=$2; shift 2; exec 3<&0; '
         '{ read -r go <&3; exec "$@" < /dev/null 3<&- > "$out" 2> /dev/null; } & echo $!')


class Cost(NamedTuple):
    seconds: float  # of processor time, the system's for it included
    mebibytes: float  # the peak of memory
    status: int  # what it exited with; negative where a signal ended it
    passed_limit: bool


def become_reaper():
    if ctypes.CDLL(None, use_errno=True).prctl(PR_SET_CHILD_SUBREAPER, 1, 0, 0, 0) != 0:
        raise OSError(ctypes.get_errno(), "prctl")


def cost_of(command, output, limit):
    """Runs a command with its standard output in a file, for so many seconds of processor time at most."""
    shell = ["/bin/sh", "-c", START, "sh", str(limit), output]
    words = shell + [str(word) for word in command]
    with subprocess.Popen(words, stdin=subprocess.PIPE, stdout=subprocess.PIPE) as started:
        process = int(started.stdout.readline())
        started.wait()
    try:
        _, status, usage = os.wait4(process, 0)
    except KeyboardInterrupt:
        # What a shell left in the background doesn't hear of it.
        os.kill(process, signal.SIGKILL)
        raise
    seconds = usage.ru_utime + usage.ru_stime
    code = os.waitstatus_to_exitcode(status)
    # The system looks at the limit now and then, and ends what is about to pass it.
    passed_limit = code < 0 and seconds > limit - 1
    return Cost(seconds, usage.ru_maxrss / 1024, code, passed_limit)
