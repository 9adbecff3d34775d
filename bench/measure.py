"""Runs a program on a script, and says what the run took.

The program is begun by a process of its own, this file: the system tells a program's peak as no
less than what the process that began it held, and a benchmark holds whole transcripts."""
import os, subprocess, sys


def measured(words, room, wanted):
    """The seconds of the processor and the peak bytes of memory of one run in the folder `room`,
    whose file `script` is its standard input. It must print what is wanted."""
    with open(f"{room}/script", "rb") as script, open(f"{room}/printed", "wb") as printed:
        ran = subprocess.run(
            [sys.executable, "-S", os.path.realpath(__file__), *words],
            cwd=room, stdin=script, stdout=printed, stderr=subprocess.PIPE, text=True,
        )
    status, seconds, peak = ran.stderr.split()[-3:]
    with open(f"{room}/printed", "rb") as it:
        if status != "0" or it.read() != wanted:
            sys.exit(f"{' '.join(words)}: status {status}, or not what it must print")
    return float(seconds), int(peak)


def megabytes(peak):
    return f"{peak / 2**20:.1f} MB of memory at most"


if __name__ == "__main__":
    ran = subprocess.Popen(sys.argv[1:])
    _, status, used = os.wait4(ran.pid, 0)
    print(os.waitstatus_to_exitcode(status), used.ru_utime + used.ru_stime, used.ru_maxrss * 1024, file=sys.stderr)
