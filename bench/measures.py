"""What the measuring scripts share: a folder for the program, and what a run of it costs."""
import os
import subprocess
import sys
import tempfile
import time

MEMORY = "/dev/shm" if os.path.isdir("/dev/shm") else None


def folder(place, config):
    """A new folder at a place, with a configuration `desk.toml`."""
    path = tempfile.mkdtemp(dir=place)
    with open(f"{path}/desk.toml", "w") as it:
        it.write(config)
    return path


def peak(process):
    """The most memory of a process so far, in KiB; of one that is at its end, 0."""
    try:
        with open(f"/proc/{process}/status") as it:
            return next((int(line.split()[1]) for line in it if line.startswith("VmHWM")), 0)
    except OSError:
        return 0


def spent(words, path, lines=b""):
    """The seconds of the clock and of the processor of a run, and its most memory in MiB."""
    with tempfile.TemporaryFile() as given:
        given.write(lines)
        given.seek(0)
        began = time.monotonic()
        it = subprocess.Popen(words, stdin=given, stdout=subprocess.DEVNULL, cwd=path)
        most, ended = 0, 0
        while ended == 0:
            most = max(most, peak(it.pid))
            time.sleep(0.005)
            ended, status, used = os.wait4(it.pid, os.WNOHANG)
        clock = time.monotonic() - began
    if status != 0:
        sys.exit(f"bench: {words} ended with {status}")
    return clock, used.ru_utime + used.ru_stime, most / 1024
