"""The program, in folders of their own: a journal is kept where it runs."""
import os
import shutil
import subprocess
import tempfile

TOP = os.path.dirname(os.path.dirname(os.path.abspath(__file__)))
DESK = os.path.join(TOP, "crates/regdesk/out/regdesk")
# What the journal of empty books holds.
FIRST = b"\x01\x00\x00\x00\x11regdesk journal 1\x00"


class Folder:
    """A folder with a journal of its own."""

    def __init__(self, journal=None):
        place = "/dev/shm" if os.path.isdir("/dev/shm") else None
        self.path = tempfile.mkdtemp(dir=place)
        self.journal = os.path.join(self.path, "regdesk.journal")
        if journal is not None:
            with open(self.journal, "wb") as it:
                it.write(journal)

    def __enter__(self):
        return self

    def __exit__(self, *_):
        shutil.rmtree(self.path, ignore_errors=True)

    def call(self, *words, lines=b"", out=subprocess.PIPE):
        """The status, the output and the error output of a call over this input."""
        it = subprocess.run([DESK, *words], input=lines, stdout=out, stderr=subprocess.PIPE, cwd=self.path, check=False)
        return it.returncode, it.stdout, it.stderr

    def put(self, name, data):
        """A file of these bytes beside the journal."""
        with open(os.path.join(self.path, name), "wb") as it:
            it.write(data)
        return name

    def bytes(self):
        with open(self.journal, "rb") as it:
            return it.read()
