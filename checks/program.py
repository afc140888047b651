"""The program that the gate built, and how the scripts of this folder run it."""
import os
import subprocess
import sys
from pathlib import Path

ROOT = Path(__file__).resolve().parent.parent
PROGRAM = ROOT / "crates" / "powersync" / "out" / "powersync"
SECONDS = 60


def find():
    """The program; without it the script ends, and has failed."""
    if not os.access(PROGRAM, os.X_OK):
        sys.exit(f"{sys.argv[0]}: {PROGRAM} is not there: run `rt ci` or `./powersync` first")
    return PROGRAM


def run(words, folder, seconds=SECONDS, **how):
    """Runs words in a folder: the status, standard output and standard error. What takes longer than `seconds` is killed, and has the status None."""
    how = {"stdout": subprocess.PIPE, "stderr": subprocess.PIPE, **how}
    with subprocess.Popen(words, cwd=folder, stdin=subprocess.DEVNULL, **how) as it:
        try:
            out, err = it.communicate(timeout=seconds)
        except subprocess.TimeoutExpired:
            it.kill()
            out, err = it.communicate()
            return None, out, err
    return it.returncode, out, err


def short(value):
    text = repr(value)
    return text if len(text) <= 400 else f"{text[:200]} .. {text[-200:]}"


class Tally:
    """Counts what was compared, and says what differs."""

    def __init__(self):
        self.passed, self.failed = 0, 0

    def same(self, what, wanted, got):
        if wanted == got:
            self.passed += 1
            return
        self.failed += 1
        print(f"{what}:\n  wanted {short(wanted)}\n  got    {short(got)}")

    def end(self):
        print(f"{os.path.basename(sys.argv[0])}: {self.passed} as they should be, {self.failed} not")
        sys.exit(1 if self.failed else 0)
