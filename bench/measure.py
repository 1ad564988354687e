#!/usr/bin/env python3
"""What the other scripts share: how ./fcg list and cat are run, timed and weighed."""

import hashlib
import os
import resource
import subprocess
import sys
import tempfile
import time

TOP = os.path.dirname(os.path.dirname(os.path.abspath(__file__)))
FCG = os.path.join(TOP, "fcg")
LIST = [FCG, "list"]
SITES = [FCG, "sites"]
COMMANDS = {"list": LIST, "sites": SITES}
CAT = ["cat"]
WEIGH = "/usr/bin/time"
MEMORY = 8 << 30


def ready():
    """Has ./fcg build its program where it is missing, so that no run is timed with a build in it."""
    subprocess.run(LIST, input=b"FCGB\x00\x01\x00\x00\x00\x00", stdout=subprocess.DEVNULL, check=False)


def bind_memory():
    """Bounds the memory of this process and of the children to come, so that none takes that of the machine.

    It is not set in each child between fork and exec: the fork of a large process would be timed with it.
    """
    resource.setrlimit(resource.RLIMIT_AS, (MEMORY, resource.getrlimit(resource.RLIMIT_AS)[1]))


def run_bytes(data, words=LIST):
    """The exit status, standard output and standard error of one run on `data` through a pipe."""
    done = subprocess.run(words, input=data, stdout=subprocess.PIPE, stderr=subprocess.PIPE, check=False)
    return done.returncode, done.stdout, done.stderr


def run_file(path, words=LIST):
    """The exit status, standard output and standard error of one run on the bytes of a file."""
    with open(path, "rb") as source:
        done = subprocess.run(words, stdin=source, stdout=subprocess.PIPE, stderr=subprocess.PIPE, check=False)
    return done.returncode, done.stdout, done.stderr


def seconds(path, words, bound=None):
    """The seconds of one run on a file, its output to /dev/null; None where the bound is passed."""
    with open(path, "rb") as source:
        begin = time.perf_counter()
        try:
            subprocess.run(words, stdin=source, stdout=subprocess.DEVNULL, stderr=subprocess.DEVNULL,
                           timeout=bound, check=False)
        except subprocess.TimeoutExpired:
            return None
        return time.perf_counter() - begin


def least(path, words, runs=5, bound=None, budget=None):
    """The least seconds of `runs` runs, and how many were made: fewer where the budget is used up."""
    best = None
    used = 0.0
    for made in range(1, runs + 1):
        took = seconds(path, words, bound)
        if took is None:
            return best, made
        used += took
        best = took if best is None else min(best, took)
        if budget is not None and used > budget:
            return best, made
    return best, runs


class Weighed:
    """One run: its status (None where the bound was passed), output size and hash, errors, peak KiB."""

    def __init__(self, status, size, digest, err, peak):
        self.status = status
        self.size = size
        self.digest = digest
        self.err = err
        self.peak = peak


def weigh(path, words=LIST, bound=120.0, digest=True):
    """Runs once on a file, reading the output as it comes and keeping only its size and SHA-256.

    The peak is taken by time(1), since a child of a large process is charged that process's own peak.
    """
    with tempfile.TemporaryDirectory() as folder:
        note = os.path.join(folder, "peak")
        errors = os.path.join(folder, "err")
        weighs = os.path.exists(WEIGH)
        # the bound is kept by timeout(1), which ends only its own child
        full = ["timeout", "-s", "KILL", str(bound)] + words
        if weighs:
            full = [WEIGH, "-q", "-f", "%M", "-o", note] + full
        with open(path, "rb") as source, open(errors, "wb") as err:
            child = subprocess.Popen(full, stdin=source, stdout=subprocess.PIPE, stderr=err)
            size = 0
            state = hashlib.sha256()
            while True:
                part = child.stdout.read(1 << 20)
                if not part:
                    break
                size += len(part)
                if digest:
                    state.update(part)
            status = child.wait()
        with open(errors, "rb") as err:
            message = err.read()
        peak = None
        if weighs and os.path.exists(note):
            with open(note, encoding="ascii") as text:
                lines = text.read().split()
            peak = int(lines[-1]) if lines and lines[-1].isdigit() else None
    return Weighed(None if status in (124, 137, -9) else status, size, state.hexdigest(), message, peak)


def write(folder, name, data):
    """Writes a file and gives its path."""
    path = os.path.join(folder, name)
    with open(path, "wb") as sink:
        sink.write(data)
    return path


def show(took):
    """Seconds as text."""
    return "-" if took is None else "%.3f" % took


def fail(words):
    """Prints why a comparison failed and ends with status 1."""
    print("FAILED: " + words, flush=True)
    sys.exit(1)


if __name__ == "__main__":
    print(__doc__)
