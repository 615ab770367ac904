"""Where the programs are, and how one is run on a script."""

import os
import subprocess
import sys

ROOT = os.path.dirname(os.path.dirname(os.path.dirname(os.path.abspath(__file__))))
ORACLE = os.path.join(ROOT, "target", "oracle", "oracle")
PASSED_OVER = 3


def build_oracle():
    """Builds the oracle; ends the run, as passed over, where it cannot be built."""
    built = subprocess.run([os.path.join(ROOT, "tests", "oracle", "build")])
    if built.returncode == PASSED_OVER:
        print("passed over: there is no oracle to compare with")
        sys.exit(0)
    if built.returncode != 0:
        sys.exit("the oracle does not build")


def run(command, script, seconds=120):
    """What `command` (a list) prints for `script`; a crash or a hang is part of the answer."""
    try:
        done = subprocess.run(command, input=script, stdout=subprocess.PIPE, stderr=subprocess.PIPE, timeout=seconds)
    except subprocess.TimeoutExpired:
        return b"# no answer within %d s\n" % seconds
    if done.returncode != 0:
        return done.stdout + b"# ended with %d\n" % done.returncode
    return done.stdout


def oracle(script, bits=False, extended=False):
    options = (["--bits"] if bits else []) + (["--ext"] if extended else [])
    return run([ORACLE] + options, script)
