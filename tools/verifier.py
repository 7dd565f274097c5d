"""Finds the verifier and runs it: the one that the environment's REGVER names, or else ./regver of the folder above this one.

REGVER_UNPROVED, where it is set, asks ./regver for the program as it is before any proof; `regver-compare --unproved` sets it, so that
no script proves and builds the program on the way.
"""

import os
import subprocess

TOP = os.path.join(os.path.dirname(os.path.realpath(__file__)), "..")
# The program that ./regver makes of what was proved.
BUILT = os.path.join(TOP, "crates", "regver_cli", "out", "regver_cli")


def words():
    """The words that start the verifier; behind them stands a command."""
    named = os.environ.get("REGVER")
    if named:
        return [named]
    return [os.path.join(TOP, "regver"), *(["--unproved"] if os.environ.get("REGVER_UNPROVED") else [])]


def built():
    """The program that is built, without the script before it where it is there: tests of many texts start it often."""
    return os.environ.get("REGVER") or (BUILT if os.path.exists(BUILT) else os.path.join(TOP, "regver"))


def run(*command, seconds=None):
    """What the verifier answers: its status and what it prints. The status is 125 where it cannot be started."""
    try:
        ran = subprocess.run([*words(), *command], stdout=subprocess.PIPE, stderr=subprocess.DEVNULL, timeout=seconds, check=False)
    except OSError:
        return 125, ""
    return ran.returncode, ran.stdout.decode("ascii", "replace")
