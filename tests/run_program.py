"""Runs a built program on a text and hands back what it printed."""

import pathlib
import subprocess

ROOT = pathlib.Path(__file__).resolve().parent.parent

# Far above what a run needs; it only ends a program that hangs.
SECONDS = 600


def built(name):
    """Where `rt` puts the program of that name."""
    return ROOT / "crates" / name / "out" / name


def readable(data):
    return data.decode("ascii", errors="backslashreplace")


def run_program(path, text):
    """The standard output, and a complaint or None.

    A program that ends badly may have answered wrongly before, so its output
    is handed back too.
    """
    try:
        done = subprocess.run([str(path)], input=text.encode("ascii"),
                              capture_output=True, timeout=SECONDS)
    except OSError as error:
        raise SystemExit(f"cannot run {path}: {error.strerror}")
    except subprocess.TimeoutExpired as late:
        return readable(late.stdout or b""), f"{path} did not end within {SECONDS} seconds"
    complaint = None
    if done.returncode != 0:
        complaint = (f"{path} ended with status {done.returncode}\n"
                     f"standard error: {readable(done.stderr)[-2000:]}")
    return readable(done.stdout), complaint
