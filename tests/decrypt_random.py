"""Runs the program `decrypt` on fresh examples of both sizes.

    python3 tests/decrypt_random.py [PROGRAM] [--count NUMBER]

Each example comes from a new key and a new ciphertext of OpenSSL.  The
message that the program prints is judged by OpenSSL's shared secret: FIPS
203, Algorithm 17, makes that secret from the message and the public key.

Where `cryptography` has no ML-KEM, only the stored example is run.
"""

import argparse
import os
import pathlib
import re
import tempfile

import fips203
from make_decrypt_example import (lines_before_message, make_example, openssl_has_ml_kem,
                                  program_input)
from run_program import ROOT, built, run_program

CRATE = ROOT / "crates" / "decrypt"


def complaint_about(output, example):
    """What is wrong with the program's output, or None."""
    # Splitting at "\n" alone shows a stray "\r" or a missing last newline.
    lines = output.split("\n")
    if len(lines) != 4 or lines[3] != "":
        return "the output has not exactly three lines"
    if lines[:2] != lines_before_message(example.params.k):
        return "the first two lines differ"
    found = re.fullmatch("message ([0-9a-f]{64})", lines[2])
    if found is None:
        return "the third line is not a message of 64 lowercase hex digits"
    message = bytes.fromhex(found.group(1))
    if fips203.shared_secret(message, example.ek) != example.secret:
        return "the message does not give OpenSSL's shared secret"
    return None


def keep(text):
    """Saves a failing input, since the next run draws another key."""
    handle, name = tempfile.mkstemp(prefix="decrypt_failed_", suffix=".stdin")
    with os.fdopen(handle, "w", encoding="ascii") as file:
        file.write(text)
    return name


def run_fresh_examples(program, count):
    for k, params in sorted(fips203.PARAMETER_SETS.items()):
        for number in range(1, count + 1):
            example = make_example(k)
            text = program_input(example)
            output, trouble = run_program(program, text)
            complaint = trouble or complaint_about(output, example)
            if complaint is not None:
                raise SystemExit(f"{params.name}, example {number}: {complaint}\n"
                                 f"input kept in {keep(text)}\n"
                                 f"expected message {example.message.hex()}\n"
                                 f"printed:\n{output}")
        print(f"{params.name}: {count} fresh examples, each message gives OpenSSL's shared secret")


def run_stored_example(program, crate):
    text = (crate / "stdin").read_text(encoding="ascii")
    expected = (crate / "stdout").read_text(encoding="ascii")
    output, trouble = run_program(program, text)
    if trouble is not None or output != expected:
        raise SystemExit(f"{trouble or 'the stored example differs'}\n"
                         f"expected:\n{expected}\nprinted:\n{output}")
    print("the stored example agrees")


def print_loud_note():
    print("*" * 72)
    print("NOTE: this `cryptography` has no ML-KEM.  NO FRESH EXAMPLE IS TESTED.")
    print("Only the stored example is run.")
    print("*" * 72)


def at_least_one(text):
    count = int(text)
    if count < 1:
        raise argparse.ArgumentTypeError("must be at least 1")
    return count


def run_tests(name, run_fresh, stored):
    """Runs the program of that name on fresh examples, or on the stored one where none can be made."""
    parser = argparse.ArgumentParser(description=f"run {name} on fresh ML-KEM examples")
    parser.add_argument("program", nargs="?", type=pathlib.Path, default=built(name))
    parser.add_argument("--count", type=at_least_one, default=5,
                        help="how many examples of each size")
    arguments = parser.parse_args()
    if openssl_has_ml_kem():
        run_fresh(arguments.program, arguments.count)
    else:
        print_loud_note()
        run_stored_example(arguments.program, stored)


if __name__ == "__main__":
    run_tests("decrypt", run_fresh_examples, CRATE)
