"""Runs the program `decrypt_blinded` on fresh examples of both sizes, with fresh blinding.

    python3 tests/decrypt_blinded_random.py [PROGRAM] [--count NUMBER]

Each example comes from a new key and a new ciphertext of OpenSSL, as in
decrypt_random.py, and both messages that the program prints are judged by
OpenSSL's shared secret.

Where `cryptography` has no ML-KEM, only the stored example is run.
"""

import re
import secrets

import fips203
from decrypt_random import keep, run_tests
from make_decrypt_blinded_example import draw_input, program_output
from make_decrypt_example import make_example
from run_program import ROOT, run_program

CRATE = ROOT / "crates" / "decrypt_blinded"

# The largest approved redundancy number of each check modulus.
MOST_REDUNDANCY = {7681: 167, 12289: 103}


def complaint_about(output, expected, example):
    """What is wrong with the program's output, or None."""
    messages = re.findall("(?m)^message ([0-9a-f]{64})$", output)
    if len(messages) != 2:
        return "there are not two messages of 64 lowercase hex digits"
    for message in messages:
        if fips203.shared_secret(bytes.fromhex(message), example.ek) != example.secret:
            return "a message does not give OpenSSL's shared secret"
    if output != expected:
        return f"the other lines differ; expected:\n{expected}"
    return None


def draw_redundancy(p):
    """An odd number up to the largest approved one."""
    return 1 + 2 * secrets.randbelow((MOST_REDUNDANCY[p] + 1) // 2)


def run_fresh_examples(program, count):
    for k, params in sorted(fips203.PARAMETER_SETS.items()):
        for number in range(1, count + 1):
            example = make_example(k)
            p = (7681, 12289)[number % 2]
            t = draw_redundancy(p)
            text = draw_input(example, p, t)
            output, trouble = run_program(program, text)
            complaint = trouble or complaint_about(output, program_output(example, p, t), example)
            if complaint is not None:
                raise SystemExit(f"{params.name}, example {number}: {complaint}\n"
                                 f"input kept in {keep(text)}\n"
                                 f"expected message {example.message.hex()}\n"
                                 f"printed:\n{output}")
        print(f"{params.name}: {count} fresh examples on two rings, each message gives OpenSSL's shared secret")


if __name__ == "__main__":
    run_tests("decrypt_blinded", run_fresh_examples, CRATE)
