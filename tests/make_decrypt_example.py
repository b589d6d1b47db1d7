"""Makes an example of the program `decrypt` from a key and a ciphertext of OpenSSL.

    python3 tests/make_decrypt_example.py STDIN_FILE STDOUT_FILE [--k 3 or 4]

The first file gets the standard input of the program, the second the standard
output that it must print.  Rank 3 is ML-KEM-768, rank 4 ML-KEM-1024.

OpenSSL makes the key and the ciphertext and knows the shared secret.  What
the program needs beyond that is recovered by fips203.py, and the results are
compared with OpenSSL's: the public key rebuilt from the seed, and the shared
secret that belongs to the decrypted message.  A difference ends the run, and
nothing is written.
"""

import argparse
import pathlib
import sys
from typing import NamedTuple

import fips203


class CheckFailed(Exception):
    """Something recovered here differs from what OpenSSL says."""


class Example(NamedTuple):
    """One decryption: the input, the message, and OpenSSL's public key and secret."""

    params: fips203.ParameterSet
    u: list
    s_hat: list
    v: list
    message: bytes
    ek: bytes
    secret: bytes


def require(condition, what):
    """Unlike assert, this also holds under python -O."""
    if not condition:
        raise CheckFailed(what)


# OpenSSL's side.  The import stands in a function because older releases of
# `cryptography` have no ML-KEM; the rest of this file is of use without it.

def private_key_class(k):
    from cryptography.hazmat.primitives.asymmetric import mlkem
    return {3: mlkem.MLKEM768PrivateKey, 4: mlkem.MLKEM1024PrivateKey}[k]


def openssl_has_ml_kem():
    """Whether keys of both sizes can be made here."""
    try:
        from cryptography.exceptions import UnsupportedAlgorithm
        classes = [private_key_class(k) for k in fips203.PARAMETER_SETS]
    except (ImportError, AttributeError):
        return False
    try:
        for key_class in classes:
            key_class.generate()
    except UnsupportedAlgorithm:
        return False
    return True


# From OpenSSL's key and ciphertext to the numbers that the program reads.

def recover_s_hat(params, seed, ek):
    """s-hat from the seed d || z of a key whose public bytes are ek."""
    require(len(seed) == 64, "the private key is not a seed of 64 bytes")
    pair = fips203.k_pke_keygen(params, seed[:32])
    require(pair.ek == ek, "the public key rebuilt from the seed is not OpenSSL's")
    require(fips203.decode_s_hat(params, pair.dk) == pair.s_hat, "dk does not encode s-hat")
    return pair.s_hat


def recover_message(params, u, s_hat, v, ek, secret):
    """The message, if it gives OpenSSL's shared secret."""
    message = fips203.message_of(fips203.noisy_message(u, s_hat, v))
    require(fips203.shared_secret(message, ek) == secret,
            f"{params.name}: the decrypted message does not give OpenSSL's shared secret")
    return message


def make_example(k):
    """A fresh example of rank k, all of its checks passed."""
    params = fips203.PARAMETER_SETS[k]
    key = private_key_class(k).generate()
    public = key.public_key()
    ek = public.public_bytes_raw()
    secret, ciphertext = public.encapsulate()
    require(key.decapsulate(ciphertext) == secret, "OpenSSL does not decapsulate its ciphertext")
    s_hat = recover_s_hat(params, key.private_bytes_raw(), ek)
    u, v = fips203.decode_ciphertext(params, ciphertext)
    message = recover_message(params, u, s_hat, v, ek, secret)
    return Example(params, u, s_hat, v, message, ek, secret)


# The two texts.

def numbers(values):
    require(len(values) == fips203.N, "a polynomial has not 256 coefficients")
    require(all(0 <= x < fips203.Q for x in values), "a coefficient is out of range")
    return " ".join(str(x) for x in values)


def program_input(example):
    """The rank, then u, s-hat and v, one polynomial a line."""
    lines = [str(example.params.k)]
    lines += [numbers(f) for f in example.u]
    lines += [numbers(f) for f in example.s_hat]
    lines.append(numbers(example.v))
    return "".join(line + "\n" for line in lines)


def lines_before_message(k):
    """The two lines that depend on the rank alone."""
    return [
        f"rank {k}: read {k} polynomials u, {k} transformed polynomials s and the polynomial v",
        "computed v minus the sum of u[i] * s[i], modulo X^256 + 1 and 3329",
    ]


def program_output(example):
    """The three lines that the program must print."""
    lines = lines_before_message(example.params.k) + ["message " + example.message.hex()]
    return "".join(line + "\n" for line in lines)


def argument_parser(name):
    """The arguments that an example of any of the programs takes."""
    parser = argparse.ArgumentParser(description=f"make an example of the program {name}")
    parser.add_argument("stdin_file", type=pathlib.Path, help="gets the program's standard input")
    parser.add_argument("stdout_file", type=pathlib.Path, help="gets the expected standard output")
    parser.add_argument("--k", type=int, choices=sorted(fips203.PARAMETER_SETS), default=3,
                        help="the rank: 3 is ML-KEM-768, 4 is ML-KEM-1024")
    return parser


def write_example(arguments, texts_of):
    """Makes an example and writes its two texts, or nothing if a check fails."""
    script = pathlib.Path(sys.argv[0]).name
    if not openssl_has_ml_kem():
        raise SystemExit(f"{script}: this `cryptography` has no ML-KEM; nothing written")
    try:
        example = make_example(arguments.k)
        given, wanted = texts_of(example)
    except CheckFailed as failure:
        raise SystemExit(f"{script}: CHECK FAILED, nothing written: {failure}")
    arguments.stdin_file.write_text(given, encoding="ascii")
    arguments.stdout_file.write_text(wanted, encoding="ascii")
    print(f"{example.params.name}: wrote {arguments.stdin_file} and {arguments.stdout_file}")


def main():
    write_example(argument_parser("decrypt").parse_args(),
                  lambda example: (program_input(example), program_output(example)))


if __name__ == "__main__":
    main()
