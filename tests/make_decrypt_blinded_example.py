"""Makes an example of the program `decrypt_blinded` from a key and a ciphertext of OpenSSL.

    python3 tests/make_decrypt_blinded_example.py STDIN_FILE STDOUT_FILE [--k 3 or 4] [--p P] [--t T]

The first file gets the standard input of the program, the second the standard
output that it must print.  Rank 3 is ML-KEM-768, rank 4 ML-KEM-1024.

The key and the ciphertext come from make_decrypt_example.py, with its checks.
What blinds the calculation (witnesses, redundancy bytes, masks) is drawn at
random here; it must not change the message.
"""

import secrets
from typing import NamedTuple

from make_decrypt_example import argument_parser, numbers, write_example


class Blinding(NamedTuple):
    """What blinds one decryption on a ring of p and t: the bytes in the order of use, and the
    products of the witnesses of u and s."""

    data: list
    products: int


def draw_blinding(k, p, t):
    """For each i: witness of u, its 256 numbers, 6 times 16 masks, witness of s, its numbers;
    then 96 masks, the witness of v and its numbers."""
    def polynomial():
        witness = 1 + secrets.randbelow(p - 1)
        return witness, [witness // 256, witness % 256] + [secrets.randbelow(t) for _ in range(256)]

    data, products = [], 0
    for _ in range(k):
        of_u, start = polynomial()
        of_s, end = polynomial()
        data += start + list(secrets.token_bytes(96)) + end
        products += of_u * of_s
    data += list(secrets.token_bytes(96)) + polynomial()[1]
    return Blinding(data, products % p)


def draw_telling_blinding(k, p, t):
    """One whose result has a witness aJ + bJ^2 with b not 0, so that two neighbouring words have
    different remainders by p (they differ by 2b) and a word put in its neighbour's place shows."""
    while True:
        blinding = draw_blinding(k, p, t)
        if blinding.products != 0:
            return blinding


def program_input(example, p, t, redundant, pair):
    """The rank, p and t; u, s-hat and v, one polynomial a line; the bytes of the two rings."""
    lines = [f"{example.params.k} {p} {t}"]
    lines += [numbers(f) for f in example.u]
    lines += [numbers(f) for f in example.s_hat]
    lines.append(numbers(example.v))
    lines += [" ".join(str(x) for x in blinding.data) for blinding in (redundant, pair)]
    return "".join(line + "\n" for line in lines)


def draw_input(example, p, t):
    """An input of the program for this example, with fresh blinding of both rings."""
    k = example.params.k
    return program_input(example, p, t, draw_telling_blinding(k, p, t), draw_telling_blinding(k, p, 1))


def program_output(example, p, t):
    """The lines that the program must print."""
    k = example.params.k
    outcome = [
        "message " + example.message.hex(),
        "struck word 255: release refused, number 27, place 255",
    ]
    lines = [
        f"rank {k}, p = {p}, t = {t}: read {k} polynomials u, {k} transformed polynomials s "
        "and the polynomial v",
        "redundant ring: v minus the sum of u[i] * s[i], modulo X^256 + 1 and 3329",
        *outcome,
        "pair ring: the same",
        *outcome,
        "one check modulus: as long as nothing strikes them, the two workspaces answer alike",
    ]
    return "".join(line + "\n" for line in lines)


def main():
    parser = argument_parser("decrypt_blinded")
    parser.add_argument("--p", type=int, choices=(7681, 12289), default=7681,
                        help="the check modulus")
    parser.add_argument("--t", type=int, default=3, help="the redundancy number")
    arguments = parser.parse_args()
    p, t = arguments.p, arguments.t
    write_example(arguments, lambda example: (draw_input(example, p, t), program_output(example, p, t)))


if __name__ == "__main__":
    main()
