"""The parts of ML-KEM that the tests need, written from FIPS 203 alone.

The names and the order of the steps follow the standard, so that this file
can be read beside it.  Speed does not matter here; nothing is read from a
table.  A polynomial, or its transform, is a list of 256 whole numbers from 0
to 3328.

`python3 tests/fips203.py` checks this file against the tables of Appendix A
and against the definition of the product modulo X^256 + 1.
"""

import hashlib
import random
from typing import NamedTuple

N = 256
Q = 3329
ZETA = 17

# FIPS 203, Algorithm 10, line 14: the inverse of 128 modulo 3329.
INVERSE_OF_128 = 3303


class ParameterSet(NamedTuple):
    """One row of FIPS 203, Table 2."""

    name: str
    k: int
    eta1: int
    eta2: int
    du: int
    dv: int


ML_KEM_768 = ParameterSet("ML-KEM-768", k=3, eta1=2, eta2=2, du=10, dv=4)
ML_KEM_1024 = ParameterSet("ML-KEM-1024", k=4, eta1=2, eta2=2, du=11, dv=5)

# The rank k tells the two parameter sets apart.
PARAMETER_SETS = {3: ML_KEM_768, 4: ML_KEM_1024}


# Section 4.1: the hash functions.

def prf(eta, s, b):
    """PRF_eta(s, b): 64 eta bytes from a 32-byte seed and one byte."""
    return hashlib.shake_256(s + bytes([b])).digest(64 * eta)


def hash_h(data):
    """H: 32 bytes."""
    return hashlib.sha3_256(data).digest()


def hash_g(data):
    """G: two strings of 32 bytes."""
    digest = hashlib.sha3_512(data).digest()
    return digest[:32], digest[32:]


# Section 4.2.1: conversion and compression.

def bits_to_bytes(bits):
    """Algorithm 3.  The first bit is the lowest bit of the first byte."""
    data = bytearray(len(bits) // 8)
    for i, bit in enumerate(bits):
        data[i // 8] += bit << (i % 8)
    return bytes(data)


def bytes_to_bits(data):
    """Algorithm 4."""
    return [(byte >> j) & 1 for byte in data for j in range(8)]


def compress(d, x):
    """Compress_d, equation 4.7: round(2^d / q * x) modulo 2^d, halves up."""
    return ((2 * (x << d) + Q) // (2 * Q)) % (1 << d)


def decompress(d, y):
    """Decompress_d, equation 4.8: round(q / 2^d * y), halves up."""
    return (2 * Q * y + (1 << d)) // (2 << d)


def byte_encode(d, f):
    """Algorithm 5: 256 numbers of d bits to 32 d bytes."""
    bits = []
    for a in f:
        for j in range(d):
            bits.append((a >> j) & 1)
    return bits_to_bytes(bits)


def byte_decode(d, data):
    """Algorithm 6: 32 d bytes to 256 numbers modulo 2^d, or q if d is 12."""
    if len(data) != 32 * d:
        raise ValueError(f"ByteDecode_{d} takes {32 * d} bytes, not {len(data)}")
    m = Q if d == 12 else 1 << d
    bits = bytes_to_bits(data)
    return [sum(bits[i * d + j] << j for j in range(d)) % m for i in range(N)]


# Section 4.2.2: sampling.

def sample_ntt(data):
    """Algorithm 7: a transform drawn evenly from a seed and two indices."""
    # Appendix B names 280 rounds as a bound that no honest run reaches.
    stream = hashlib.shake_128(data).digest(3 * 280)
    a = []
    for c0, c1, c2 in zip(stream[0::3], stream[1::3], stream[2::3]):
        d1 = c0 + 256 * (c1 % 16)
        d2 = c1 // 16 + 16 * c2
        for d in (d1, d2):
            if d < Q and len(a) < N:
                a.append(d)
    if len(a) < N:
        raise RuntimeError("SampleNTT ran past 280 rounds")
    return a


def sample_poly_cbd(eta, data):
    """Algorithm 8: a polynomial of small coefficients from 64 eta bytes."""
    if len(data) != 64 * eta:
        raise ValueError(f"SamplePolyCBD_{eta} takes {64 * eta} bytes")
    b = bytes_to_bits(data)
    f = []
    for i in range(N):
        x = sum(b[2 * i * eta + j] for j in range(eta))
        y = sum(b[2 * i * eta + eta + j] for j in range(eta))
        f.append((x - y) % Q)
    return f


# Section 4.3: the transform.

def bit_rev7(i):
    """BitRev7: the number whose seven bits are those of i in reverse."""
    return int(format(i, "07b")[::-1], 2)


def ntt(f):
    """Algorithm 9."""
    return ntt_states(f)[7]


def inverse_ntt(f):
    """Algorithm 10."""
    return inverse_ntt_states(f)[7]


def ntt_states(f):
    """Algorithm 9, with the list after each of its seven values of len.

    Element 0 is f itself, element s the list after layer s.
    """
    states = [list(f)]
    i = 1
    for length in (128, 64, 32, 16, 8, 4, 2):
        f = list(states[-1])
        for start in range(0, N, 2 * length):
            zeta = pow(ZETA, bit_rev7(i), Q)
            i += 1
            for j in range(start, start + length):
                t = zeta * f[j + length] % Q
                f[j + length] = (f[j] - t) % Q
                f[j] = (f[j] + t) % Q
        states.append(f)
    return states


def inverse_ntt_states(f):
    """Algorithm 10, with the list after each of its seven values of len.

    Element 0 is f itself, element s the list after layer s.  The product by
    the inverse of 128 counts as a part of layer 7.
    """
    states = [list(f)]
    i = 127
    for length in (2, 4, 8, 16, 32, 64, 128):
        f = list(states[-1])
        for start in range(0, N, 2 * length):
            zeta = pow(ZETA, bit_rev7(i), Q)
            i -= 1
            for j in range(start, start + length):
                t = f[j]
                f[j] = (t + f[j + length]) % Q
                f[j + length] = zeta * (f[j + length] - t) % Q
        states.append(f)
    states[7] = [x * INVERSE_OF_128 % Q for x in states[7]]
    return states


def multiply_ntts(f, g):
    """Algorithm 11."""
    h = []
    for i in range(128):
        gamma = pow(ZETA, 2 * bit_rev7(i) + 1, Q)
        h += base_case_multiply(f[2 * i], f[2 * i + 1], g[2 * i], g[2 * i + 1], gamma)
    return h


def base_case_multiply(a0, a1, b0, b1, gamma):
    """Algorithm 12: a product modulo X^2 - gamma."""
    c0 = (a0 * b0 + a1 * b1 * gamma) % Q
    c1 = (a0 * b1 + a1 * b0) % Q
    return [c0, c1]


def add(f, g):
    """The sum, place by place.  It serves polynomials and transforms."""
    return [(x + y) % Q for x, y in zip(f, g, strict=True)]


def subtract(f, g):
    """The difference, place by place."""
    return [(x - y) % Q for x, y in zip(f, g, strict=True)]


def multiply_polynomials(f, g):
    """The product modulo X^256 + 1 by its definition, without a transform."""
    h = [0] * N
    for i, x in enumerate(f):
        for j, y in enumerate(g):
            if i + j < N:
                h[i + j] += x * y
            else:
                h[i + j - N] -= x * y
    return [x % Q for x in h]


# Section 5: K-PKE.

class KeyPair(NamedTuple):
    """What K-PKE.KeyGen makes: ek, dk, and the list s-hat that dk encodes."""

    ek: bytes
    dk: bytes
    s_hat: list


def sum_of_products(row, vector):
    """The sum over i of row[i] * vector[i], all of them transforms."""
    total = [0] * N
    for f, g in zip(row, vector, strict=True):
        total = add(total, multiply_ntts(f, g))
    return total


def k_pke_keygen(params, d):
    """Algorithm 13, from the 32-byte seed d."""
    rho, sigma = hash_g(d + bytes([params.k]))
    ranks = range(params.k)
    # The column index comes before the row index in the seed of A.
    a_hat = [[sample_ntt(rho + bytes([j, i])) for j in ranks] for i in ranks]
    s = [sample_poly_cbd(params.eta1, prf(params.eta1, sigma, i)) for i in ranks]
    e = [sample_poly_cbd(params.eta1, prf(params.eta1, sigma, params.k + i))
         for i in ranks]
    s_hat = [ntt(f) for f in s]
    e_hat = [ntt(f) for f in e]
    t_hat = [add(sum_of_products(a_hat[i], s_hat), e_hat[i]) for i in ranks]
    ek = b"".join(byte_encode(12, f) for f in t_hat) + rho
    dk = b"".join(byte_encode(12, f) for f in s_hat)
    return KeyPair(ek, dk, s_hat)


def decode_s_hat(params, dk):
    """Algorithm 15, line 5: s-hat from the bytes of dk."""
    return [byte_decode(12, dk[384 * i:384 * (i + 1)]) for i in range(params.k)]


def decode_ciphertext(params, c):
    """Algorithm 15, lines 1 to 4: the k polynomials u' and the polynomial v'."""
    size_of_u = 32 * params.du
    start_of_v = size_of_u * params.k
    if len(c) != start_of_v + 32 * params.dv:
        raise ValueError(f"{params.name}: the ciphertext has {len(c)} bytes")
    u = []
    for i in range(params.k):
        part = c[size_of_u * i:size_of_u * (i + 1)]
        u.append([decompress(params.du, y) for y in byte_decode(params.du, part)])
    v = [decompress(params.dv, y) for y in byte_decode(params.dv, c[start_of_v:])]
    return u, v


def noisy_message(u, s_hat, v):
    """Algorithm 15, line 6: w = v' - NTT^-1(s-hat * NTT(u'))."""
    u_hat = [ntt(f) for f in u]
    return subtract(v, inverse_ntt(sum_of_products(s_hat, u_hat)))


def message_of(w):
    """Algorithm 15, line 7: the 32 bytes of the message in w."""
    return byte_encode(1, [compress(1, x) for x in w])


def k_pke_decrypt(params, dk, c):
    """Algorithm 15."""
    u, v = decode_ciphertext(params, c)
    return message_of(noisy_message(u, decode_s_hat(params, dk), v))


def shared_secret(message, ek):
    """Algorithm 17, line 1: the shared secret that belongs to a message."""
    return hash_g(message + hash_h(ek))[0]


# The checks of this file.

def require(condition, what):
    """Unlike assert, this also holds under python -O."""
    if not condition:
        raise SystemExit(f"fips203.py: check failed: {what}")


def check_tables():
    from fips203_tables import GAMMAS, ZETAS
    require(len(ZETAS) == 128 and len(GAMMAS) == 128, "each table has 128 values")
    for i in range(128):
        require(ZETAS[i] == pow(ZETA, bit_rev7(i), Q), f"zeta {i}")
        require(GAMMAS[i] % Q == pow(ZETA, 2 * bit_rev7(i) + 1, Q), f"gamma {i}")


def check_transforms(draw, rounds):
    for _ in range(rounds):
        f = [draw.randrange(Q) for _ in range(N)]
        g = [draw.randrange(Q) for _ in range(N)]
        require(inverse_ntt(ntt(f)) == f, "the inverse undoes the transform")
        require(ntt(inverse_ntt(f)) == f, "the transform undoes the inverse")
        require(ntt_states(f)[7] == ntt(f), "Algorithm 9 layer by layer")
        require(inverse_ntt_states(f)[7] == inverse_ntt(f), "Algorithm 10 layer by layer")
        product = inverse_ntt(multiply_ntts(ntt(f), ntt(g)))
        require(product == multiply_polynomials(f, g), "the product of transforms")


def check_slots(draw, rounds):
    """Slot i of the transform is f modulo X^2 - gamma_i, by section 4.3."""
    for _ in range(rounds):
        f = [draw.randrange(Q) for _ in range(N)]
        f_hat = ntt(f)
        for i in range(128):
            gamma = pow(ZETA, 2 * bit_rev7(i) + 1, Q)
            powers = [pow(gamma, n, Q) for n in range(128)]
            even = sum(f[2 * n] * powers[n] for n in range(128)) % Q
            odd = sum(f[2 * n + 1] * powers[n] for n in range(128)) % Q
            require(f_hat[2 * i:2 * i + 2] == [even, odd], f"slot {i}")


def nearest(numerator, denominator):
    """The rounding of the standard: the nearest number, at a half the upper one."""
    low = numerator // denominator
    distance_to_low = numerator - low * denominator
    distance_to_high = denominator - distance_to_low
    return low if distance_to_low < distance_to_high else low + 1


def check_codes(draw):
    for d in (1, 4, 5, 10, 11):
        for x in range(Q):
            require(compress(d, x) == nearest(x << d, Q) % (1 << d), f"Compress_{d}({x})")
        for y in range(1 << d):
            require(decompress(d, y) == nearest(Q * y, 1 << d), f"Decompress_{d}({y})")
            require(compress(d, decompress(d, y)) == y, f"Compress_{d} after Decompress_{d}")
    for d in (1, 4, 5, 10, 11, 12):
        f = [draw.randrange(Q if d == 12 else 1 << d) for _ in range(N)]
        require(byte_decode(d, byte_encode(d, f)) == f, f"ByteDecode_{d} of ByteEncode_{d}")


def self_check():
    draw = random.Random(203)
    check_tables()
    check_transforms(draw, 20)
    check_slots(draw, 5)
    check_codes(draw)
    print("fips203.py: tables, transforms, product, slots and codes agree")


if __name__ == "__main__":
    self_check()
