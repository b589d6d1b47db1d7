"""A model of one masked layer over 3329, written from the rules below.

The root is w = 17.  Its powers repeat after 256, since 17^128 is -1.

Shape of a layer.  A layer has 128 butterflies.  They come in groups, and a
butterfly has a group g and an offset o, from 0 to len - 1, in that group.
Its number is n = len g + o.  It joins the positions j = 2 len g + o and
j + len.  The layer number s runs from 1 to 7:

    forward  len = 256 / 2^s   g from 0 to 2^(s-1) - 1   K = 2^(s-1) + g
    inverse  len = 2^s         g from 0 to 2^(7-s) - 1   K = 2^(8-s) - 1 - g

The exponent z of a butterfly is K with its seven bits in reverse.

Masks.  Every position carries an exponent from 0 to 255, its mask, and holds
w^mask times the value that it would hold without masks.  All sums and
differences of exponents are modulo 256.  Before layer 1 all masks are 0 and
the incoming list is empty.  Layers 1 to 6 take an outgoing list of N bytes,
where N is a power of two from 1 to 128.  Layer 7 takes an empty list, and
all masks are 0 after it.

A list of N bytes cuts the 128 butterflies of a layer into N blocks of equal
size: butterfly n is in block n div (128 / N).  After a forward layer both
positions of a butterfly carry the byte of its block.  After an inverse layer
a position carries the byte of the block that it belongs to in the next
inverse layer, so the butterflies are counted by the next layer's shape.

Butterflies, with the value A at j and the value B at j + len:

    forward  e1 and e2 are the incoming masks at j and j + len, e3 the
             outgoing mask.
             A becomes w^(e3-e1) A + w^(z+e3-e2) B,
             B becomes w^(e3-e1) A - w^(z+e3-e2) B.
    inverse  e is the incoming mask at both, o1 and o2 are the outgoing masks
             at j and j + len.
             A becomes w^(o1-e) (A + B),
             B becomes w^(z+o2-e) (B - A).
             Layer 7 then multiplies all 256 values by the inverse of 128.

`python3 tests/masked.py` checks the model against the layers of FIPS 203,
Algorithms 9 and 10.
"""

import random
from typing import NamedTuple

Q = 3329
W = 17
POSITIONS = 256
BUTTERFLIES = 128
LAYERS = 7
DIRECTIONS = ("forward", "inverse")
LIST_LENGTHS = (1, 2, 4, 8, 16, 32, 64, 128)
INVERSE_OF_128 = 3303


class Butterfly(NamedTuple):
    """One butterfly: its number, its two positions and its exponent z."""

    number: int
    low: int
    high: int
    z: int


def power(exponent):
    """w to an exponent that is taken modulo 256."""
    return pow(W, exponent % 256, Q)


def reversed_seven_bits(number):
    """The seven bits of a number from 0 to 127, lowest bit first."""
    result = 0
    for _ in range(7):
        result = 2 * result + number % 2
        number //= 2
    return result


def shape(direction, s):
    """The len of a layer, the number of its groups and its K by group."""
    if not 1 <= s <= LAYERS:
        raise ValueError(f"no layer {s}")
    if direction == "forward":
        groups = 2 ** (s - 1)
        return 256 // 2 ** s, groups, [groups + g for g in range(groups)]
    if direction == "inverse":
        groups = 2 ** (7 - s)
        return 2 ** s, groups, [2 ** (8 - s) - 1 - g for g in range(groups)]
    raise ValueError(f"no direction {direction}")


def butterflies(direction, s):
    """All 128 butterflies of a layer, by rising number."""
    length, groups, ks = shape(direction, s)
    result = []
    for g in range(groups):
        z = reversed_seven_bits(ks[g])
        for o in range(length):
            j = 2 * length * g + o
            result.append(Butterfly(length * g + o, j, j + length, z))
    return result


def masks_after(direction, s, masks):
    """The mask of every position after layer s, given that layer's list."""
    if s == LAYERS:
        if len(masks) != 0:
            raise ValueError("layer 7 takes no masks")
        return [0] * POSITIONS
    if len(masks) not in LIST_LENGTHS:
        raise ValueError(f"layer {s} does not take {len(masks)} masks")
    # An inverse layer prepares the masks for the blocks of the next one.
    counted_by = s if direction == "forward" else s + 1
    size_of_block = BUTTERFLIES // len(masks)
    carried = [None] * POSITIONS
    for b in butterflies(direction, counted_by):
        carried[b.low] = carried[b.high] = masks[b.number // size_of_block]
    return carried


def masks_before(direction, s, incoming):
    """The mask of every position before layer s, given the incoming list."""
    if s > 1:
        return masks_after(direction, s - 1, incoming)
    if len(incoming) != 0:
        raise ValueError("layer 1 has no incoming masks")
    return [0] * POSITIONS


def layer(direction, s, f, incoming, outgoing):
    """The 256 values after layer s."""
    before = masks_before(direction, s, incoming)
    after = masks_after(direction, s, outgoing)
    step = forward_butterfly if direction == "forward" else inverse_butterfly
    result = [None] * POSITIONS
    for b in butterflies(direction, s):
        result[b.low], result[b.high] = step(b, f, before, after)
    if direction == "inverse" and s == LAYERS:
        result = [x * INVERSE_OF_128 % Q for x in result]
    return result


def forward_butterfly(b, f, before, after):
    e1, e2, e3 = before[b.low], before[b.high], after[b.low]
    first = power(e3 - e1) * f[b.low]
    second = power(b.z + e3 - e2) * f[b.high]
    return (first + second) % Q, (first - second) % Q


def inverse_butterfly(b, f, before, after):
    e, o1, o2 = before[b.low], after[b.low], after[b.high]
    if before[b.high] != e:
        raise RuntimeError("the two positions of a butterfly differ in their masks")
    total = power(o1 - e) * (f[b.low] + f[b.high])
    difference = power(b.z + o2 - e) * (f[b.high] - f[b.low])
    return total % Q, difference % Q


def masked(values, masks):
    """w^mask times the value, position by position."""
    return [power(e) * x % Q for e, x in zip(masks, values, strict=True)]


def random_polynomial(draw):
    return [draw.randrange(Q) for _ in range(POSITIONS)]


def random_masks(draw, length):
    return [draw.randrange(256) for _ in range(length)]


def random_lists(draw, lengths):
    """The outgoing lists of layers 1 to 7; element 0 is the empty list before."""
    return [[]] + [random_masks(draw, n) for n in lengths] + [[]]


# The checks of this file.

def require(condition, what):
    """Unlike assert, this also holds under python -O."""
    if not condition:
        raise SystemExit(f"masked.py: check failed: {what}")


def check_lists(direction, f, lists, states):
    """The law of the masks after each layer of one whole transform."""
    values = f
    for s in range(1, LAYERS + 1):
        values = layer(direction, s, values, lists[s - 1], lists[s])
        expected = masked(states[s], masks_after(direction, s, lists[s]))
        require(values == expected, f"{direction} layer {s}, lists {lists}")


def check_transforms(draw):
    from fips203 import inverse_ntt_states, ntt_states
    states_of = {"forward": ntt_states, "inverse": inverse_ntt_states}
    # Each length in all layers, then a different length in each layer.
    choices = [[n] * 6 for n in LIST_LENGTHS]
    choices += [draw.choices(LIST_LENGTHS, k=6) for _ in range(40)]
    for direction in DIRECTIONS:
        for lengths in choices:
            f = random_polynomial(draw)
            lists = random_lists(draw, lengths)
            check_lists(direction, f, lists, states_of[direction](f))
    return len(choices)


def check_root():
    require(power(128) == Q - 1, "17^128 is -1 modulo 3329")
    require(INVERSE_OF_128 * 128 % Q == 1, "3303 is the inverse of 128")


def check_one_by_hand():
    """17^3 = 4913 = 3329 + 1584, and layer 1 joins the positions 0 and 128."""
    values = layer("forward", 1, [1] + [0] * 255, [], [3])
    require(values == [1584] + [0] * 127 + [1584] + [0] * 127, "the polynomial 1 under [3]")


def positions_of(masks, mask):
    return [j for j, e in enumerate(masks) if e == mask]


def check_blocks_by_hand():
    """Which positions belong to a block, counted out for five lists."""
    after = masks_after("forward", 1, [5, 6])
    require(positions_of(after, 5) == [*range(0, 64), *range(128, 192)], "halves of forward layer 1")
    after = masks_after("forward", 1, list(range(128)))
    require(after == [*range(128), *range(128)], "single butterflies of forward layer 1")
    after = masks_after("forward", 6, list(range(64)))
    require(after[:8] == [0, 0, 1, 1, 0, 0, 1, 1], "pairs of butterflies of forward layer 6")
    # Inverse layer 1 has len 2, but the next one, which counts, has len 4.
    after = masks_after("inverse", 1, list(range(128)))
    require(after[:16] == [0, 1, 2, 3, 0, 1, 2, 3, 4, 5, 6, 7, 4, 5, 6, 7], "inverse layer 1")
    after = masks_after("inverse", 6, list(range(128)))
    require(after == [*range(128), *range(128)], "inverse layer 6")


def self_check():
    check_root()
    check_one_by_hand()
    check_blocks_by_hand()
    count = check_transforms(random.Random(17))
    print(f"masked.py: {count} masked transforms in each direction agree with "
          f"FIPS 203 after each of the {LAYERS} layers")


if __name__ == "__main__":
    self_check()
