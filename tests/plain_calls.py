"""Compares the program `plain` with the models, call by call.

    python3 tests/plain_calls.py [PROGRAM]

The program reads one call a line and answers one line a call.  The parts of a
call are separated by `|`, numbers by single blanks:

    forward | f
    inverse | f
    multiply | f | g
    layer forward S | f | incoming masks | outgoing masks
    layer inverse S | f | incoming masks | outgoing masks
    redundant P T | f     the transform in the redundant ring of P and T
    pair P | f            the transform in the pair ring of P

An answer is `ok` and 256 numbers, or `refused NUMBER PLACE`, or `unreadable`.
The refusals are, in the order in which they are looked for (a ring is approved
before its transform is called):

    3  MODULUS P is not 7681 or 12289; place 0
    4  REDUNDANCY  T is not odd, or above 167 with 7681 or 103 with 12289; place 0
    1  LENGTH  a slice has not 256 numbers; place 0 for f, 1 for g
    5  RANGE   a coefficient is above 3328; place its index, f before g
    8  LAYER   S is not from 1 to 7; place 0
    23 MASKS   the length of a list does not suit the layer; place 0

Transforms and products are expected from fips203.py, single layers from
masked.py, roots from the tables of FIPS 203, Appendix A.  An expected refusal
is stated by the code that makes the fault; there is no second set of checks
that could share a mistake with the program.

The random numbers are seeded, so each run makes the same calls.  The first
difference ends the run with exit status 1.
"""

import collections
import itertools
import pathlib
import random
import sys
from typing import NamedTuple

import fips203
import masked
from fips203_tables import GAMMAS, ZETAS
from masked import DIRECTIONS, LAYERS, LIST_LENGTHS, random_lists, random_masks, random_polynomial
from run_program import built, run_program

N = fips203.N
Q = fips203.Q

TRANSFORM = {"forward": fips203.ntt, "inverse": fips203.inverse_ntt}
OPPOSITE = {"forward": "inverse", "inverse": "forward"}
STATES = {"forward": fips203.ntt_states, "inverse": fips203.inverse_ntt_states}


class Call(NamedTuple):
    """One line for the program, the answer it must give, and a name to count by."""

    kind: str
    line: str
    answer: str


class Program:
    """The program under test, and how many of its answers were compared."""

    def __init__(self, path):
        self.path = path
        self.counts = collections.Counter()

    def compare(self, calls):
        """Runs the calls and stops the tests at the first wrong answer."""
        output, complaint = run_program(self.path, "".join(call.line + "\n" for call in calls))
        answers = output.split("\n")
        unfinished = answers.pop()
        for call, answer in zip(calls, answers):
            if answer != call.answer:
                stop(difference(call, answer))
            self.counts[call.kind] += 1
        if len(answers) < len(calls):
            complaint = complaint or "the program ended too early"
            stop(f"{complaint}\n" + difference(calls[len(answers)], unfinished or "nothing"))
        if complaint:
            stop(complaint)
        if len(answers) > len(calls) or unfinished:
            stop("more answers than calls: " + (answers + [unfinished])[len(calls)])
        return answers

    def compute(self, calls):
        """The same for calls that must be accepted; hands back the numbers."""
        return [[int(x) for x in answer.split(" ")[1:]] for answer in self.compare(calls)]


def stop(complaint):
    print(f"plain_calls.py: DIFFERENCE: {complaint}")
    sys.exit(1)


def difference(call, answer):
    lines = [f"kind {call.kind}", f"call     {call.line}",
             f"expected {call.answer}", f"answered {answer}"]
    words = zip(call.answer.split(" "), answer.split(" "))
    wrong = [i for i, (x, y) in enumerate(words) if x != y]
    if call.answer.startswith("ok ") and answer.startswith("ok ") and wrong:
        lines.append(f"the first wrong coefficient is number {wrong[0] - 1}")
    return "\n".join(lines)


# Lines and answers.

def text(numbers):
    return " ".join(str(x) for x in numbers)


def line_of(*parts):
    return " | ".join(parts)


def transform_line(direction, f):
    return line_of(direction, text(f))


def multiply_line(f, g):
    return line_of("multiply", text(f), text(g))


def layer_line(direction, s, f, incoming, outgoing):
    return line_of(f"layer {direction} {s}", text(f), text(incoming), text(outgoing))


def ok(numbers):
    return "ok " + text(numbers)


def refused(number, place):
    return f"refused {number} {place}"


def transform_call(kind, direction, f):
    return Call(kind, transform_line(direction, f), ok(TRANSFORM[direction](f)))


def multiply_call(kind, f, g):
    return Call(kind, multiply_line(f, g), ok(fips203.multiply_ntts(f, g)))


def layer_call(kind, direction, s, f, incoming, outgoing):
    answer = masked.layer(direction, s, f, incoming, outgoing)
    return Call(kind, layer_line(direction, s, f, incoming, outgoing), ok(answer))


def power_of_x(exponent, coefficient=1):
    f = [0] * N
    f[exponent] = coefficient
    return f


# Random calls that are accepted.

def random_transforms(draw):
    return [transform_call(direction, direction, random_polynomial(draw))
            for direction in DIRECTIONS for _ in range(300)]


def random_products(draw):
    return [multiply_call("multiply", random_polynomial(draw), random_polynomial(draw))
            for _ in range(300)]


def suitable_lengths(s):
    """All pairs of lengths that layer s takes, incoming and outgoing."""
    incoming = (0,) if s == 1 else LIST_LENGTHS
    outgoing = (0,) if s == LAYERS else LIST_LENGTHS
    return list(itertools.product(incoming, outgoing))


def random_layers(draw):
    """Every layer under every pair of lengths: 336 calls in each direction."""
    calls = []
    for direction in DIRECTIONS:
        for s in range(1, LAYERS + 1):
            for n, m in suitable_lengths(s):
                calls.append(layer_call(f"layer {direction}", direction, s, random_polynomial(draw),
                                        random_masks(draw, n), random_masks(draw, m)))
    return calls


# Extreme polynomials and masks.

EXTREMES = (
    [0] * N,
    [Q - 1] * N,
    power_of_x(0),
    power_of_x(255),
    power_of_x(255, Q - 1),
    [0, Q - 1] * 128,
    [Q - 1, 0] * 128,
    [0] * 128 + [Q - 1] * 128,
)


def extreme_transforms():
    return [transform_call(f"extreme {direction}", direction, f)
            for direction in DIRECTIONS for f in EXTREMES]


def extreme_products():
    return [multiply_call("extreme multiply", f, g) for f in EXTREMES for g in EXTREMES]


def extreme_layers():
    calls = []
    for direction in DIRECTIONS:
        for s in range(1, LAYERS + 1):
            for f in EXTREMES:
                for e, o in ((0, 0), (0, 255), (255, 0), (255, 255), (128, 127)):
                    incoming = [] if s == 1 else [e]
                    outgoing = [] if s == LAYERS else [o] * 128
                    calls.append(layer_call(f"extreme layer {direction}", direction, s, f,
                                            incoming, outgoing))
    return calls


# Sequences in which the program works on its own answers.

def run_round_trips(program, draw):
    """Each transform undoes the other."""
    for direction in DIRECTIONS:
        fs = list(EXTREMES) + [random_polynomial(draw) for _ in range(50)]
        kind = f"round trip from {direction}"
        there = program.compute([transform_call(kind, direction, f) for f in fs])
        program.compare([Call(kind, transform_line(OPPOSITE[direction], h), ok(f))
                         for f, h in zip(fs, there)])


def run_ring_products(program, draw):
    """Between the transforms the product is that modulo X^256 + 1."""
    kind = "product modulo X^256 + 1"
    fs = list(EXTREMES) + [random_polynomial(draw) for _ in range(12)]
    gs = list(reversed(EXTREMES)) + [random_polynomial(draw) for _ in range(12)]
    f_hats = program.compute([transform_call(kind, "forward", f) for f in fs])
    g_hats = program.compute([transform_call(kind, "forward", g) for g in gs])
    h_hats = program.compute([multiply_call(kind, f, g) for f, g in zip(f_hats, g_hats)])
    program.compare([Call(kind, transform_line("inverse", h), ok(fips203.multiply_polynomials(f, g)))
                     for f, g, h in zip(fs, gs, h_hats)])


def run_masked_transforms(program, draw):
    """Seven masked layers in a row; the answers come from the masks' law.

    After layer s, position j holds 17^mask(j) times the value of FIPS 203
    after that layer.  After layer 7 that is the plain transform.
    """
    choices = [[n] * 6 for n in LIST_LENGTHS] + [draw.choices(LIST_LENGTHS, k=6) for _ in range(24)]
    for direction in DIRECTIONS:
        kind = f"masked transform {direction}"
        polynomials = [random_polynomial(draw) for _ in choices]
        states = [STATES[direction](f) for f in polynomials]
        lists = [random_lists(draw, lengths) for lengths in choices]
        values = polynomials
        for s in range(1, LAYERS + 1):
            values = program.compute([masked_step(kind, direction, s, *one)
                                      for one in zip(values, states, lists)])
        program.compare([Call(kind, transform_line(direction, f), ok(value))
                         for f, value in zip(polynomials, values)])


def masked_step(kind, direction, s, value, states, lists):
    masks = masked.masks_after(direction, s, lists[s])
    return Call(kind, layer_line(direction, s, value, lists[s - 1], lists[s]),
                ok(masked.masked(states[s], masks)))


# The tables of FIPS 203, Appendix A.

def gamma_calls():
    """Slot i of a transform is the polynomial modulo X^2 - gamma_i."""
    one = [1, 0] * 128
    x = [0, 1] * 128
    x_squared = [value for gamma in GAMMAS for value in (gamma % Q, 0)]
    return [
        Call("gammas", transform_line("forward", power_of_x(0)), ok(one)),
        Call("gammas", transform_line("forward", power_of_x(1)), ok(x)),
        Call("gammas", transform_line("forward", power_of_x(2)), ok(x_squared)),
        Call("gammas", transform_line("inverse", x_squared), ok(power_of_x(2))),
        Call("gammas", multiply_line(x, x), ok(x_squared)),
    ]


def zero_lists(s):
    return [] if s == 1 else [0], [] if s == LAYERS else [0]


def forward_zeta_call(s):
    """1 at position j + len of each group: j gets zeta, j + len its negative."""
    length = 256 // 2 ** s
    f, answer = [0] * N, [0] * N
    seen = []
    for g in range(2 ** (s - 1)):
        j = 2 * length * g
        k = 2 ** (s - 1) + g
        f[j + length] = 1
        answer[j], answer[j + length] = ZETAS[k], Q - ZETAS[k]
        seen.append(k)
    return Call("zetas", layer_line("forward", s, f, *zero_lists(s)), ok(answer)), seen


def inverse_zeta_call(s):
    """1 at position j + len of each group: j gets 1, j + len gets zeta."""
    length = 2 ** s
    factor = fips203.INVERSE_OF_128 if s == LAYERS else 1
    f, answer = [0] * N, [0] * N
    seen = []
    for g in range(2 ** (7 - s)):
        j = 2 * length * g
        k = 2 ** (8 - s) - 1 - g
        f[j + length] = 1
        answer[j], answer[j + length] = factor, factor * ZETAS[k] % Q
        seen.append(k)
    return Call("zetas", layer_line("inverse", s, f, *zero_lists(s)), ok(answer)), seen


def zeta_calls():
    """Seven layers show all zetas but number 0, which no layer uses."""
    calls = []
    for make in (forward_zeta_call, inverse_zeta_call):
        pairs = [make(s) for s in range(1, LAYERS + 1)]
        seen = sorted(k for _, ks in pairs for k in ks)
        if seen != list(range(1, 128)):
            stop("the calls for the table of zetas do not show all 127 of them")
        calls += [call for call, _ in pairs]
    return calls


# Refusals.  A call is spoiled in several ways at once, and the answer must
# name the fault that is looked for first.

WRONG_SIZES = (0, 1, 2, 127, 128, 254, 255, 257, 258, 300, 512)
ABOVE_RANGE = (3329, 3330, 4095, 4096, 6657, 6658, 32768, 65535)
WRONG_LAYERS = (0, 8, 9, 16, 128, 249, 255)
WRONG_LIST_LENGTHS = (0, 3, 5, 6, 7, 9, 12, 24, 63, 65, 100, 127, 129, 192, 255, 256, 512)


def polynomial_of_size(draw, size):
    return [draw.randrange(Q) for _ in range(size)]


def spoil_from(draw, f, first):
    """Puts a coefficient above the range at `first` and at some later places."""
    f[first] = draw.choice(ABOVE_RANGE)
    for later in draw.sample(range(first, len(f)), min(3, len(f) - first)):
        f[later] = draw.choice(ABOVE_RANGE)


def faulty_slice(draw, wrong_size, wrong_range):
    """A slice with the faults asked for, and the place of the first bad value."""
    if not wrong_size:
        size = N
    else:
        size = draw.choice([n for n in WRONG_SIZES if n > 0 or not wrong_range])
    f = polynomial_of_size(draw, size)
    place = None
    if wrong_range:
        place = draw.randrange(size)
        spoil_from(draw, f, place)
    return f, place


def wrong_size_calls(draw):
    """Every wrong size in every slice; the other parts are in order."""
    calls = []
    for size in WRONG_SIZES:
        f, good = polynomial_of_size(draw, size), random_polynomial(draw)
        for direction in DIRECTIONS:
            calls.append((transform_line(direction, f), refused(1, 0)))
            calls.append((layer_line(direction, 4, f, [7], [9]), refused(1, 0)))
        calls.append((multiply_line(f, good), refused(1, 0)))
        calls.append((multiply_line(good, f), refused(1, 1)))
        calls.append((multiply_line(f, f), refused(1, 0)))
    return [Call("refused: one wrong size", *call) for call in calls]


def wrong_range_calls(draw):
    """The first bad value at every place of every slice."""
    calls = []
    for place in range(N):
        f, good = random_polynomial(draw), random_polynomial(draw)
        spoil_from(draw, f, place)
        s = place % LAYERS + 1
        for direction in DIRECTIONS:
            calls.append((transform_line(direction, f), refused(5, place)))
            calls.append((layer_line(direction, s, f, *zero_lists(s)), refused(5, place)))
        calls.append((multiply_line(f, good), refused(5, place)))
        calls.append((multiply_line(good, f), refused(5, place)))
    return [Call("refused: one wrong range", *call) for call in calls]


def transform_fault_calls(draw):
    """Both faults of a transform at once."""
    calls = []
    for direction in DIRECTIONS:
        for _ in range(10):
            f, _ = faulty_slice(draw, True, True)
            calls.append(Call("refused: faulty transform", transform_line(direction, f), refused(1, 0)))
    return calls


def multiply_fault_calls(draw):
    """Every set of the four faults of a product."""
    calls = []
    for size_f, size_g, range_f, range_g in itertools.product((False, True), repeat=4):
        for _ in range(6):
            f, place_f = faulty_slice(draw, size_f, range_f)
            g, place_g = faulty_slice(draw, size_g, range_g)
            answers = [(size_f, 1, 0), (size_g, 1, 1), (range_f, 5, place_f), (range_g, 5, place_g)]
            calls += first_fault("refused: faulty product", multiply_line(f, g), answers)
    return calls


def multiply_range_order_calls(draw):
    """A bad value in g at a lower place than the one in f: f is named."""
    calls = []
    for place_f, place_g in ((1, 0), (255, 0), (255, 254), (128, 127), (0, 0), (0, 255)):
        f, g = random_polynomial(draw), random_polynomial(draw)
        spoil_from(draw, f, place_f)
        spoil_from(draw, g, place_g)
        calls.append(Call("refused: faulty product", multiply_line(f, g), refused(5, place_f)))
    return calls


def first_fault(kind, line, answers):
    """The call with the first answer that applies; none if there is no fault."""
    for applies, number, place in answers:
        if applies:
            return [Call(kind, line, refused(number, place))]
    return []


def wrong_lengths_of(s):
    """The wrong lengths of layer s, incoming and outgoing."""
    needs_none = (1, 2, 3, 64, 128, 256)
    incoming = needs_none if s == 1 else WRONG_LIST_LENGTHS
    outgoing = needs_none if s == LAYERS else WRONG_LIST_LENGTHS
    return incoming, outgoing


def wrong_list_calls(draw):
    """Every wrong length of either list, and of both, in every layer."""
    calls = []
    for direction in DIRECTIONS:
        for s in range(1, LAYERS + 1):
            for n, m in unsuitable_lengths(draw, s):
                line = layer_line(direction, s, random_polynomial(draw),
                                  random_masks(draw, n), random_masks(draw, m))
                calls.append(Call("refused: wrong lists", line, refused(23, 0)))
    return calls


def unsuitable_lengths(draw, s):
    """Pairs of lengths that layer s does not take."""
    wrong_in, wrong_out = wrong_lengths_of(s)
    good = suitable_lengths(s)
    only_in = [(n, draw.choice(good)[1]) for n in wrong_in]
    only_out = [(draw.choice(good)[0], m) for m in wrong_out]
    both = [(draw.choice(wrong_in), draw.choice(wrong_out)) for _ in range(6)]
    return only_in + only_out + both


def layer_fault_calls(draw):
    """Every set of the four faults of a layer, for each direction."""
    calls = []
    for direction in DIRECTIONS:
        for faults in itertools.product((False, True), repeat=4):
            for s in range(1, LAYERS + 1):
                calls += one_layer_fault(draw, direction, s, *faults)
    return calls


def one_layer_fault(draw, direction, s, wrong_size, wrong_range, wrong_layer, wrong_lists):
    f, place = faulty_slice(draw, wrong_size, wrong_range)
    # With a wrong layer the lists are those of layer s: right for it, or wrong for it.
    lengths = unsuitable_lengths(draw, s) if wrong_lists else suitable_lengths(s)
    n, m = draw.choice(lengths)
    number = draw.choice(WRONG_LAYERS) if wrong_layer else s
    line = layer_line(direction, number, f, random_masks(draw, n), random_masks(draw, m))
    answers = [(wrong_size, 1, 0), (wrong_range, 5, place), (wrong_layer, 8, 0), (wrong_lists, 23, 0)]
    return first_fault("refused: faulty layer", line, answers)


def wrong_layer_calls(draw):
    """Every wrong layer number; all other parts are in order."""
    calls = []
    for direction in DIRECTIONS:
        for s in (0, *range(8, 256)):
            line = layer_line(direction, s, random_polynomial(draw), [1], [2])
            calls.append(Call("refused: wrong layer", line, refused(8, 0)))
    return calls


def refusal_calls(draw):
    return (wrong_size_calls(draw) + wrong_range_calls(draw) + transform_fault_calls(draw)
            + multiply_fault_calls(draw) + multiply_range_order_calls(draw)
            + wrong_layer_calls(draw) + wrong_list_calls(draw) + layer_fault_calls(draw))


# Lines that are no call at all.

NOT_A_COEFFICIENT = ("65536", "99999999999999999999999", "-1", "x", "1.5", "0x10", "1e3", "f")
NOT_A_BYTE = ("256", "300", "65535", "65536", "99999999999999999999999", "-1", "x", "1.0")


def with_bad_number(draw, numbers, bad):
    """The numbers as text, with one of them replaced by a word."""
    words = [str(x) for x in numbers]
    words[draw.randrange(len(words))] = bad
    return " ".join(words)


def bad_coefficient_lines(draw, good):
    lines = []
    for word in NOT_A_COEFFICIENT:
        bad = with_bad_number(draw, random_polynomial(draw), word)
        lines += [f"forward | {bad}", f"inverse | {bad}",
                  f"multiply | {bad} | {good}", f"multiply | {good} | {bad}",
                  f"layer forward 3 | {bad} | 1 | 2", f"layer inverse 3 | {bad} | 1 | 2",
                  # Other faults do not make the line readable.
                  f"forward | {word}", f"multiply | {good} | {word}", f"layer forward 0 | {word} | | "]
    return lines


def bad_byte_lines(draw, good):
    lines = []
    for word in NOT_A_BYTE:
        bad = with_bad_number(draw, random_masks(draw, 8), word)
        lines += [f"layer forward 3 | {good} | {bad} | 2", f"layer forward 3 | {good} | 1 | {bad}",
                  f"layer inverse 3 | {good} | {bad} | 2", f"layer inverse 3 | {good} | 1 | {bad}",
                  f"layer forward {word} | {good} | 1 | 2", f"layer inverse {word} | {good} | 1 | 2",
                  # Other faults do not make the line readable.
                  f"layer forward 0 | 5 | {word} | 2", f"layer inverse 9 | 5 | 1 | {word}"]
    return lines


def unknown_word_lines(good):
    return ["", "hello", f"transform | {good}", f"Forward | {good}", f"forwards | {good}",
            f"| {good}", good, f"multiply forward | {good} | {good}",
            f"layer | {good} | 1 | 2", f"layer 3 | {good} | 1 | 2",
            f"layer forward | {good} | 1 | 2", f"layer sideways 3 | {good} | 1 | 2",
            f"layer 3 forward | {good} | 1 | 2", f"forward layer 3 | {good} | 1 | 2"]


def too_few_part_lines(good):
    return ["forward", "inverse", "multiply", f"multiply | {good}", "layer forward 3",
            "layer inverse 3", f"layer forward 3 | {good}", f"layer inverse 3 | {good} | 1",
            f"layer forward 1 | {good} | ", f"forward {good}"]


def too_much_lines(good):
    return [f"forward | {good} | {good}", f"inverse | {good} | ",
            f"multiply | {good} | {good} | {good}", f"layer forward 3 | {good} | 1 | 2 | 3",
            f"forward 3 | {good}", f"layer forward 3 4 | {good} | 1 | 2"]


def unreadable_calls(draw):
    good = text(random_polynomial(draw))
    groups = {
        "unreadable: bad coefficient": bad_coefficient_lines(draw, good),
        "unreadable: bad mask or layer": bad_byte_lines(draw, good),
        "unreadable: unknown word": unknown_word_lines(good),
        "unreadable: too few parts": too_few_part_lines(good),
        "unreadable: too many parts": too_much_lines(good),
    }
    return [Call(kind, line, "unreadable") for kind, lines in groups.items() for line in lines]


# The whole run.

def guarded_line(ring, f):
    return line_of(ring, text(f))


APPROVED = [f"redundant 7681 {t}" for t in range(1, 168, 2)] + [f"redundant 12289 {t}" for t in range(1, 104, 2)] + ["pair 7681", "pair 12289"]
NO_MODULUS = [0, 1, 3329, 7680, 7682, 12288, 12290, 65537, 7681 + 65536, 2**32 - 1]
NO_REDUNDANCY = {7681: [0, *range(2, 168, 2), *range(168, 256)], 12289: [0, *range(2, 104, 2), *range(104, 256)]}


def guarded_calls(draw):
    """Every approved ring transforms; every other modulus and redundancy number is refused."""
    calls = []
    for ring in APPROVED:
        for f in (random_polynomial(draw), [Q - 1] * N):
            calls.append(Call("guarded transform", guarded_line(ring, f), ok(fips203.ntt(f))))
        short = random_polynomial(draw)[1:]
        calls.append(Call("guarded: wrong size", guarded_line(ring, short), refused(1, 0)))
        spoiled = random_polynomial(draw)
        spoiled[N - 1] = Q
        calls.append(Call("guarded: wrong range", guarded_line(ring, spoiled), refused(5, N - 1)))
    for p in NO_MODULUS:
        # an even redundancy number too: the modulus is looked at first
        for ring in (f"redundant {p} 3", f"redundant {p} 2", f"pair {p}"):
            calls.append(Call("refused: modulus", guarded_line(ring, random_polynomial(draw)), refused(3, 0)))
    for p, numbers in NO_REDUNDANCY.items():
        for t in numbers:
            calls.append(Call("refused: redundancy", guarded_line(f"redundant {p} {t}", random_polynomial(draw)), refused(4, 0)))
    return calls


def run_mixed(program, draw):
    """The single calls, shuffled, so that no call may change the answer to the next."""
    calls = (random_transforms(draw) + random_products(draw) + random_layers(draw)
             + refusal_calls(draw) + unreadable_calls(draw))
    draw.shuffle(calls)
    program.compare(calls)


def main():
    if len(sys.argv) > 2:
        raise SystemExit(f"usage: {sys.argv[0]} [PROGRAM]")
    program = Program(pathlib.Path(sys.argv[1]) if len(sys.argv) == 2 else built("plain"))
    draw = random.Random(3329)
    program.compare(gamma_calls() + zeta_calls())
    program.compare(extreme_transforms() + extreme_products() + extreme_layers())
    program.compare(guarded_calls(draw))
    run_mixed(program, draw)
    run_round_trips(program, draw)
    run_ring_products(program, draw)
    run_masked_transforms(program, draw)
    for kind, count in sorted(program.counts.items()):
        print(f"{count:5} {kind}")
    print(f"{program.counts.total():5} calls compared, no difference")


if __name__ == "__main__":
    main()
