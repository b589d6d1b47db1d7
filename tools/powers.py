"""Writes crates/roots/src/lib.rt: the powers of each ring's root, from w^0 to w^255.

Run it from the repository's root and format the result by `rt fmt`. The check proves every entry,
so a wrong line here cannot land.
"""

PLAIN = [  # name, modulus, root
    ("PLAIN_3329", 3329, 17),
    ("PLAIN_7681", 7681, 3844),
    ("PLAIN_12289", 12289, 1260),
]


def joint(name, p, root):
    """The ring modulo 3329 p: its root leaves 17 by 3329 and the check root by p."""
    lifted = 17 + 3329 * ((root - 17) * pow(3329, -1, p) % p)
    return (name, 3329 * p, lifted)


JOINT = [
    joint("JOINT_7681", 7681, 3844),
    joint("JOINT_12289", 12289, 1260),
]


def table(name, word, modulus, root):
    assert (pow(root, 128, modulus) + 1) % modulus == 0
    powers = [pow(root, e, modulus) for e in range(256)]
    rows = "".join(f"    {power},\n" for power in powers)
    function = name.lower()
    return (
        f"const {name}: [{word}; 256] = [\n{rows}];\n\n"
        f"/// The powers of {root} modulo {modulus}.\n"
        f"pub fn {function}() -> &'static [{word}; 256]\n"
        f"    ensures {{ Powers {root} {modulus} result.now }}\n"
        f"{{\n    &{name}\n}}\n"
    )


def main():
    head = (
        "#![tactic(auto)]\n\n// Written by tools/powers.py.\n"
        "// A ring asks for its table at each power, and keeps no reference to it.\n"
        "// The five are one form already: a table and what it holds. Their words differ, u16 and u32, so one function for all would need a\n"
        "// trait of words with two impls and a type for each root beside the same five tables, and would be no plainer.\n"
        "ghost use Rattle.roots.specs.Powers.{Powers};\n\n"
    )
    tables = [table(name, "u16", modulus, root) for name, modulus, root in PLAIN]
    tables += [table(name, "u32", modulus, root) for name, modulus, root in JOINT]
    with open("crates/roots/src/lib.rt", "w") as out:
        out.write(head + "\n".join(tables))


if __name__ == "__main__":
    main()
