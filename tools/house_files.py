#!/usr/bin/env python3
"""Writes the house files of samples/, each beside the listing and the drawing that it must give, and the programs' own
input and output.

Run it at the repository's root: tools/house_files.py. Drawings are those of ./differential dot.
"""
import subprocess
from pathlib import Path

TAGS = {"in": 0, "const": 1, "add": 2, "sub": 3, "mul": 4, "neg": 5}

PRODUCTS = ["in 0", "in 1", "in 2", "mul 0 1", "mul 0 2", "add 3 4"]
FACTORED = "|0 in 0 0|1 in 1 0|2 in 2 0|3 add 1 2|4 mul 0 3"

# name, root (version 1) or roots (version 2), records, listing
SAMPLES = [
    (
        "shared_factor",
        5,
        PRODUCTS,
        "nodes 5 root 4 rounds 1" + FACTORED,
    ),
    (
        "rotation",
        6,
        ["in 0", "in 1", "in 2", "add 0 2", "add 0 1", "add 2 4", "mul 3 5"],
        "nodes 6 root 5 rounds 1|0 in 0 0|1 in 1 0|2 in 2 0|3 add 0 2|4 add 1 3|5 mul 3 4",
    ),
    ("unreachable", 0, ["in 0", "in 1"], "nodes 2 root 0 rounds 0|0 in 0 0|1 in 1 0"),
    (
        "every_kind",
        5,
        ["in 3096224743817216", "const 18446744069414584320 3", "add 0 1", "sub 0 2", "mul 2 3", "neg 4"],
        "nodes 6 root 5 rounds 0|0 in 3096224743817216 0|1 const 18446744069414584320 3|2 add 0 1|3 sub 0 2|4 mul 2 3|5 neg 4 0",
    ),
    ("operand_not_earlier", 3, ["in 0", "in 1", "add 0 1", "mul 2 4", "neg 3"], "refused 5 3"),
    ("two_roots", [5, 0], PRODUCTS, "nodes 5 root 4 0 rounds 1" + FACTORED),
    ("one_place_twice", [5, 5], PRODUCTS, "nodes 5 root 4 4 rounds 1" + FACTORED),
    ("roots_meet", [5, 7], PRODUCTS + ["add 1 2", "mul 0 6"], "nodes 5 root 4 4 rounds 1" + FACTORED),
    (
        "root_in_the_way",
        [5, 3],
        PRODUCTS,
        "nodes 6 root 5 3 rounds 0|0 in 0 0|1 in 1 0|2 in 2 0|3 mul 0 1|4 mul 0 2|5 add 3 4",
    ),
    (
        "eight_roots",
        [5, 4, 3, 2, 1, 0, 2, 5],
        ["in 0", "in 1", "add 0 1", "sub 0 1", "mul 2 3", "neg 4"],
        "nodes 6 root 5 4 3 2 1 0 2 5 rounds 0|0 in 0 0|1 in 1 0|2 add 0 1|3 sub 0 1|4 mul 2 3|5 neg 4 0",
    ),
    ("nine_roots", [0] * 9, ["in 0"], "refused 46 0"),
]


def house_file(roots, records):
    """Version, count, root or number of roots and roots, then 17 bytes a record, numbers big-endian."""
    if isinstance(roots, int):
        version, places = b"\1", roots.to_bytes(4, "big")
    else:
        version, places = b"\2", bytes([len(roots)]) + b"".join(root.to_bytes(4, "big") for root in roots)
    out = version + len(records).to_bytes(4, "big") + places
    for record in records:
        kind, *words = record.split()
        first, second = [int(word) for word in words + ["0"]][:2]
        out += bytes([TAGS[kind]]) + first.to_bytes(8, "big") + second.to_bytes(8, "big")
    return out


def write(name, file, listing):
    Path(f"samples/{name}.house").write_bytes(file)
    Path(f"samples/{name}.txt").write_text(listing.replace("|", "\n") + "\n")
    drawing = subprocess.run(["./differential", "dot"], input=file, stdout=subprocess.PIPE, check=True).stdout
    Path(f"samples/{name}.dot").write_bytes(drawing)


Path("samples").mkdir(exist_ok=True)
for name, roots, records, listing in SAMPLES:
    write(name, house_file(roots, records), listing)
write("cut_short", house_file(*SAMPLES[0][1:3])[:-1], "refused 24 0")
for program, name, ending in (("normlist", SAMPLES[0][0], "txt"), ("drawlist", "every_kind", "dot")):
    for source, target in (("house", "stdin"), (ending, "stdout")):
        Path(f"crates/{program}/{target}").write_bytes(Path(f"samples/{name}.{source}").read_bytes())
