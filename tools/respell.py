#!/usr/bin/env python3
"""Respells the definitions and lemmas of crates/ as today's Rattle does: words in snake case.

usage: tools/respell.py     once, at the top of the repository, after the kit's port.py

camelCase words and kebab-case lemmas become snake_case; where two names would fall together, the lemma ends in _lem.
Files specs/Contracts.antt become specs/Promises.antt. Names in backticks of README.md and docs/ follow.
Functions of src/, exported names, strings, inputs and outputs keep their names.
"""

import collections
import os
import re
import subprocess
import sys

EDGE = r"[A-Za-z0-9_'\-◌₀-₉]"
SEPARATORS = r"\s(){}\[\],;.=→λ×⊎|\"@⟨⟩⌜⌝«»"
TOKEN = re.compile(f"[^{SEPARATORS}]+")
DECLARED = re.compile(
    rf"\s*(?:(?:pub|abbrev|unfoldable|private|mutual)\s+)*([^{SEPARATORS}:]+)(?:\s+\{{[^}}]*\}})?\s+:(?:\s|$)"
)
# names of arguments and of what a let names
LOCAL = ["roots-same", "mapWords", "placeWords", "resultRoom", "workAgain", "workRoom", "workWords"]
# files that a function's proof is in: what they declare are goals, and no words
OF_A_PROOF = ("Proof.antt", "Answers.antt", "Invariants.antt")


def files(endings):
    for folder, folders, names in os.walk("crates"):
        folders[:] = sorted(f for f in folders if f != "out")
        for name in sorted(names):
            if name.endswith(endings):
                yield os.path.join(folder, name)


def read(path):
    with open(path, encoding="utf-8") as f:
        return f.read()


def snake(name):
    name = re.sub(r"^get(D-|_d_)", "get_or_", name)
    return re.sub(r"(?<=[a-z0-9])([A-Z])", lambda m: "_" + m.group(1).lower(), name).replace("-", "_")


def declared_names():
    found = set()
    for path in files(".antt"):
        if "/proofs/" in path and os.path.basename(path) in OF_A_PROOF:
            continue
        for line in re.sub(r"--.*", "", read(path)).split("\n"):
            m = DECLARED.match(line)
            if m:
                found.add(m.group(1))
    return found


def new_names(declared):
    """The new name of each old one."""
    names = {}
    lower = [n for n in declared if re.match(r"[a-z]", n)]
    names |= {n: snake(n) for n in lower if n.startswith("get_d_")}
    camel = [n for n in lower if re.search(r"[A-Z]", n)] + LOCAL
    kebab = [n for n in lower if "-" in n and n not in camel]
    for old in sorted(camel):
        new = snake(old)
        if "-" in old and new in {snake(n) for n in camel if "-" not in n}:
            new += "_lem"
        if new in declared:
            names[new] = new + "_lem"
        names[old] = new
    taken = set(names.values()) | {n for n in declared if n not in names}
    for old in sorted(kebab):
        new = snake(old)
        names[old] = new + "_lem" if new in taken else new
    back = collections.defaultdict(list)
    for old, new in names.items():
        back[new].append(old)
    together = {new: olds for new, olds in back.items() if len(olds) > 1 or new in declared and new not in names}
    if together:
        sys.exit(f"names that fall together: {together}")
    return names


def replacer(names):
    one = re.compile(rf"(?<!{EDGE})(?:" + "|".join(re.escape(n) for n in sorted(names, key=len, reverse=True)) + rf")(?!{EDGE})")

    def put(text, of_library=()):
        """Names that the file takes from a library stay, but for the fields of that name."""
        word = lambda m: m.group(0) in of_library and text[m.start() - 1 : m.start()] != "." and text[m.end() : m.end() + 3] != " = "
        return one.sub(lambda m: m.group(0) if word(m) else names[m.group(0)], text)

    return put


def from_libraries(text, crates):
    """What the use lines of an antt file take from libraries, and where those lines stand."""
    taken, spans = set(), []
    for m in re.finditer(r"^\s*use\s+([\w.+]+?)\.\{([^}]*)\}", text, re.M):
        parts = m.group(1).split(".")
        if parts[0] == "Rattle" and parts[1] in crates:
            continue
        spans.append(m.span())
        for item in m.group(2).split(","):
            words = item.split()
            if words:
                taken.add(words[-1])
    return taken, spans


def respell_comment(text, put):
    """Names in camelCase; what has a dash may be plain words."""
    return re.sub(r"(?<![\w'-])[a-z]+[A-Z]\w*", lambda m: put(m.group(0)), text)


def respell_antt(text, put, crates):
    taken, spans = from_libraries(text, crates)
    pieces, at = [], 0
    for start, end in spans + [(len(text), len(text))]:
        for i, line in enumerate(text[at:start].split("\n")):
            code, dashes, comment = line.partition("--") if re.search(r"(^|\s)--", line) else (line, "", "")
            kept = () if line.startswith("use ") else taken
            pieces.append(("\n" if i else "") + put(code, kept) + dashes + respell_comment(comment, put))
        pieces.append(text[start:end])
        at = end
    return "".join(pieces)


def respell_rt(text, put):
    """Everything but comments, strings and byte strings, and of comments what is in camelCase."""
    parts = re.split(r'(//[^\n]*|b?"(?:\\.|[^"\\])*")', text)
    return "".join(put(p) if i % 2 == 0 else respell_comment(p, put) if p.startswith("//") else p for i, p in enumerate(parts))


def respell_page(text, put, declared):
    """Names in backticks, those that the kit's script had turned before among them."""
    one = re.compile(r"(?<![\w'/.-])[a-z][\w'-]*(?![\w'/-])")
    turn = lambda m: snake(m.group(0)) if snake(m.group(0)) in declared else m.group(0)
    return re.sub(r"`[^`\n]+`", lambda m: one.sub(turn, put(m.group(0))), text)


def write(path, text):
    if text != read(path):
        with open(path, "w", encoding="utf-8") as f:
            f.write(text)


def main():
    for path in [p for p in files(".antt") if p.endswith("/specs/Contracts.antt")]:
        subprocess.run(["git", "mv", path, path.replace("Contracts.antt", "Promises.antt")], check=True)
    declared = declared_names()
    names = new_names(declared)
    put_names = replacer(names)
    contracts = re.compile(rf"(?<!{EDGE})(Periodic|Column|)Contracts(?!{EDGE})")
    put = lambda text, of_library=(): contracts.sub(r"\1Promises", put_names(text, of_library))
    crates = set(os.listdir("crates"))
    for path in files(".antt"):
        write(path, respell_antt(read(path), put, crates))
    # a function of src/ may have the name of a lemma that gave way to a definition
    put_in_source = replacer({old: new for old, new in names.items() if not re.fullmatch(r"[a-z0-9_]+", old)})
    for path in files(".rt"):
        write(path, respell_rt(read(path), lambda text: contracts.sub(r"\1Promises", put_in_source(text))))
    pages = ["README.md"] + [os.path.join("docs", n) for n in sorted(os.listdir("docs")) if n.endswith(".md")]
    for path in pages:
        write(path, respell_page(read(path), put, declared))
    with open("/dev/stdout", "w", encoding="utf-8") as f:
        for old in sorted(names):
            f.write(f"{old} {names[old]}\n")


main()
