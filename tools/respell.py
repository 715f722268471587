#!/usr/bin/env python3
"""Respells what port.py left of this repository's own names: words in snake case, primes as apostrophes.

Run once, at the top of the repository, right after port.py. A name is ours if a file of specs/ or proofs/ declares it, or binds it by
`let`; a name of the toolchain's library, and what stands behind `tie.`, keeps its spelling. Functions of src/, exported C names,
strings, inputs and outputs are left alone. Where a lemma would take the name of its definition it gets `_lem`.
"""
import glob
import re

LEMMAS = {  # lemmas whose name falls together with a definition's
    "block-hits": "block_hits_lem",
    "entries-of": "entries_of_lem",
    "first-hit": "first_hit_lem",
    "hits-from": "hits_from_lem",
    "of-source": "of_source_lem",
    "or-else": "or_else_lem",
    "row-gain": "row_gain_lem",
    "says-first-hit": "says_first_hit_lem",
    "place-in": "place_in_lem",
}
TURNED = {  # the same, where port.py had turned the lemma's name already: (files, old, new)
    ("crates/vectors/proofs/Found.antt", "first_two", "first_two_lem"),
    ("crates/decimal/proofs/Laws.antt", "is_digit", "is_digit_lem"),
    ("crates/decimal/proofs/Readings.antt", "is_digit", "is_digit_lem"),
}
BINDERS = ["refusalOf", "by-tens", "room-size", "zero-offset", "below-x", "below-y", "from-x", "inside-old", "not-before"]
NAME = r"[^\s(){}\[\],;.`\"λ:=→×⊎]+"
DECLARED = re.compile(r"^(\s*)((?:(?:pub|abbrev|unfoldable)\s+)*)(?:(?:data|record)\s+)?(?:pub\s+)?(" + NAME + r"(?:\s+" + NAME + r")*)\s*:\s")
HEADED = re.compile(r"^\s*(?:pub\s+)?(?:data|record)\s+(?:pub\s+)?(" + NAME + ")")
BOUND = re.compile(r"\blet\s+(" + NAME + r")\s*[:=]")
TOKEN = re.compile(r"(?<!tie\.)(?<![^\s(){}\[\],;.`\"λ:=→×⊎◌])" + NAME)


def snake(name):
    if name in LEMMAS:
        return LEMMAS[name]
    if name[0].islower():
        name = re.sub(r"([a-z0-9])([A-Z])", lambda m: m.group(1) + "_" + m.group(2).lower(), name)
    return name.replace("-", "_").replace("′", "'")


def ours(name):
    """A name of more than a letter that has a dash between letters, a capital inside, or a prime."""
    return (
        len(name) > 1
        and not name.startswith(("+", "Need-", "invariant-", "decreases-"))
        and name[0].isalpha()
        and (re.search(r"\w-\w", name) or (name[0].islower() and re.search(r"[a-z0-9][A-Z]", name)) or "′" in name)
    )


def proofs():
    return sorted(glob.glob("crates/*/specs/**/*.antt", recursive=True) + glob.glob("crates/*/proofs/**/*.antt", recursive=True))


def library_names():
    """What files import from the toolchain's library."""
    crates = {p.split("/")[1] for p in glob.glob("crates/*/")}
    names = set()
    for path in proofs() + glob.glob("crates/*/src/**/*.rt", recursive=True):
        for line in open(path, encoding="utf-8").read().replace("\n ", " ").split("\n"):
            m = re.match(r"(?:pub )?(?:ghost )?use ([\w.+-]+)\.\{(.*)\}", line)
            if m and not (m.group(1).startswith("Rattle.") and m.group(1).split(".")[1] in crates):
                names.update(n.strip().split(" as ")[-1] for n in m.group(2).split(","))
    return names


def declared():
    names = set()
    for path in proofs():
        tie = path.endswith("/Proof.antt")
        for line in open(path, encoding="utf-8"):
            if line.lstrip().startswith("--"):
                continue
            if tie and re.search(r": tie\.|: statement ", line + " "):
                continue
            m = DECLARED.match(line)
            if m:
                names.update(m.group(3).split())
            m = HEADED.match(line)
            if m:
                names.add(m.group(1))
            names.update(BOUND.findall(line))
    return names


def turn(text, names):
    return TOKEN.sub(lambda m: names.get(m.group(0), m.group(0)), text)


def turn_antt(line, names):
    """A line of specs/ or proofs/: its text, and in a comment what stands between backticks."""
    m = re.match(r"(.*?)((?:^|\s)--\s.*)$", line, re.S)
    text, comment = (m.group(1), m.group(2)) if m else (line, "")
    return turn(text, names) + re.sub(r"`[^`]*`", lambda q: turn(q.group(0), names), comment)


def turn_rt(text, names):
    """The clauses and imports of a file of src/."""
    out, clause = [], False
    for line in text.split("\n"):
        if re.match(r"\s*(pub )?ghost |\s*(requires|ensures)\b", line):
            clause = True
        elif line.startswith(("{", "}")) or re.match(r"\s*(//|pub |fn |use |struct |enum |impl |const )", line) or not line.strip():
            clause = False
        out.append(turn(line, names) if clause else re.sub(r"`[^`]*`", lambda q: turn(q.group(0), names), line) if line.lstrip().startswith("//") else line)
    return "\n".join(out)


def main():
    library = library_names()
    names = {n: snake(n) for n in declared() if ours(n) and n not in library}
    names["andThen"] = "and_then"
    names.update({n: snake(n) for n in BINDERS})
    kept = sorted(n for n in declared() if ours(n) and n in library)
    if kept:
        print("the library has these too:", " ".join(kept))
    for path in proofs():
        text = open(path, encoding="utf-8").read()
        new = "\n".join(turn_antt(line, names) for line in text.split("\n"))
        for where, old, to in TURNED:
            if path == where:
                new = re.sub(r"(?<![\w.-])" + old + r"(?![\w-])", to, new)
        if path == "crates/vectors/proofs/find_basis/Proof.antt":
            new = new.replace("{begin, first_two,", "{begin, first_two_lem,").replace("(first_two (d", "(first_two_lem (d")
        new = new.replace("◌andThen◌", "◌and_then◌")
        if new != text:
            open(path, "w", encoding="utf-8").write(new)
    for path in sorted(glob.glob("crates/*/src/**/*.rt", recursive=True)):
        text = open(path, encoding="utf-8").read()
        new = turn_rt(text, names).replace("◌andThen◌", "◌and_then◌")
        if new != text:
            open(path, "w", encoding="utf-8").write(new)
    print(len(names), "names respelled")


main()
