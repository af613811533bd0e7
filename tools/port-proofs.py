#!/usr/bin/env python3
"""Turn the steps that old proofs of functions (Proof.antt) name to the names that today's check gives them.

    python3 tools/port-proofs.py crates/NAME ..

The check lists each function's old and new names once the crates below are proved: `if1` is `if-kind-eq-B_60`, a second call `less2` is `less-part`.
An old name may be another step's new one, so a file is turned once, and from its old form. What is left is named by `rt check`.
"""
import json
import pathlib
import re
import shutil
import subprocess
import sys
import tempfile

PLACE = re.compile(r"\btie\.((?:After|Then|Else|In|At|Start)[\w'-]*)")
GOAL = re.compile(r"\bNeed-([\w'-]+)")
FIELD = re.compile(r"\.([A-Za-z_][\w'-]*)")
# What a step has, and a struct's field of the same name has not.
MEMBER = re.compile(r"\.(?:ensures|result|given|true|false|requires|new|was|fact|invariant|is)\b")


def spellings(name):
    """A name as the older spelling may have it, with dashes or without."""
    return {name, name.replace("_", "-"), name.replace("-", "_")}


def table(pairs):
    made = {}
    for old, new in pairs:
        for each in spellings(old):
            made.setdefault(each, new)
    return made


def names_of(crate):
    """Each function's old and new names, as the check lists them."""
    folder = tempfile.mkdtemp()
    try:
        subprocess.run(["rt", "check", "--generated", folder, "--old-names"], cwd=crate, capture_output=True, check=False)
        return json.loads((pathlib.Path(folder) / "names.json").read_text())
    finally:
        shutil.rmtree(folder)


def rust_names(top):
    """Names of fields and parameters, which a step may share."""
    return {name for path in top.glob("crates/*/src/*.rt") for name in re.findall(r"\b([a-z_]\w*)\s*:(?!:)", path.read_text())}


def turned(text, names, fields):
    places = table((old[0], new) for old, new in zip(names["places"], names["places_by_name"]))
    goals = table(names["needs"])
    steps = table([place[2] for place in names["places"] if place[2][0]] + [loop[0] for loop in names["loops"]])
    text = PLACE.sub(lambda m: "tie." + places.get(m.group(1), m.group(1)), text)
    text = GOAL.sub(lambda m: "Need-" + goals.get(m.group(1), m.group(1)), text)

    def step(m):
        old = m.group(1)
        if old not in steps or (old in fields and not MEMBER.match(m.string, m.end())):
            return m.group(0)
        return "." + steps[old]

    text = FIELD.sub(step, text)
    for (old, new), _ in names["loops"]:
        for word in ("invariant", "decreases"):
            text = re.sub(rf"(?<![\w'-]){word}[_-]{re.escape(old)}(?![\w'-])", f"{word}-{new}", text)
    for old, new in names["args"]:
        was, now = old.split(".")[-1], new.split(".")[-1]
        text = re.sub(rf"\.{re.escape(was)}(?![\w'-])", "." + now, text)
    return text


def main():
    for crate in map(pathlib.Path, sys.argv[1:]):
        fields = rust_names(crate.resolve().parent.parent)
        for key, names in names_of(crate).items():
            function = re.fullmatch(r"Rattle-\w+-proofs\.(.*)\.Lts", key)
            if not function:
                continue
            proof = crate / "proofs" / function.group(1).replace(".", "/") / "Proof.antt"
            if proof.exists():
                old = proof.read_text()
                new = turned(old, names, fields)
                if new != old:
                    proof.write_text(new)
                    print(proof)


main()
