#!/usr/bin/env python3
"""Respells the names of this repository's definitions, lemmas and fields as today's Rattle spells names.

usage: python3 tools/respell.py       at the top of the repository, once, after port.py

- A definition in camel case, and every name with dashes, becomes snake case. A dash stays where it joins the whole names of two definitions.
- A lemma that would get the name of a definition ends in `_lem`.
- specs/Contracts.antt becomes specs/Clauses.antt, since Rattle makes a module specs.contracts of its own.
- Names of the library, of what Rattle makes, of functions and of types stay.
Files: .antt, .rt and .edit of crates/, and the documents that name what is in them. Prints each name with its new spelling.
"""
import collections
import os
import re
import sys

# A definition that would get the name of a parameter in a clause that cites it, and a lemma that would get the name of a word of the
# library that its file cites.
APART = {"settingsText": "text_of_settings", "in-float": "in_float_lem"}
NAME = r"[A-Za-zα-ωΑ-Ω][\w'₀-₉]*(?:-[\w'₀-₉]+)*"
WORD = re.compile(r"(?<![\w'₀-₉·-])" + NAME + r"(?![\w'₀-₉])")
HEAD = re.compile(r"^( *)((?:pub |abbrev |unfoldable )*)(" + NAME + r")((?: *(?:\([^()]*(?:\([^()]*\)[^()]*)*\)|\{[^}]*\}))*) *: ", re.M)
USE = re.compile(r"^(?:pub )?use ([^\s{]+?)\.?\{([^}]*)\}", re.M)


def files(ends, top="crates"):
    for folder, folders, names in os.walk(top):
        folders[:] = sorted(f for f in folders if f not in ("out", "target", ".git"))
        for name in sorted(names):
            if name.endswith(ends):
                yield os.path.join(folder, name)


def read(path):
    with open(path, encoding="utf-8", newline="") as f:
        return f.read()


def write(path, text):
    with open(path, "w", encoding="utf-8", newline="") as f:
        f.write(text)


def snake(name):
    if name[0].isupper():
        return name
    return re.sub(r"([a-z0-9'₀-₉])([A-Z])", lambda m: m[1] + "_" + m[2].lower(), name)


def camel(name):
    return bool(re.match("[a-z]", name) and re.search("[a-z0-9'₀-₉][A-Z]", name))


def is_proof_of_code(path):
    """A file that answers for a function, as crates/NAME/proofs/FILE/FUNCTION/Proof.antt."""
    parts = path.split(os.sep)
    return parts[2] == "proofs" and len(parts) > 4


def declared():
    """The names of definitions, of lemmas and of fields; and the names that files take from the library."""
    definitions, lemmas, fields, library = set(), set(), set(), set()
    for path in files(".antt"):
        text = re.sub(r"--.*", "", read(path))
        for use in USE.finditer(text):
            head = use[1].split(".")
            if head[0] != "Rattle" or not os.path.isdir(os.path.join("crates", head[1])):
                library.update(n.split(" as ")[0].strip() for n in use[2].split(","))
        if is_proof_of_code(path):
            continue
        within = None  # the indentation of the record whose fields follow
        for line in text.split("\n"):
            indent = len(line) - len(line.lstrip())
            if within is not None and line.strip() and indent <= within:
                within = None
            if re.match(r" *(pub )?(record|data) .*where *$", line):
                within = indent
                continue
            found = HEAD.match(line)
            if not found:
                continue
            if within is not None:
                fields.add(found[3])
            elif "abbrev" in found[2] or "unfoldable" in found[2] or camel(found[3]):
                definitions.add(found[3])
            else:
                lemmas.add(found[3])
    return definitions, lemmas, fields, library


def respelled():
    definitions, lemmas, fields, library = declared()
    new = {}
    whole = {snake(d) for d in definitions if "-" not in d} | {"length", "take", "drop", "append", "set", "map"}
    for name in sorted(definitions):
        if name not in library:
            new[name] = APART.get(name) or snake(name).replace("-", "_")
    taken = set(new.values())
    for name in sorted(lemmas | fields):
        if name in new or name in library or not ("-" in name or camel(name)):
            continue
        if name in APART:
            new[name] = APART[name]
            continue
        parts = snake(name).split("-")
        joint = [i for i in range(1, len(parts)) if "_".join(parts[:i]) in whole and "_".join(parts[i:]) in whole]
        if name in fields or len(joint) != 1:
            spelled = "_".join(parts)
        else:
            spelled = "_".join(parts[: joint[0]]) + "-" + "_".join(parts[joint[0] :])
        if name not in fields and spelled in taken or name in lemmas and spelled in taken:
            spelled += "_lem"
        new[name] = spelled
    new = {old: it for old, it in new.items() if old != it}
    # a lemma that port.py spelled as a definition is now
    second = {name: name + "_lem" for name in lemmas if name not in definitions and name in taken and name not in new}
    return new, second


def main():
    if not os.path.isdir("crates"):
        sys.exit("respell: run it at the top of the repository")
    new, second = respelled()
    back = collections.defaultdict(set)
    for old, it in new.items():
        back[it].add(old)
    everywhere = set()
    for path in files((".antt", ".rt")):
        everywhere.update(WORD.findall(read(path)))
    for it in sorted(back):
        olds = back[it] | ({it} & everywhere)
        if len(olds) > 1:
            print(f"together: {it} of {', '.join(sorted(olds))}")

    def turn(text, second={}):
        text = re.sub(r"specs([./])Contracts\b", r"specs\1Clauses", text)
        if second:
            text = re.sub(r"(?<!\.)" + WORD.pattern, lambda m: second.get(m[0], m[0]), text)
        return WORD.sub(lambda m: new.get(m[0], m[0]), text)

    for path in files((".antt", ".rt", ".edit")):
        text = read(path)
        if path.endswith("specs/Lib.antt"):
            text = re.sub(r"^pub mod Contracts$", "pub mod Clauses", text, flags=re.M)
        write(path, turn(text, second if path.endswith('.antt') else {}))
    for path in [*files(".md", "docs"), "README.md"]:
        text = read(path)
        write(path, re.sub(r"`[^`\n]*`", lambda m: turn(m[0]), text))
    for crate in sorted(os.listdir("crates")):
        old = os.path.join("crates", crate, "specs", "Contracts.antt")
        if os.path.exists(old):
            os.rename(old, old.replace("Contracts", "Clauses"))
    for old in sorted(new):
        print(f"{old} {new[old]}")
    for old in sorted(second):
        print(f"{old} {second[old]}")


main()
