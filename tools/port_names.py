#!/usr/bin/env python3
"""Respells this repository's own definitions, lemmas and fields, once, after /opt/rattle/port/port.py: snake case, and a dash where a type was
joined to a name by a middle dot. A lemma that would have the name of a definition ends in _lem. Run at the top of the checkout.

    acceptedExactly -> accepted_exactly    same-length -> same_length    Model·ir-version -> Model-ir_version
"""

import glob
import re
import sys

TOKEN = re.compile(r"--[^\n]*|\"(?:[^\"\\\n]|\\.)*\"|[^\s(){}.;,@\"«»\[\]\\]+")
NAME = re.compile(
    r"^[ \t]*(?:(?:abbrev|unfoldable|pub|data|record)[ \t]+)*([^\s:(){},;.\"|=]+)(?=[ \t]*(?:\([^)\n]*\)[ \t]*|\{[^}\n]*\}[ \t]*)*:(?=\s))", re.M
)
BINDER = re.compile(r"[({]([^\s():{}=]+(?: [^\s():{}=]+)*) : |λ ((?:[^\s().{}]+ )*[^\s().{}]+)\. ")


def snake(name):
    if "·" in name:
        head, tail = name.split("·", 1)
        return head + "-" + snake(tail)
    if name[0].isupper():
        return name
    name = re.sub(r"(?<=[a-z0-9])[A-Z]+", lambda it: "_" + it.group().lower(), name)
    return re.sub(r"(?<=\w)-(?=\w)", "_", name).replace("′", "'")


def is_camel(name):
    return "-" not in name and "·" not in name and snake(name) != name


def read(path):
    with open(path, encoding="utf-8") as it:
        return it.read()


def declared(paths):
    names = set()
    for path in paths:
        text = re.sub(r"--.*", "", read(path))
        names.update(NAME.findall(text))
        names.update(re.findall(r"^use \S+ as ([^\s{]+)$", text, re.M))
        for some in BINDER.findall(text):
            names.update(word for word in " ".join(some).split() if word not in ("_", "→"))
    return names


def of_library(paths):
    """What files import from the kit, under its own name."""
    crates = {path.split("/")[1] for path in paths}
    names = set()
    for path in paths:
        for module, those in re.findall(r"^use ([^\s{]+)\.\{([^}]*)\}", read(path), re.M):
            if not (module.startswith("Rattle.") and module.split(".")[1] in crates):
                names.update(re.split(r"[,\s]+", those))
    return names


def table(paths, every):
    """The new name of each that changes, and of each that is a lemma already spelled like a definition's new name."""
    own = declared(paths)
    new = {name: snake(name) for name in own - of_library(every) if snake(name) != name}
    of_definitions = {new[name] for name in new if is_camel(name)}
    for name in list(new):
        if not is_camel(name) and "·" not in name and (new[name] in of_definitions or new[name] in own):
            new[name] += "_lem"
    lemmas = {name: name + "_lem" for name in own & of_definitions}
    return new, lemmas


def turned(text, new):
    return TOKEN.sub(lambda it: it.group() if it.group()[0] == '"' else comment(it.group(), new) if it.group()[:2] == "--" else new.get(it.group(), it.group()), text)


def comment(text, new):
    return re.sub(r"[A-Za-z][\w·′-]*", lambda it: new.get(it.group(), it.group()) if re.search(r"[a-z][A-Z]|·", it.group()) else it.group(), text)


def main():
    antt = sorted(glob.glob("crates/*/specs/**/*.antt", recursive=True) + glob.glob("crates/*/proofs/**/*.antt", recursive=True))
    new, lemmas = table([it for it in antt if "/specs/" in it or it.count("/") == 3], antt)
    for path in antt + sorted(glob.glob("crates/*/src/**/*.rt", recursive=True)):
        text = read(path)
        if path.endswith(".antt"):
            after = turned(text, new | lemmas)
        else:
            # In the code, names stand as they are: only what no Rust name looks like is respelled.
            after = turned(text, {name: new[name] for name in new if is_camel(name) or "·" in name})
        if after != text:
            with open(path, "w", encoding="utf-8") as it:
                it.write(after)
    if "-v" in sys.argv:
        for name in sorted(new):
            print(name, new[name])
        print("lemmas:", lemmas)


if __name__ == "__main__":
    main()
