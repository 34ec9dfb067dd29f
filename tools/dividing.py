#!/usr/bin/env python3
"""dividing.py CRATE GENERATED LIBRARIES

Prints the functions that go into the static library CRATE, a name to a line, with the word divides behind each in which a number is divided or a
remainder taken. It is run at the top of the repository once `rt lib` has built CRATE. GENERATED is what `rt check --generated GENERATED` wrote in the
folder of CRATE: the code of its own functions. The code of each library below stands in the library that `rt` built of it. All functions of
these are taken, and of the toolchain's libraries, which are in the folder LIBRARIES, each that one of them names, and so on.
"""
import json
import os
import re
import sys

CALLED = re.compile(r"^use Rattle\.(\w+)\.proofs\.(\S+)\.Symbol$", re.M)
DIVIDES = re.compile(r"\bSyntax\.(?:div|rem)\b")


def crates_below(crate):
    with open("crates.txt", encoding="utf-8") as lines:
        for line in lines:
            name, _, below = line.partition("#")[0].partition(":")
            if name.split()[:1] == [crate]:
                return below.split()
    sys.exit(f"dividing.py: crates.txt has no crate {crate}")


def read(library):
    """The functions of a library that was built: for each name its code, or nothing where there is no such library."""
    try:
        with open(os.path.join(library, "toolchain", "mir.json"), encoding="utf-8") as code:
            return dict(json.load(code))
    except FileNotFoundError:
        return {}


def words(code):
    """All words of some code, names among them."""
    if isinstance(code, str):
        yield code
    elif isinstance(code, list):
        for part in code:
            yield from words(part)
    elif isinstance(code, dict):
        for key, part in code.items():
            yield key
            yield from words(part)


def own_functions(crate, generated):
    """The functions of the static library itself: for each name what it calls, and whether it divides."""
    top = os.path.join(generated, f"Rattle-{crate}-proofs")
    for folder, _, files in sorted(os.walk(top)):
        if "Mir.antt" in files:
            with open(os.path.join(folder, "Mir.antt"), encoding="utf-8") as text:
                code = text.read()
            name = "::".join([crate, *os.path.relpath(os.path.dirname(folder), top).split(os.sep)])
            called = {"::".join([library, *path.split(".")]) for library, path in CALLED.findall(code)}
            yield name, called, bool(DIVIDES.search(code))


def main(crate, generated, libraries):
    below = crates_below(crate)
    known = {name: read(f"crates/{name}/out/rlib/{name}.rlib") for name in below}
    for name in below:
        # A crate of definitions alone has no functions, and a library that was not built has no file of them.
        if not os.path.isdir(f"crates/{name}/out/rlib/{name}.rlib"):
            sys.exit(f"dividing.py: {name} is not built")
    divides, left = {}, [name for name in below for name in known[name]]
    for name, called, does in own_functions(crate, generated):
        divides[name] = does
        left += called
    while left:
        name = left.pop()
        library = name.partition("::")[0]
        if name in divides or not library.isidentifier() or "::" not in name:
            continue
        if library not in known:
            known[library] = read(os.path.join(libraries, f"{library}.rlib"))
        if name not in known[library]:
            continue
        named = set(words(known[library][name]))
        divides[name] = bool(named & {"Div", "Rem"})
        left += named
    for name in sorted(divides):
        print(name + " divides" * divides[name])


if __name__ == "__main__":
    main(*sys.argv[1:])
