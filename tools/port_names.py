#!/usr/bin/env python3
"""Brings the repository's own definitions and lemmas to today's spelling, after port.py: words in snake case, types and modules as they are.

usage: tools/port_names.py [FOLDER]     at the top of the repository, or of the copy that is named: rewrites crates/, README.md and docs/ in place.
Run it once, on what port.py left: what it turned it would turn again.

A name is turned where specs/ or proofs/ declare it: each of its parts between dashes that begins with a small letter and has a capital behind it
(`runEnd`, `length-upTo`), and a dash in a constructor or a field that specs/ declare (`length-is`). Names of lemmas keep their dashes. Names of src/
that are code, strings, inputs and outputs have no such form, and stay. It prints each name that it turned, and stops where two would fall together.

Two operators have a name of the library, which means the library's own in a contract: that two texts are the same is `≐` for `==`, and the choice
`if_then_else_` of Base, which is the library's word for word, is the library's. And where a clause has a record whose field is named as a parameter,
port.py leaves `name.entry.now` of what is behind a `&`: that is `name.now`.
"""
import os
import re
import sys

# Lemmas that would have the new name of the function that they speak of.
LEMMAS = ["in_use", "is_digit", "lines_at", "none_from", "one_name", "same_tables", "spelled_step", "too_long"]
# A new name that stands already for a function of src/, a field of a struct there or a goal that a call of such a function makes: nothing else has it.
SHARED = ["begins_before", "decode_mask", "encode_mask", "gives_read", "gives_write", "in_use", "is_above", "is_blank", "is_digit", "is_for", "is_head", "is_met",
    "is_name", "is_name_of", "is_only", "is_open", "is_shown", "is_write", "leaf_at", "mask_at", "mask_for", "may_admit", "may_match", "moved_end", "none_from", "one_name",
    "open_record", "open_tables", "read_more", "read_path", "read_row", "read_table", "same_length", "lines_at", "stands_at_one", "too_long", "value_text", "with_session"]
DECLARED = re.compile(r"^\s*(?:(?:abbrev|unfoldable)\s+)?(?:pub\s+)?([^\s:(){}]+)\s*:(?:\s|$)")
WORD = r"[\w'\-≢≡≤<∷]"


def walk(root, endings):
    for folder, dirs, files in os.walk(root):
        dirs[:] = sorted(d for d in dirs if d not in ("out", ".git", "target"))
        for name in sorted(files):
            if name.endswith(endings):
                yield os.path.join(folder, name)


def read(path):
    with open(path, encoding="utf-8") as f:
        return f.read()


def snake(part):
    if not re.match(r"^[a-z][A-Za-z0-9_']*$", part) or not re.search(r"[A-Z]", part):
        return part
    return re.sub(r"(?<=[a-z0-9'])([A-Z])", lambda m: "_" + m.group(1).lower(), part)


def turned(name, in_specs):
    if not re.match(r"^[a-z][\w'\-]*$", name):
        return name
    new = "-".join(snake(p) for p in name.split("-"))
    return new.replace("-", "_") if in_specs else new


def names(root):
    found = {}
    for path in walk(os.path.join(root, "crates"), (".antt",)):
        in_specs = "/specs/" in path
        for line in read(path).split("\n"):
            m = None if line.lstrip().startswith("--") else DECLARED.match(line)
            if m:
                new = turned(m.group(1), in_specs)
                if new != m.group(1):
                    found[m.group(1)] = new
    return found


def together(found, texts):
    words = set()
    for t in texts.values():
        words.update(re.findall(WORD + "+", t))
    bad = [(a, b) for a, b in sorted(found.items()) if b in words and b not in SHARED]
    seen = {}
    for a, b in sorted(found.items()):
        if b in seen:
            bad.append((a + " and " + seen[b], b))
        seen[b] = a
    return bad


PRELUDE = "Rattle.std.specs.Prelude"
CHOICE = "if◌then◌else◌"


def from_library(text, ghost):
    """The choice is brought in from the library, and not from Base."""
    line = re.compile(r"^((?:ghost )?use Rattle\.model\.specs\.Base)\.\{([^}\n]*)\}(;?)$", re.M)

    def without(m):
        left = [w for w in m.group(2).split(", ") if w != CHOICE]
        return f"{m.group(1)}.{{{', '.join(left)}}}{m.group(3)}" if left else ""

    if not any(CHOICE in m.group(2) for m in line.finditer(text)):
        return text
    text = line.sub(without, text)
    new = re.sub(r"^((?:ghost )?use " + re.escape(PRELUDE) + r"\.\{)([^}\n]*)\}", rf"\1\2, {CHOICE}}}", text, count=1, flags=re.M)
    if new != text:
        return new
    word, end = ("ghost use", ";") if ghost else ("use", "")
    return re.sub(r"^((?:ghost )?use )", f"{word} {PRELUDE}.{{{CHOICE}}}{end}\n" + r"\1", text, count=1, flags=re.M)


def operators(path, text):
    """The two operators of Base."""
    if path.endswith(".antt"):
        if path.endswith("model/specs/Base.antt"):
            own = f"infix 5 {CHOICE}\nabbrev pub {CHOICE} : {{A : Type 0}} → Bool → A → A → A\n{CHOICE} b x y = cond b x y\n\n"
            if own in text:
                text = text.replace(own, "")
                text = re.sub(r"^(use " + re.escape(PRELUDE) + r"\.\{)([^}\n]*)\}", rf"\1\2, {CHOICE}}}", text, count=1, flags=re.M)
        text = text.replace("◌==◌", "◌≐◌")
        text = re.sub(r"(?<=[\s(])==(?=[\s)])", "≐", text)
        return from_library(text, False)
    if path.endswith(".rt"):
        text = text.replace("◌==◌", "◌≐◌")
        text = re.sub(r"^(\s+(?:requires|ensures)\b[^\n]*)$", lambda m: m.group(1).replace(" == ", " ≐ ").replace(".entry.now", ".now"), text, flags=re.M)
        return from_library(text, True)
    if path.endswith(".edit"):
        out, inside = [], ""
        for l in text.split("\n"):
            if l.startswith("file: "):
                inside = l[6:]
            if inside.startswith(("specs/", "proofs/")) or "≡" in l or "use " in l and "◌" in l:
                l = l.replace("◌==◌", "◌≐◌").replace(" == ", " ≐ ")
                if "model.specs.Base" in l:
                    l = l.replace(f" {CHOICE},", "")
            out.append(l)
        return "\n".join(out)
    return text


def main():
    root = sys.argv[1] if len(sys.argv) > 1 else "."
    paths = list(walk(os.path.join(root, "crates"), (".antt", ".rt")))
    edits = list(walk(os.path.join(root, "crates"), (".edit",)))
    texts = {p: read(p) for p in paths}
    found = names(root)
    for old, new in sorted(found.items()):
        print(f"{old} {new}")
    lemma = re.compile(f"(?<!{WORD})(?<![.·])(" + "|".join(LEMMAS) + f")(?!{WORD})(?!\\.)")
    for p in texts:
        if p.endswith(".antt"):
            texts[p] = "\n".join(l if l.lstrip().startswith("--") else lemma.sub(r"\1_lem", l) for l in texts[p].split("\n"))
    bad = together(found, {p: t for p, t in texts.items() if p.endswith(".antt")})
    for old, new in bad:
        print(f"falls together: {old} -> {new}", file=sys.stderr)
    if bad:
        raise SystemExit(1)
    texts.update({p: read(p) for p in edits})
    for p in texts:
        texts[p] = operators(p, texts[p])
    words = "|".join(sorted(map(re.escape, found), key=len, reverse=True)) or "(?!)"
    pattern = re.compile(f"(?<!{WORD})({words})(?!{WORD})")
    more = edits + list(walk(os.path.join(root, "docs"), (".md",))) + [os.path.join(root, "README.md")]
    for path in paths + more:
        new = pattern.sub(lambda m: found[m.group(1)], texts.get(path) or read(path))
        if new != read(path):
            with open(path, "w", encoding="utf-8") as f:
                f.write(new)


main()
