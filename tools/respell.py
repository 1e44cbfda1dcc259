#!/usr/bin/env python3
"""Brings this repository's own definitions and lemmas to the spelling of today's Rattle.

usage: tools/respell.py [--check]     at the top of the repository, once, right after the toolchain's port.py

Functions, lemmas, fields and constructors go to snake case, facts (types) to upper camel case. What turns: the code of specs/ and
proofs/, the clauses of src/, must-fail edits, and code spans in comments and pages. Names of src/ keep their spelling. It also renames
the modules in MODULES. --check prints the table and what would fall together, and writes nothing.
"""
import collections
import glob
import os
import re
import sys

WORD = re.compile(r"[^\s(){}\[\].;,@\"«»`|]+")
DECLARED = re.compile(r"^ *(?:(?:unfoldable|abbrev|mutual) +)*(?:pub +)?(?:(?:unfoldable|abbrev) +)*(record +|data +)?([^\s(){}.;,@\"«»]+)(?= *[:({]| +[a-z(])", re.M)
SIGNED = re.compile(r"^( *)(?:(?:unfoldable|abbrev) +)*(?:pub +)?(?:(?:unfoldable|abbrev) +)*(record +|data +)?([^\s(){}.;,@\"«»]+) (?:\(.*\) |\{.*\} )*:(?: |$)(.*)", re.M)
# Modules whose name Rattle now makes itself: crate, old, new.
MODULES = [("card", "Contracts", "Calls"), ("walk", "Contracts", "Calls")]
# Names that would fall together with another: a theorem's statement with a constructor, a record with its module.
OTHERWISE = {
    "Right-is-there": "TheRightIsThere",
    "Alike-cards": "AlikePair",
    "Plainly-sound": "PlainlySoundRows",
    "freshRun": "fresh_card_run",
    "afterAStep": "after_a_step",
    "one-step": "one_step_session",
}
# Lemmas that would fall together with a definition, where they stand.
LEMMAS = [("crates/text/proofs/", {"no_room": "no_room_lem", "too_long": "too_long_lem"})]
# Names that a line declares with others.
SEVERAL = {"EC-EN": "EC_EN"}
# Names that stay: the data sheet's, and words that are no names of ours.
STAY = set()


def read(path):
    with open(path, encoding="utf-8") as f:
        return f.read()


def lemma_files():
    for kind in ("specs", "proofs"):
        yield from sorted(glob.glob(f"crates/*/{kind}/*.antt"))


def proof_files():
    yield from sorted(glob.glob("crates/*/proofs/*/**/*.antt", recursive=True))


def code_of(text):
    """The text without its comments."""
    return re.sub(r"(^|(?<=[\s]))--[^\n]*", "", text)


def snake(name):
    out = re.sub(r"(?<=[a-z0-9])(?=[A-Z])", "-", name)
    return out.replace("-", "_").lower()


def camel(name):
    first, *rest = name.split("-")
    return first + "".join(part[:1].upper() + part[1:] for part in rest)


def turned(name, is_type):
    if "⁻" in name or name.startswith("-") or name.endswith("-"):
        return name
    if is_type or (re.match(r"[A-Z][a-z]", name) and "-" in name):
        return camel(name)
    if re.match(r"[A-Z]", name):
        return name.replace("-", "_")
    return snake(name)


def declared():
    """Each declared name of specs/ and proofs/, and whether it is a type."""
    names = {}
    for path in list(lemma_files()) + list(proof_files()):
        own = "/proofs/" in path and path.count("/") > 3
        for indent, record, name, kind in SIGNED.findall(code_of(read(path))):
            if own and not indent:
                continue  # an answer's name is made by the toolchain
            is_type = bool(record) or bool(re.search(r"(^|→ )Type 0 *$", kind))
            names[name] = names.get(name, False) or is_type
    return names


def aliases():
    """The names that an import gives."""
    for path, how in files():
        if how in (antt, rust):
            yield from re.findall(r"\bas ([a-z]\w*[A-Z]\w*)\b", read(path))


def table():
    rows = {}
    for name, is_type in declared().items():
        if name in STAY or not re.search(r"[a-z0-9][A-Z]|-", name):
            continue
        new = OTHERWISE.get(name) or turned(name, is_type)
        if new != name:
            rows[name] = new
    rows.update(SEVERAL)
    rows.update({name: snake(name) for name in aliases()})
    taken = {new for old, new in rows.items() if "-" not in old}
    # "A lemma that would have its function's name gets `_lem`."
    return {old: new + "_lem" if "-" in old and new in taken else new for old, new in rows.items()}


def respelled(text, rows):
    return WORD.sub(lambda m: rows.get(m.group(0), m.group(0)), text)


SPAN = re.compile(r"`[^`\n]*`")
FENCE = re.compile(r"^```.*?^```", re.S | re.M)


def in_spans(text, rows):
    return SPAN.sub(lambda m: respelled(m.group(0), rows), text)


# What is no code: a comment, of which the code spans turn, and quoted text, which stays.
APART = {
    "antt": re.compile(r'(?P<comment>(?:(?<=\s)|^)--(?=[ \n-])[^\n]*)|(?P<quoted>"(?:[^"\\\n]|\\.)*")', re.M),
    "rust": re.compile(r'(?P<comment>(?:(?<=\s)|^)//[^\n]*)|(?P<quoted>"(?:[^"\\]|\\.)*")', re.M | re.S),
}


def code_and_spans(text, rows, apart):
    out, at = [], 0
    for m in apart.finditer(text):
        out.append(respelled(text[at : m.start()], rows))
        out.append(m.group(0) if m.group("quoted") else in_spans(m.group(0), rows))
        at = m.end()
    return "".join(out) + respelled(text[at:], rows)


def antt(text, rows):
    return code_and_spans(text, rows, APART["antt"])


def rust(text, rows):
    return code_and_spans(text, rows, APART["rust"])


def edit(text, rows):
    out = []
    for line in text.split("\n"):
        out.append(respelled(line, rows) if line.startswith(("old:", "new:")) else in_spans(line, rows))
    return "\n".join(out)


def page(text, rows):
    return in_spans(FENCE.sub(lambda m: respelled(m.group(0), rows), text), rows)


def moved(text, crate):
    for of, old, new in MODULES:
        text = re.sub(rf"(Rattle\.{of}\.specs\.){old}\b", rf"\g<1>{new}", text)
        text = text.replace(f"crates/{of}/specs/{old}.antt", f"crates/{of}/specs/{new}.antt").replace(f"{of}/specs/{old}", f"{of}/specs/{new}")
        if crate == of:
            text = re.sub(rf"^(pub mod|mod) {old}\b", rf"\1 {new}", text, flags=re.M)
            text = text.replace(f"file: specs/{old}.antt", f"file: specs/{new}.antt")
    return text


def files():
    for path in list(lemma_files()) + list(proof_files()):
        yield path, antt
    for path in sorted(glob.glob("crates/*/src/**/*.rt", recursive=True)):
        yield path, rust
    for path in sorted(glob.glob("crates/*/must-fail/*.edit")):
        yield path, edit
    for path in sorted(glob.glob("docs/*.md")) + ["README.md", "CONTRIBUTING.md"]:
        yield path, page


def together(rows):
    """Names that fall together in a file: two that turn into one, or one that turns into a word that stands there."""
    by = collections.defaultdict(list)
    for old, new in rows.items():
        by[new].append(old)
    for path, how in files():
        if how not in (antt, rust):
            continue
        text = code_of(read(path)) if how is antt else "\n".join(re.findall(r"(?:requires|ensures|ghost)[^\n]*", read(path)))
        words = {m.group(0) for m in WORD.finditer(text) if text[m.end() : m.end() + 1] != "." and text[m.start() - 1 : m.start()] != "."}
        for new, olds in sorted(by.items()):
            here = [old for old in olds if old in words]
            if len(here) > 1:
                yield f"two become one: {', '.join(here)} -> {new} in {path}"
            if here and new in words:
                yield f"stands already: {here[0]} -> {new} in {path}"
    for new, olds in sorted(by.items()):
        if len(olds) > 1:
            yield f"two become one: {', '.join(olds)} -> {new}"


def main():
    words = sys.argv[1:]
    if words not in ([], ["--check"]):
        print(__doc__)
        raise SystemExit(0 if words == ["--help"] else 2)
    if os.path.exists("docs/PORT.md"):
        raise SystemExit("respell.py has run here: docs/PORT.md is there. A second run would turn names that are right")
    rows = table()
    if words:
        for old, new in sorted(rows.items()):
            print(f"{old}\t{new}")
        for line in together(rows):
            print(line)
        return
    for path, how in files():
        text = old = read(path)
        for folder, lemmas in LEMMAS:
            if path.startswith(folder):
                text = antt(text, lemmas)
        crate = path.split("/")[1] if path.startswith("crates/") else ""
        new = moved(how(text, rows), crate)
        if new != old:
            with open(path, "w", encoding="utf-8") as f:
                f.write(new)
    for of, old, new in MODULES:
        if os.path.exists(f"crates/{of}/specs/{old}.antt"):
            os.rename(f"crates/{of}/specs/{old}.antt", f"crates/{of}/specs/{new}.antt")


if __name__ == "__main__":
    main()
