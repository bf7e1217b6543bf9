#!/usr/bin/env python3
"""Brings the repository's own definitions and lemmas to snake case.

usage: python3 tools/respell.py            at the top of the repository, once, on what the kit's port.py left
       python3 tools/respell.py --table    writes nothing: prints each old name and its new one

A name is the repository's own where a file of specs/ or proofs/ gives it a type, or lists it as a field or a variant. A dash and a capital inside a name
become an underscore. Two names that would fall together stay apart: a lemma gets '_lem', as its function keeps the name. Names that the checker makes keep
their spelling: goals in proofs/F, and what a proof reads from them. Texts, functions of src/ and exported names are left alone.
"""

import glob
import os
import re
import sys

# a name in antt: what stands between spaces, brackets, commas, dots and semicolons
WORD = r"[^\s(){}\[\],.;:`\"“”]+"
TYPED = re.compile(rf"^(\s*)((?:abbrev|unfoldable|pub|infix\w*|\d+)\s+)*({WORD}(?:\s+{WORD})*)(?:\s+\{{ℓ\w*\}})*\s+:(?:\s|$)")
# what a proof of one function names after the checker's own words
MADE = re.compile(rf"^[^(:]*\s:\s+(?:tie|goal|goals|given)\.")
MARKED = re.compile(r"`[^`\n]+`")


def snake(name):
    text = re.sub(r"(?<=[a-z0-9])([A-Z])", lambda m: "_" + m.group(1).lower(), name)
    return text.replace("-", "_")


def is_old(name):
    return bool(re.match(r"^[a-z]\w*[A-Z]", name)) or bool(re.match(r"^[a-z][\w']*(-[\w']+)+$", name))


def antt_files():
    found = glob.glob("crates/*/specs/**/*.antt", recursive=True) + glob.glob("crates/*/proofs/**/*.antt", recursive=True)
    return sorted(p for p in found if "/out/" not in p)


def in_function_folder(path):
    return os.path.basename(path) in ("Proof.antt", "Answers.antt", "Invariants.antt")


def read(path):
    with open(path, encoding="utf-8") as f:
        return f.read()


def own_names():
    """Each name that the repository's files define, and which are definitions and not lemmas (no dash), and those of goals."""
    names, definitions, kept = set(), set(), set()
    for path in antt_files():
        for line in read(path).split("\n"):
            if line.lstrip().startswith("--"):
                continue
            m = TYPED.match(line)
            if not m:
                continue
            made = in_function_folder(path) and MADE.search(line)
            for name in m.group(3).split():
                if made:
                    kept.add(name)
                elif is_old(name):
                    names.add(name)
                    if "-" not in name:
                        definitions.add(name)
    return names, definitions, kept


def table():
    """Old names and their new ones. A definition keeps the plain name, also where a function of src/ has it."""
    names, definitions, kept = own_names()
    new = {name: snake(name) for name in names if name in definitions}
    plain = set(new.values())
    other = in_snake_case("specs", "proofs")
    for name in sorted(names - definitions):
        to = snake(name)
        new[name] = to + "_lem" if to in plain or to in other else to
    # a lemma that has a definition's new name already, in a file that cites both
    old_of = {to: name for name, to in new.items() if name in definitions}
    for name in sorted(in_snake_case("proofs") & plain):
        if any({name, old_of[name]} <= set(re.findall(WORD, read(path))) for path in antt_files()):
            new[name] = name + "_lem"
    return new, kept


def in_snake_case(*folders):
    """Names that these folders' files define and that have no dash or capital inside."""
    found = set()
    for path in antt_files():
        if not any(f"/{folder}/" in path for folder in folders):
            continue
        for line in read(path).split("\n"):
            m = None if line.lstrip().startswith("--") else TYPED.match(line)
            if m:
                found.update(name for name in m.group(3).split() if not is_old(name))
    return found


def renamed_words(text, new, keep, known=frozenset()):
    """known: names that stand in snake case already, since port.py turned them; a page or an edit still has the old ones."""

    def one(m):
        word = m.group(0)
        if word not in new and is_old(word) and snake(word) in known:
            return snake(word)
        return word if word in keep else new.get(word, word)

    return re.sub(WORD, one, text)


def line_of_antt(line, new, keep, fields_too):
    """The words of a line, but for what a proof reads from the checker's own records: `c.step.field`."""
    out, last = [], 0
    for m in re.finditer(WORD, line):
        word = m.group(0)
        out.append(line[last : m.start()])
        last = m.end()
        after_dot = m.start() > 0 and line[m.start() - 1] == "."
        made = after_dot and (not is_old(word) or ("-" in word and not fields_too(line, m.start())))
        out.append(word if word in keep or made else new.get(word, word))
    out.append(line[last:])
    return "".join(out)


def of_module(line, at):
    """Whether the dotted word at this place is a module's: what leads to it begins with a capital, or is an alias of a module."""
    lead = re.search(r"([\w']+(?:\.[\w']+)*)\.$", line[:at])
    return bool(lead) and lead.group(1)[0].isupper()


def turn_antt(path, new, kept):
    text = read(path)
    keep = kept_here(text) if in_function_folder(path) else set()
    lines = [line_of_antt(line, new, keep, of_module) for line in text.split("\n")]
    return text, "\n".join(lines)


def kept_here(text):
    found = set()
    for line in text.split("\n"):
        m = TYPED.match(line)
        if m and MADE.search(line):
            found.update(m.group(3).split())
    return found


def turn_rt(path, new):
    """Everything but string literals: no word of the code has a dash or a capital inside, so only imports, clauses and comments change."""
    text = read(path)
    parts = re.split(r'("(?:[^"\\\n]|\\.)*")', text)
    return text, "".join(p if i % 2 else renamed_words(p, new, set()) for i, p in enumerate(parts))


def turn_edit(path, new, known):
    """Lines 'old:' and 'new:' of an edit of specs/ are antt, of src/ are source."""
    return read(path), renamed_words(read(path), new, set(), known)


def turn_marked(path, new, known):
    """Pages: words between backticks."""
    text = read(path)
    return text, MARKED.sub(lambda m: renamed_words(m.group(0), new, set(), known), text)


def write(path, was, now):
    if was != now:
        with open(path, "w", encoding="utf-8") as f:
            f.write(now)
    return was != now


def pages():
    found = glob.glob("*.md") + glob.glob("docs/*.md") + glob.glob("*/README.md") + glob.glob("crates/*/README.md")
    return sorted(p for p in found if os.path.basename(p) not in ("NOTICE", "PORT.md"))


def main():
    new, kept = table()
    # where a function of src/ is named, what has snake case is the function
    outside = {name: to for name, to in new.items() if is_old(name)}
    if "--table" in sys.argv:
        for name in sorted(new):
            print(f"{name}\t{new[name]}")
        return
    known = in_snake_case("specs", "proofs")
    changed = 0
    for path in antt_files():
        changed += write(path, *turn_antt(path, new, kept))
    for path in sorted(glob.glob("crates/*/src/*.rt")):
        changed += write(path, *turn_rt(path, outside))
    for path in sorted(glob.glob("crates/*/must-fail/*.edit")):
        changed += write(path, *turn_edit(path, outside, known))
    for path in pages():
        changed += write(path, *turn_marked(path, outside, known))
    print(f"respell: {len(new)} names, {changed} files changed")


main()
