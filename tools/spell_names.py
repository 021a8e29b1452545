#!/usr/bin/env python3
"""Brings the repository's own definitions and lemmas to today's spelling, once, behind the kit's port.py.

usage: tools/spell_names.py      at the top of the repository

Functions and lemmas of specs/ and proofs/ get snake case: newVelocity is new_velocity, and-right is and_right; a lemma that would
have its definition's name ends in _lem. Types, modules and functions of src/ keep their names, and so do names of the library where
a file imports them. The edits of wrong programs and the papers follow. The crate log is named log_writes, since the kit has a library log.
"""

import collections
import os
import re
import subprocess
import sys

CRATES = {"log": "log_writes"}
TOKEN = re.compile(r"[^\s(){}\[\],;:.«»`\"|←→λ]+")
SIGNATURE = re.compile(r"^(\s*)((?:(?:pub|unfoldable|abbrev|opaque|let|where) )*)([^\s(){}\[\],;.:]+)\s*:(?=\s|$)")
# the forms of a name that a lemma and a definition share: the lemma gets _lem
KEBAB_FIRST = {"all_read", "goes_on", "has_room", "from_back"}
# names that would hide a field or a parameter
ANOTHER = {"maxSpeed": "max_speed_of"}


def files(*ends):
    for top in ("crates", "tools/kept_wrong_programs", "docs", "README.md"):
        if os.path.isfile(top):
            if top.endswith(ends):
                yield top
            continue
        for folder, dirs, names in os.walk(top):
            dirs[:] = sorted(d for d in dirs if d != "out")
            for n in sorted(names):
                if n.endswith(ends):
                    yield os.path.join(folder, n)


def read(p):
    with open(p, encoding="utf-8") as f:
        return f.read()


def write(p, text):
    with open(p, "w", encoding="utf-8") as f:
        f.write(text)


def snake(n):
    return re.sub(r"([a-z0-9])([A-Z])", lambda m: m.group(1) + "_" + m.group(2).lower(), n).replace("-", "_")


def declared():
    found = collections.Counter()
    for p in files(".antt"):
        for line in read(p).splitlines():
            if line.lstrip().startswith("--") or line.startswith("use ") or ": tie.Need-" in line:
                continue
            m = SIGNATURE.match(line)
            if m:
                found[m.group(3)] += 1
    return found


def mapping(names):
    """old name -> new name, for those that change."""
    by = collections.defaultdict(set)
    for n in names:
        by[snake(n)].add(n)
    out = {}
    for new, olds in by.items():
        for old in olds:
            to = ANOTHER.get(old, new)
            if len(olds) > 1 and ("-" in old or old in KEBAB_FIRST):
                to = new + "_lem"
            if old != to and (old[0].islower() or old[0] in "0123456789"):
                out[old] = to
    return out


def foreign(text):
    """The names that a file brings in from a library."""
    names = set()
    for m in re.finditer(r"^(?:ghost )?use ([^\s;{]+?)(?:\.\{([^}]*)\}| as (\S+?))?;?$", text, re.M):
        path, listed, alias = m.groups()
        own = re.match(r"Rattle\.(\w+)\.", path + ".")
        if own and os.path.isdir(os.path.join("crates", own.group(1))):
            continue
        if listed:
            for part in listed.split(","):
                words = part.split(" as ")
                names.add(words[-1].strip())
                names.add(words[0].strip())
        else:
            names.add("@" + (alias or path.split(".")[-1]))
    return names


def respelled(text, new, skip):
    def one(m):
        word = m.group(0)
        if word not in new or word in skip:
            return word
        head = re.search(r"([^\s(){}\[\],;:«»`\"|]+)\.$", text[: m.start()])
        if head and "@" + head.group(1).split(".")[0] in skip:
            return word
        return new[word]

    return TOKEN.sub(one, text)


def by_line(text, new, skip):
    """Imports of libraries stay; every other line is respelled."""
    out = []
    for line in text.splitlines(keepends=True):
        m = re.match(r"^(?:ghost )?use ([^\s;{]+)", line)
        if m:
            own = re.match(r"Rattle\.(\w+)(\.|$)", m.group(1))
            if not (own and os.path.isdir(os.path.join("crates", own.group(1)))):
                out.append(line)
                continue
            out.append(respelled(line, new, set()))
            continue
        out.append(respelled(line, new, skip))
    return "".join(out)


def together(p, text, new, skip):
    """Names that fall together in a file."""
    seen = {}
    words = set(TOKEN.findall(text))
    for w in words:
        if w in new and w not in skip:
            if new[w] in words:
                print(f"look: {p}: {w} becomes {new[w]}, which the file has already")
            if new[w] in seen:
                print(f"look: {p}: {w} and {seen[new[w]]} become {new[w]}")
            seen[new[w]] = w


def rename_crates():
    for old, new in CRATES.items():
        if not os.path.isdir(f"crates/{old}"):
            continue
        subprocess.run(["git", "mv", f"crates/{old}", f"crates/{new}"], check=True)
        for p in list(files(".antt", ".rt", ".edit")):
            t = read(p)
            u = re.sub(rf"\bRattle\.{old}\.", f"Rattle.{new}.", t)
            u = re.sub(rf"(?<![\w:.]){old}::", f"{new}::", u)
            if u != t:
                write(p, u)
        t = read("crates.txt")
        u = re.sub(rf"(?m)^{old}:", f"{new}:", t)
        u = re.sub(rf"(?m)(?<= ){old}(?= |$)", new, u)
        write("crates.txt", u)
        if os.path.isdir(f"tools/kept_wrong_programs/{old}"):
            subprocess.run(["git", "mv", f"tools/kept_wrong_programs/{old}", f"tools/kept_wrong_programs/{new}"], check=True)


def clause_forms(text):
    """The clauses' older form in the edits: λ r. ⌜ .. ⌝, a field behind a blank, quoted names, paths with a middle dot."""
    text = re.sub(r"Rattle·(\w+)·(specs|proofs)\.\2\.", r"Rattle.\1.\2.", text)
    text = re.sub(r"Rattle·(\w+)\.", r"Rattle.\1.", text)
    text = re.sub(r"«(\w+)»", r"\1", text)
    text = re.sub(r"(?<=[\w)'·]) \.(?=[a-z«])", ".", text)
    text = text.replace("_≡_", "◌≡◌").replace("_×_", "◌×◌").replace("′", "'")
    text = re.sub(r"\{ λ r\. ⌜ (.*) ⌝ \}", lambda m: "{ " + re.sub(r"\br\b", "result", m.group(1)) + " }", text)
    return re.sub(r"\{ ⌜ (.*) ⌝ \}", r"{ \1 }", text)


def main():
    rename_crates()
    new = mapping(declared())
    for p in files(".antt", ".rt"):
        text = read(p)
        skip = foreign(text)
        if p.endswith(".antt"):
            together(p, text, new, skip)
            out = by_line(text, new, skip)
        else:
            only = {o: n for o, n in new.items() if re.search("[a-z0-9][A-Z]", o)}
            out = by_line(text, only, skip)
        if out != text:
            write(p, out)
    known = set(new.values()) | {n for n in declared()}
    for p in files(".edit"):
        text = read(p)
        out = clause_forms(text)

        def word(m):
            w = m.group(0)
            if re.search(r"[a-z0-9][A-Z]|-", w) and w[0].islower() and "_" not in w:
                return new.get(w, snake(w) if snake(w) in known else w)
            return w

        lines = []
        for line in out.splitlines(keepends=True):
            lines.append(TOKEN.sub(word, line) if re.match(r"(old|new): ", line) else line)
        out = "".join(lines)
        if out != text:
            write(p, out)
    for p in files(".md"):
        text = read(p)

        def word(m):
            w = m.group(0)
            return new.get(w, snake(w) if snake(w) in known else w)

        out = re.sub(r"(?<![\w-])(?=[a-z])\w*[a-z0-9][A-Z]\w*", word, text)
        if out != text and os.path.basename(p) != "PORT.md":
            write(p, out)
    print(f"spell_names: {len(new)} names respelled")


if __name__ == "__main__":
    sys.exit(main())
