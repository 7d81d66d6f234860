#!/usr/bin/env python3
"""Brings the names of this repository's definitions and lemmas to snake case, once, after the kit's port.py has run.

usage: tools/port/spell.py [--list]      at the top of the repository; --list prints the names and changes nothing

A word in camel case (`bigFrom`) or with dashes between plain words (`each-bad`) becomes snake case (`big_from`, `each_bad`); a dash
beside a type's name stays, and a prime is an apostrophe. Names of functions, fields and variants of src/, types, modules, strings and
what Rattle makes keep their spelling, and so do the library's names. Where two names of one crate would fall together, the one that
stands in proofs/ gets `_lem`.
"""
import collections
import os
import re
import subprocess
import sys

WORD = r"[^\s(){}\[\],;.|:◌`\"]+"
LEMMA = "_lem"


def texts(folder, ending):
    for place, folders, files in os.walk(folder):
        folders[:] = sorted(f for f in folders if f not in ("out", "target"))
        for name in sorted(files):
            if name.endswith(ending):
                yield os.path.join(place, name)


def read(path):
    with open(path, encoding="utf-8") as f:
        return f.read()


def library():
    """The words of the kit's library, which lies beside the page that `rt doc` names."""
    found = set()
    page = subprocess.run(["rt", "doc"], check=True, capture_output=True, text=True).stdout.strip()
    for path in texts(os.path.join(os.path.dirname(page), "rattle"), ".antt"):
        if "/examples/" not in path:
            found.update(re.findall(WORD, read(path)))
    return found


def declared(path):
    """The names that a file gives, and whether each stands at the left edge."""
    for line in read(path).split("\n"):
        m = re.match(rf"((?:abbrev |unfoldable |pub )*)(?:record |data |ruleset )?({WORD}) ?(?:[({{].*)?:", line)
        if m and not re.match(r"(use|mod|unfolding|--)", line):
            yield m.group(2), True
        m = re.match(rf"\s+(?:pub )?({WORD}) : ", line)
        if m:
            yield m.group(1), False


def snake(part):
    if re.match(r"[A-Z]", part):
        return part
    return re.sub(r"(?<=[a-z0-9])[A-Z]|(?<=[A-Z])[A-Z](?=[a-z])", lambda m: "_" + m.group(0).lower(), part).replace("′", "'")


def spelled(name):
    parts = name.split("-")
    made = snake(parts[0])
    for before, part in zip(parts, parts[1:]):
        typed = re.match(r"[A-Z]", before) or re.match(r"[A-Z]", part)
        made += ("-" if typed else "_") + snake(part)
    return made


def turns(name):
    return not re.match(r"[A-Z]|0x|κ", name) and bool(re.search(r"[a-z0-9][A-Z]|[a-z0-9]-[a-zA-Z0-9]|′", name))


def is_proof(path):
    return path.endswith("/Proof.antt")


def renamed():
    """For each name its new one."""
    kit = library()
    where = collections.defaultdict(set)
    tops = collections.defaultdict(set)
    files = collections.defaultdict(set)
    for path in texts("crates", ".antt"):
        if is_proof(path):
            continue
        for name, top in declared(path):
            where[name].add(path)
            if top:
                tops[name].add(path)
        for line in read(path).split("\n"):
            for word in re.findall(WORD, re.sub(r"(^|\s)--(\s.*|$)", "", line)):
                files[word].add(path)
    # words that no declaration gives: local names in camel case or with dashes
    for word in list(files):
        if word not in where and turns(word) and word not in kit and re.fullmatch(r"[\w'′-]+", word) and word[0].isalpha():
            where[word] = set()
    names = {n: spelled(n) for n in where if turns(n) and (n not in kit or where[n])}
    taken = collections.defaultdict(set)
    for name in where:
        taken[names.get(name, name)].add(name)
    for new, olds in taken.items():
        if len(olds) < 2:
            continue
        meet = [n for n in olds if any(files[n] & files[o] for o in olds if o != n)]
        if not meet:
            continue
        ranks = {n: (not any("/specs/" in p for p in tops[n]), not any("/specs/" in p for p in where[n]), not tops[n], n != new, n) for n in meet}
        for name in sorted(meet, key=ranks.get)[1:]:
            names[name] = new + LEMMA
    return {n: m for n, m in names.items() if n != m}, {n for n in names if n in kit}, where


def own_of(text):
    """The names that a file gives or takes from this repository's crates."""
    found = set()
    for m in re.finditer(r"use (Rattle\.[\w.+]*?)\.\{([^}]*)\}", text):
        if not m.group(1).startswith("Rattle.std."):
            found.update(w.strip().split(" as ")[0] for w in m.group(2).split(","))
    return found


def turn(text, names, careful, own, given):
    def one(m):
        word = m.group(0)
        if word in careful and word not in own:
            return word
        return names.get(word, word)

    def code(part):
        return re.sub(WORD, one, part)

    lines = []
    for line in text.split("\n"):
        m = re.search(r"(^|\s)--(\s|$)", line)
        at = m.end(1) if m else len(line)
        lines.append(code(line[:at]) + remark(line[at:], names, given))
    return "\n".join(lines)


def remark(text, names, given):
    """A comment or a page: names stand in quotes."""
    def one(m):
        word = m.group(0)
        if word in names:
            return names[word]
        return spelled(word) if turns(word) and spelled(word) in given else word

    return re.sub(r"`[^`\n]*`", lambda m: re.sub(WORD, one, m.group(0)), text)


def turn_source(text, names, given):
    """A source file or an edit: names in its remarks, and in clauses, which alone have words in camel case."""
    def word(m):
        return remark("`" + m.group(0) + "`", names, given)[1:-1]

    lines = []
    for line in text.split("\n"):
        line = remark(line, names, given)
        if not line.strip().startswith("//") and not re.match(r"[A-Z]", line):
            parts = re.split(r'("(?:[^"\\]|\\.)*")', line)
            line = "".join(p if i % 2 else re.sub(r"(?<![\w-])[a-z]\w*[A-Z]\w*(?![\w-])", word, p) for i, p in enumerate(parts))
        lines.append(line)
    return "\n".join(lines)


def write(path, text):
    if text != read(path):
        with open(path, "w", encoding="utf-8") as f:
            f.write(text)


def main(words):
    names, careful, where = renamed()
    if "--list" in words:
        for name in sorted(names):
            print(name, names[name], "library" if name in careful else "")
        return
    given = {names.get(n, n) for n in where if where[n]}
    plain = {n: m for n, m in names.items() if n not in careful}
    for path in list(texts("crates", ".antt")):
        text = read(path)
        write(path, turn(text, names, careful, own_of(text) | {n for n, _ in declared(path)}, given))
    for path in list(texts("crates", ".rt")) + list(texts("crates", ".edit")):
        write(path, turn_source(read(path), plain, given))
    for path in [p for p in texts("docs", ".md") if not p.startswith("docs/changes/")] + ["README.md"]:
        write(path, remark(read(path), plain, given))


if __name__ == "__main__":
    main(sys.argv[1:])
