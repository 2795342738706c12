#!/usr/bin/env python3
"""Spells the repository's own definitions and lemmas in snake case, once, after the move to a newer Rattle.

usage: tools/spell.py [--check]

It reads which names the files of specs/ and proofs/ declare, but for the proofs of functions, whose names Rattle makes. A name with a dash or with a
capital behind a small letter gets underscores; names of types and modules, which begin with a capital, keep their form, but for a dash. Where the new
spelling is taken by another declared name, the lemma, which is the one with a dash, gets `_lem` behind it. Then each .antt and .rt file and the
`old:` and `new:` lines of each must-fail edit are written anew, word by word; strings and prose in comments stay as they are.
"""
import collections
import os
import re
import subprocess
import sys

WORD = r"[^\s(){}.;,@\"«»`\[\]]+"
DECLARED = re.compile(
    r"^ *(?:(?:pub|abbrev|unfoldable|data|record) +)*([^\s(){}.;,@\"«»:]+)(?: +(?:\{[^{}]*\}|\([^()]*\)))* +:(?: |$)"
)
OWN_USE = re.compile(r"Rattle\.(\w+)")
FUNCTION_FILES = ("Proof.antt", "Answers.antt", "Invariants.antt")


def paths(endings):
    for folder, folders, files in os.walk("crates"):
        folders[:] = sorted(f for f in folders if f != "out")
        for name in sorted(files):
            if name.endswith(endings):
                yield os.path.join(folder, name)


def text_of(path):
    with open(path, encoding="utf-8") as file:
        return file.read()


def snake(name):
    name = name.replace("-", "_")
    return re.sub(r"(?<=[a-z0-9])[A-Z]", lambda m: "_" + m[0].lower(), name) if not name[0].isupper() else name


def uses(text):
    """The items of each `use`, with the module that they come from."""
    for m in re.finditer(r"\buse ([\w.·]+)\.\{([^}]*)\}", text):
        for item in re.split(r",\s*", m[2].strip().rstrip(",")):
            yield m[1], item.split(" as ")[0].strip()


def split_comment(line, mark):
    """Code, the comment's mark and its text."""
    at = 0
    while True:
        at = line.find(mark, at)
        if at < 0:
            return line, "", ""
        before = line[:at]
        if before.count('"') % 2 == 0 and (at == 0 or line[at - 1] in " (" or mark == "//"):
            return before, mark, line[at + len(mark) :]
        at += len(mark)


def main():
    own = {line.split(":")[0].split()[0] for line in open("crates.txt", encoding="utf-8") if line.strip() and not line.startswith("#")}
    declared = collections.defaultdict(set)
    for path in paths(".antt"):
        if os.path.basename(path) in FUNCTION_FILES:
            continue
        for line in text_of(path).splitlines():
            m = DECLARED.match(line)
            if m and "◌" not in m[1] and m[1] != "_":
                declared[m[1]].add(path)
    generated = set()
    for path in paths(FUNCTION_FILES):
        for line in text_of(path).splitlines():
            m = re.match(r"^(?:pub )?(\S+) : (?:tie|goal)\.", line)
            if m:
                generated.add(m[1])
    foreign = set()
    for path in paths((".antt", ".rt")):
        for module, item in uses(text_of(path)):
            m = OWN_USE.match(module)
            if not (m and m[1] in own) and not module.startswith("crate"):
                foreign.add(item)
    table = {}
    stays = []
    for name in sorted(declared):
        new = snake(name)
        if new == name:
            continue
        if name in foreign or name in generated:
            stays.append(name)
            continue
        table[name] = new
    taken = collections.defaultdict(set)
    for name in declared:
        taken[table.get(name, name)].add(name)
    for new, olds in sorted(taken.items()):
        if len(olds) > 1 or new in foreign:
            for old in sorted(olds):
                if "-" in old and old in table:
                    others = [o for o in olds if o != old]
                    if others or new in foreign:
                        table[old] = new + "_lem"
                        print(f"falls together: {old} with {', '.join(others) or 'a name of the library'}: {table[old]}")
    if stays:
        print("stay as they are:", ", ".join(stays))
    functions = set()
    for path in paths(".rt"):
        functions.update(re.findall(r"\bfn (\w+)", text_of(path)))
    labels = {f.replace("_", "-"): f for f in functions if "_" in f}

    def turn(path, text, contracts=True):
        """The text with each word of the table turned, outside strings and the prose of comments."""
        comment = "--" if path.endswith(".antt") else "//"
        is_function = os.path.basename(path) in FUNCTION_FILES
        out = []
        for line in text.split("\n"):
            code, mark, rest = split_comment(line, comment)
            out.append(words(code, is_function) + mark + prose(rest))
        return "\n".join(out)

    def words(code, is_function):
        parts = re.split(r'("(?:[^"\\]|\\.)*")', code)
        for i in range(0, len(parts), 2):
            parts[i] = re.sub(WORD, lambda m: one(m, parts[i], is_function), parts[i])
        return "".join(parts)

    def one(m, code, is_function):
        word = m[0]
        behind = code[m.start() - 1 : m.start()] == "."
        if is_function and behind:
            if word in labels:
                return labels[word]
            if word.endswith("_lem") and word[:-4] in functions:
                return word[:-4]
        return table.get(word, word)

    def prose(rest):
        rest = re.sub(r"`[^`]*`", lambda m: words(m[0], False), rest)
        return re.sub(WORD, lambda m: table[m[0]] if m[0] in table and re.search("[a-z][A-Z]", m[0]) else m[0], rest)

    only_look = "--check" in sys.argv
    changed = 0
    for path in paths((".antt", ".rt")):
        old = text_of(path)
        new = turn(path, old)
        tokens = set(re.findall(WORD, "\n".join(split_comment(l, "--" if path.endswith(".antt") else "//")[0] for l in old.split("\n"))))
        for word in sorted(tokens):
            if word in table and table[word] in tokens:
                print(f"look: {path}: {word} becomes {table[word]}, which stands there already")
        if new != old:
            changed += 1
            if not only_look:
                with open(path, "w", encoding="utf-8") as file:
                    file.write(new)
    for path in paths(".edit"):
        out, file = [], ""
        for line in text_of(path).split("\n"):
            m = re.match(r"(file|old|new): ?(.*)$", line)
            if m and m[1] == "file":
                file = m[2].strip()
            elif m:
                line = m[1] + ": " + turn(file, m[2])
                line = line.rstrip() if not m[2] else line
            elif line.startswith("#"):
                line = "#" + prose(line[1:])
            out.append(line)
        new = "\n".join(out)
        if new != text_of(path):
            changed += 1
            if not only_look:
                with open(path, "w", encoding="utf-8") as handle:
                    handle.write(new)
    print(f"{len(table)} names, {changed} files")


if __name__ == "__main__":
    main()
