#!/usr/bin/env python3
"""Brings the repository's own names, and the text of its must-fail edits, to today's spelling.

usage: python3 tools/port_names.py OLD

Run once, at the top, behind port.py, over a tree that nothing else has changed. OLD is a folder with the tree as it was before port.py: the edits are
brought over by holding its files beside those of today. Definitions and lemmas that had hyphens or inner capitals get snake case; types, modules and
constructors of enums get camel case. What the library names stays, and so do functions, strings, inputs and outputs. It prints the edits whose text it
could not bring over.
"""
import collections
import difflib
import os
import re
import sys

HYPHEN = re.compile(r"[A-Za-z_][A-Za-z0-9_'?]*(?:-[A-Za-z0-9_'?]+)+")
INNER = re.compile(r"(?<![A-Za-z0-9_'.-])[a-z][a-z0-9_'?-]*[A-Z][A-Za-z0-9_'?-]*")
NAME = re.compile(r"[A-Za-z_][A-Za-z0-9_'?]*(?:-[A-Za-z0-9_'?]+)*")

# What the rules below would get wrong: a word of std that port.py took for one, types whose name is no type's, and two definitions that fall together.
GIVEN = {"All-head": "all_head", "by_number": "ByNumber"}


def code(line):
    """The line without its comment."""
    found = re.search(r"(^|\s)--(\s|$)", line)
    return (line[: found.start()], line[found.start() :]) if found else (line, "")


def sources(root, *ends):
    for folder, folders, files in os.walk(os.path.join(root, "crates")):
        folders[:] = sorted(f for f in folders if f != "out")
        for file in sorted(files):
            if file.endswith(ends):
                yield os.path.join(folder, file)


def read(path):
    with open(path, encoding="utf-8") as f:
        return f.read()


def write(path, text):
    with open(path, "w", encoding="utf-8") as f:
        f.write(text)


def is_walk(path):
    return os.path.basename(path) == "Proof.antt"


def snake(name):
    if name in GIVEN:
        return GIVEN[name]
    if name[0].isupper():
        return "".join(part[:1].upper() + part[1:] for part in name.split("-"))
    name = name.replace("getElem", "get_elem").replace("getD", "get_or")
    name = re.sub(r"(?<=[a-z0-9])([A-Z])", lambda m: "_" + m.group(1).lower(), name)
    return name.replace("-", "_").replace("__", "_")


# Types whose name is no type's and that other things share: the file that declares each, its module, and its name now.
TYPES = {"below": ("crates/graph/specs/Leaves.antt", "Rattle.graph.specs.Leaves", "Below"), "examples": ("crates/spec/proofs/Bits.antt", None, "Examples")}


def turn_types(path, text):
    for name, (home, module, to) in TYPES.items():
        imports = module and re.search(re.escape(module) + r"\.\{[^}]*(?<![\w'-])" + name + r"(?![\w'-])", text)
        if path.endswith(home) or imports:
            word = r"(?<![\w'.-])" + name + r"(?![\w'-])"
            text = "\n".join(re.sub(word, to, code(line)[0]) + code(line)[1] for line in text.split("\n"))
    return text


def names(root):
    """The repository's own names that change: those of definitions and lemmas that are not imported from a library."""
    library, own = set(), set()
    for path in sources(root, ".antt"):
        modules = set()
        for line in read(path).split("\n"):
            text = code(line)[0]
            use = re.match(r"\s*(?:pub )?use ([^.\s]+)\.(.*)$", text)
            if use and "{" not in text and (use.group(1) != "Rattle" or use.group(2).startswith("std.")):
                modules.add(re.split(r"[. ]", text.strip())[-1])
            for module in modules:
                for found in re.findall(re.escape(module) + r"\.([\w'?-]+)", text):
                    library.add(found)
            found = set(HYPHEN.findall(text)) | set(INNER.findall(text))
            if use and (use.group(1) != "Rattle" or use.group(2).startswith("std.")):
                library |= found
            elif not is_walk(path):
                own |= found
    return {n: snake(n) for n in own - library if n not in ("uint_Makes", "uint_Lawful")} | GIVEN


def respell(text, table):
    return NAME.sub(lambda m: table.get(m.group(0), m.group(0)), text)


def in_ticks(text, table):
    return re.sub(r"`[^`]*`", lambda m: respell(m.group(0), table), text)


def turn_antt(text, table):
    lines = []
    for line in text.split("\n"):
        before, comment = code(line)
        lines.append(respell(before, table) + in_ticks(comment, table))
    return "\n".join(lines)


def turn_rt(text, table):
    lines = []
    for line in text.split("\n"):
        found = re.search(r"(^|\s)//", line)
        before, comment = (line[: found.start()], line[found.start() :]) if found else (line, "")
        lines.append(respell(before, table) + in_ticks(comment, table))
    return "\n".join(lines)


def shape(line):
    """What a line keeps through the change of spelling."""
    return re.sub(r"[^a-z0-9]", "", line.lower().replace("getd", "getor").replace("now", "").replace("entry", "").replace("result", ""))


def beside(old, new):
    """For each line of old the line of new that it became."""
    a, b = [shape(l) for l in old], [shape(l) for l in new]
    found = {}
    for i, j, n in difflib.SequenceMatcher(None, a, b, autojunk=False).get_matching_blocks():
        for k in range(n):
            found.setdefault(old[i + k].strip(), new[j + k].strip())
    return found


def words(old, new, table):
    """Which words the words of old became, as far as one word became another everywhere."""
    became = collections.defaultdict(collections.Counter)
    word = re.compile(r"[^\s(),\[\]{};]+")
    for a, b in zip(old, new):
        x, y = word.findall(a), word.findall(b)
        if len(x) == len(y):
            for p, q in zip(x, y):
                became[p][q] += 1
    return {p: c.most_common(1)[0][0] for p, c in became.items() if len(c) == 1 or c.most_common(1)[0][1] > 0.9 * sum(c.values())}


def turn_edit(path, old_root, root, table, learned):
    crate = os.path.relpath(path, os.path.join(root, "crates")).split(os.sep)[0]
    lines, file, failed = [], None, []
    for line in read(path).split("\n"):
        if line.startswith("file: "):
            file = line[6:].strip()
            line = "file: " + re.sub(r"\+[a-z_+]+", lambda m: "+" + m.group(0)[1:].replace("+", "_"), file)
        elif line.startswith(("old: ", "new: ")) and file:
            key, text = line[:5], line[5:]
            before = read(os.path.join(old_root, "crates", crate, file)).split("\n") if os.path.exists(os.path.join(old_root, "crates", crate, file)) else []
            after_path = os.path.join(root, "crates", crate, file)
            after = read(after_path).split("\n") if os.path.exists(after_path) else []
            same = beside(before, after)
            stands = "\n".join(after)
            indent = text[: len(text) - len(text.lstrip())]
            if stands.count(text) == 1 and key == "old: ":
                turned = text
            elif text.strip() in same:
                turned = indent + same[text.strip()]
            else:
                turned = by_words(text, table, learned)
            if key == "old: " and stands.count(turned) != 1:
                failed.append(f"{file}: {text}")
            line = key + turned
        lines.append(line)
    write(path, "\n".join(lines))
    return failed


def by_words(text, table, learned):
    text = re.sub(r"\((\w[\w'.]*) \.([\w-]+)\)", r"\1.\2", text)
    text = re.sub(r"(?<=[\w)']) \.([\w-]+)", r".\1", text)
    text = re.sub(r"Rattle\u00b7(\w+)(?:\u00b7specs)?\.", r"Rattle.\1.", text).replace("specs.specs.", "specs.")
    text = text.replace("\u2032", "'")
    parts = re.split(r"([\s(),\[\]{};]+)", text)
    return "".join(respell(learned.get(p, p), table) for p in parts)


def main():
    old_root, root = sys.argv[1], "."
    table = names(root)
    taken = collections.defaultdict(set)
    for name, to in table.items():
        taken[to].add(name)
    for to, froms in sorted(taken.items()):
        if len(froms) > 1:
            print("fall together:", to, sorted(froms))
    for path in sources(root, ".antt", ".rt"):
        text = read(path)
        turned = turn_types(path, turn_antt(text, table) if path.endswith(".antt") else turn_rt(text, table))
        if turned != text:
            write(path, turned)
    learned = {}
    for path in sources(root, ".antt", ".rt"):
        if is_walk(path):
            continue
        before = os.path.join(old_root, os.path.relpath(path, root))
        if os.path.exists(before):
            same = beside(read(before).split("\n"), read(path).split("\n"))
            learned |= words(list(same), list(same.values()), table)
    left = 0
    for path in sources(root, ".edit"):
        for text in turn_edit(path, old_root, root, table, learned):
            left += 1
            print("left:", os.path.relpath(path, root), text)
    print(f"{len(table)} names, {left} texts of edits left by hand")


main()
