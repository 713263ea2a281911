#!/usr/bin/env python3
"""Brings the repository's own definitions and lemmas to one spelling: words in snake case, ' for a prime.

usage: python3 tools/spell.py [--say]    at the top of the repository; --say only prints the names and what falls together

It ran once, right after the scripts that turned the older language's spelling. It reads the names that specs/ and proofs/ define
(definitions, lemmas, constructors, fields), and renames them in specs/, proofs/, in the ghost parts of src/ and in must-fail/.
Names that the prover makes (goals, `..-spec`), functions of src/, strings and plain words of comments stay.
"""

import collections
import os
import re
import sys

DEF = re.compile(r"^( *)(?:(?:pub|abbrev|unfoldable|private|ghost)\s+)*(?:(record|data)\s+)?([A-Za-z_][\w'′-]*)(?: \([^)]*\)| \{[^}]*\})*\s+:(?: |$)(.*)$")
TOKEN = re.compile(r"(?<![\w'′◌·.-])([A-Za-z_][\w'′-]*)|(?<=\.)([A-Za-z_][\w'′-]*)")
BACKTICKS = re.compile(r"`[^`]*`")

# Lemmas that already have the plain spelling of a definition which their file cites.
TAKEN = {
    "crates/protocol/proofs/Alone/Doing.antt": {"all_held": "all_held_lem"},
    "crates/protocol/proofs/Together/Judged.antt": {"all_held": "all_held_lem"},
    "crates/exif/proofs/Texts.antt": {"by_form": "by_form_lem"},
}


def snake(name):
    name = name.replace("′", "'").replace("-", "_")
    name = re.sub(r"([a-z0-9'])([A-Z])", lambda m: m.group(1) + "_" + m.group(2).lower(), name)
    return name


def files(root, kinds):
    for folder, dirs, names in os.walk(os.path.join(root, "crates")):
        dirs[:] = sorted(d for d in dirs if d != "out")
        for n in sorted(names):
            if n.endswith(kinds):
                yield os.path.join(folder, n)


def read(path):
    with open(path, encoding="utf-8") as f:
        return f.read()


def names(root):
    found = collections.defaultdict(set)
    for path in files(root, (".antt",)):
        of_function = os.path.basename(path) in ("Proof.antt", "Answers.antt", "Invariants.antt")
        for line in read(path).splitlines():
            m = DEF.match(line)
            if not m:
                continue
            depth, kind, name, rest = m.groups()
            if kind or not (name[0].islower() or "′" in name or "-" in name):
                continue
            if of_function and (name.endswith("-spec") or "tie." in rest or "need" in rest.lower() and ".Need" in rest or "oal" in rest and ".Goal" in rest):
                continue
            if snake(name) != name:
                found[name].add(path)
    return found


def turned(name, table):
    return table.get(name, name)


def put(text, table):
    return TOKEN.sub(lambda m: turned(m.group(0), table), text)


def antt(text, table):
    out = []
    for line in text.split("\n"):
        code, dash, comment = line.partition("--")
        if line.lstrip().startswith("--"):
            code, dash, comment = "", "--", line[line.index("--") + 2:]
            out.append(line[: line.index("--")] + dash + said(comment, table))
            continue
        at = re.search(r"(^|\s)--(\s|$)", line)
        if at:
            out.append(put(line[: at.start()], table) + line[at.start(): at.end()] + said(line[at.end():], table))
        else:
            out.append(put(line, table))
    return "\n".join(out)


def said(comment, table):
    return BACKTICKS.sub(lambda m: put(m.group(0), table), comment)


def camel(table):
    return {k: v for k, v in table.items() if "-" not in k}


def rt(text, table):
    out, ghost = [], False
    for line in text.split("\n"):
        bare = line.strip()
        if bare.startswith("//"):
            out.append(said(line, table))
        elif re.match(r"(pub )?(ghost|requires|ensures|invariant)\b", bare) or ghost:
            out.append(put(line, table))
            ghost = line.count("{") > line.count("}") if not ghost else line.count("{") >= line.count("}")
        else:
            out.append(put(line, camel(table)))
    return "\n".join(out)


def edit(text, table):
    out, kind = [], ""
    for line in text.split("\n"):
        if line.startswith("file:"):
            kind = line.strip().rsplit(".", 1)[-1]
            out.append(line)
        elif line.startswith(("old:", "new:")):
            out.append(put(line, table if kind == "antt" or re.match(r"(old|new):\s*(pub )?(ghost|requires|ensures)\b", line) else camel(table)))
        elif line.startswith(("refused:", "build:")):
            out.append(line)
        else:
            out.append(said(line, table))
    return "\n".join(out)


def together(table, root):
    """New spellings that are a name already, or that two old names share: (new, old names, files where both stand)."""
    back = collections.defaultdict(list)
    for old, new in table.items():
        back[new].append(old)
    tokens = {p: set(m.group(0) for m in TOKEN.finditer(read(p))) for p in files(root, (".antt",))}
    for new, olds in sorted(back.items()):
        clash = [p for p, t in tokens.items() if sum(n in t for n in olds + [new]) > 1]
        if clash:
            yield new, olds, clash


def plan(found, root):
    """Old to new. A lemma whose plain spelling is another name's, there or where it is cited, gets `_lem`."""
    table = {n: snake(n) for n in found}
    others = collections.Counter(table.values())
    tokens = [set(m.group(0) for m in TOKEN.finditer(read(p))) for p in files(root, (".antt",))]
    for n in table:
        if "-" in n and (others[table[n]] > 1 or any(n in t and table[n] in t for t in tokens)):
            table[n] += "_lem"
    return table


def main():
    root = os.getcwd()
    found = names(root)
    table = plan(found, root)
    if "--say" in sys.argv[1:]:
        for new, olds, paths in together(table, root):
            print(new, olds, *(os.path.relpath(p, root) for p in paths))
        print(len(table), "names")
        return
    for path in files(root, (".antt", ".rt", ".edit")):
        text = read(path)
        before = put(text, TAKEN.get(os.path.relpath(path, root), {}))
        made = edit(before, table) if path.endswith(".edit") else rt(before, table) if path.endswith(".rt") else antt(before, table)
        if made != text:
            with open(path, "w", encoding="utf-8") as f:
                f.write(made)


if __name__ == "__main__":
    main()
