#!/usr/bin/env python3
"""Brings the repository's own definitions and lemmas to today's spelling, once, behind the kit's port.py.

usage: python3 tools/respell.py          at the top of the repository; rewrites files in place
       python3 tools/respell.py --names  prints each old name and its new one, and rewrites nothing

A name that begins in lower case and that a file of specs/ or proofs/ declares goes to snake case: `followRefusal` becomes
`follow_refusal`. A dash becomes `_`. A lemma that would have a definition's name gets `_lem`. Types, modules, functions of
src/, fields of src/, names of C, strings, inputs and outputs keep theirs. In comments and pages only what stands in
backquotes is turned. In an edit of must-fail/ the lines `old:` and `new:` are turned, and `r .field` becomes `r.field`.
A proof that walks its function by hand (Proof.antt) keeps the names of its goals.
"""

import collections
import os
import re
import sys

TOKEN = re.compile(r"[^\s(){};,.«»`\"]+")
NAME = re.compile(r"[\w'-]+")
DECLARED = re.compile(r"^\s*((?:abbrev |unfoldable |pub )*)([^\s:(){}]+) :(?!:) ?(.*)")
# what port.py had respelled already, in the code and not in the edits
BEFORE = {"allBelow": "all_below", "storeOf": "store_of", "heldOf": "held_of", "numberOf": "number_of", "upTo": "up_to", "firstOf": "first_of", "getD": "get_or"}

QUOTED = {}


def files(*endings):
    for folder, dirs, names in os.walk("."):
        dirs[:] = sorted(d for d in dirs if d not in (".git", "out", "target") and not os.path.islink(os.path.join(folder, d)))
        for name in sorted(names):
            path = os.path.join(folder, name)
            if name.endswith(endings) and not os.path.islink(path):
                yield path


def read(path):
    with open(path, encoding="utf-8") as f:
        return f.read()


def snake(name):
    return re.sub(r"(?<=[a-z0-9])([A-Z])", lambda m: "_" + m.group(1).lower(), name)


def declared():
    """The names that specs/ and proofs/ declare, without the goals of proofs by hand; and those of lemma files alone."""
    every, specs, proved = set(), set(), set()
    for path in files(".antt"):
        by_hand = os.path.basename(path) == "Proof.antt"
        for line in read(path).splitlines():
            m = DECLARED.match(line)
            if not m or not m.group(2)[0].islower():
                continue
            if by_hand and (m.group(3).startswith("tie.") or m.group(2).endswith("-spec")):
                continue
            every.add(m.group(2))
            if "/specs/" in path:
                specs.add(m.group(2))
            elif not by_hand:
                proved.add(m.group(2))
    return every, proved - specs


def spelling():
    every, proved = declared()
    plain = {snake(n) for n in every if "-" not in n}
    camel = {snake(n) for n in every if snake(n) != n}
    turned = {}
    for name in every:
        new = snake(name).replace("-", "_")
        # a lemma that would have the name of a definition
        if ("-" in name and new in plain) or (name in proved and name in camel):
            new += "_lem"
        if new != name:
            turned[name] = new
    return turned


def turn_code(text, turned, token=TOKEN):
    return token.sub(lambda m: turned.get(m.group(0), m.group(0)), text)


def turn_quoted(text, turned):
    return re.sub(r"`[^`]*`", lambda m: turn_code(turn_code(m.group(0), turned, NAME), quoted(turned), NAME), text)


def quoted(turned):
    """Names that port.py had respelled in code, and not in comments and pages."""
    if not QUOTED:
        QUOTED.update(BEFORE)
        QUOTED.update({n.replace("_", "-"): turned.get(n, n) for n in declared()[0] if "_" in n and n.replace("_", "-") not in turned})
    return QUOTED


def turn_file(path, text, turned):
    if path.endswith(".md"):
        return turn_quoted(text, turned)
    if path.endswith(".edit"):
        lines = []
        for line in text.split("\n"):
            if line.startswith(("old:", "new:")):
                line = re.sub(r"\((\w+) \.(\w+)\)", r"\1.\2", line)
                line = re.sub(r"(?<=[\w)']) \.(?=[a-z0-9])", ".", line)
                line = turn_code(turn_code(line, BEFORE), turned)
            lines.append(line)
        return "\n".join(lines)
    mark = "//" if path.endswith(".rt") else "--"
    lines = []
    for line in text.split("\n"):
        code, comment = line, ""
        m = re.search(r"(^|\s)" + mark, line)
        if m:
            code, comment = line[: m.start()], line[m.start() :]
        if path.endswith(".rt") and not re.search(r"ghost use|requires|ensures|^\s*//|[{}].*≡|Rattle\.", code):
            lines.append(code + turn_quoted(comment, turned))
            continue
        lines.append(turn_code(code, turned) + turn_quoted(comment, turned))
    return "\n".join(lines)


def fall_together(turned):
    """Files in which two names become one."""
    for path in files(".antt", ".rt"):
        now = collections.defaultdict(set)
        for line in read(path).split("\n"):
            for token in TOKEN.findall(re.split(r"(?:^|\s)(?:--|//)", line)[0]):
                now[turned.get(token, token)].add(token)
        for new, old in sorted(now.items()):
            if len(old) > 1:
                yield path, new, old


def main(argv):
    turned = spelling()
    if argv == ["--names"]:
        for old in sorted(turned):
            print(old, turned[old])
        return 0
    for path, new, old in fall_together(turned):
        print(f"falls together: {path}: {new} of {', '.join(sorted(old))}")
    quoted(turned)
    for path in files(".antt", ".rt", ".edit", ".md"):
        text = read(path)
        new = turn_file(path, text, turned)
        if new != text:
            with open(path, "w", encoding="utf-8") as f:
                f.write(new)
    print(f"{len(turned)} names")
    return 0


if __name__ == "__main__":
    raise SystemExit(main(sys.argv[1:]))
