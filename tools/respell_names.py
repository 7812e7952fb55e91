#!/usr/bin/env python3
"""Brings this repository's own definitions, lemmas and fields to the spelling of today's Rattle: words in snake case, where a
dash joins two names and a plain word is added with an underscore; types and modules stay in upper camel case.

usage: python3 tools/respell_names.py [--dry]      once, at the top of the repository, right after the toolchain's own script

It rewrites crates/**/*.antt, the clauses, ghost imports and comments of crates/**/*.rt, and crates/**/must-fail/*.edit.
Functions, strings, inputs and outputs keep their names. It stops where two names would fall together.
"""

import os
import re
import sys
from collections import defaultdict

# words of the library that lemmas are about, beside the definitions of specs/
LIBRARY = set("add sub mul div mod pow suc zero length append take drop set get_or cond map le lt eq".split())
NAME = re.compile(r"[^\s(){}\[\].;,:\"@⌜⌝`]+")
DEFINED = re.compile(r"^(?:abbrev |unfoldable )?(?:pub )?(?:abbrev )?(data |record |ruleset )?([^\s:(){}.]+)\s*(?:\(.*\)|\{.*\})*\s*:(?:\s|$)")
LOCAL = re.compile(r"^\s+(?:abbrev |unfoldable )?(?:pub )?(?:abbrev )?([^\s:(){}.]+)\s*(?:\(.*\)|\{.*\})*\s*:(?:\s|$)")
FIELD = re.compile(r"^\s+pub ([^\s:(){}.]+) :\s")
DOTTED = re.compile(r"^\s+pub ([^\s:(){}.]+) :(?:\s|$)")
WORDS = re.compile(r"^(?:[A-Za-z][A-Za-z0-9_]*)(?:-[A-Za-z0-9_]+)*'?$")
CAMEL = re.compile(r"^[a-z][a-z0-9_]*[A-Z]")


def files(*ends):
    for folder, dirs, names in os.walk("crates"):
        dirs[:] = sorted(d for d in dirs if d != "out")
        for name in sorted(names):
            if name.endswith(ends):
                yield os.path.join(folder, name)


def snake(part):
    return re.sub(r"(?<=[a-z0-9])([A-Z])", lambda m: "_" + m.group(1).lower(), part) if CAMEL.match(part) else part


def is_goal(text, line):
    """Whether a line of a proof file of a function states a goal or an invariant that the prover asks for."""
    return re.search(r":\s*(?:tie|goal|given|goals|ties)\.", line) is not None


def collect():
    """The names defined at the top of files, those of specs/ among them, local ones and fields."""
    top, specs, fields, dotted = set(), set(LIBRARY), set(), set()
    for path in files(".antt"):
        with open(path, encoding="utf-8") as f:
            lines = f.read().split("\n")
        for line in lines:
            m = DEFINED.match(line)
            if m and not is_goal(path, line):
                top.add(m.group(2))
                if "/specs/" in path and not m.group(1) and "-" not in m.group(2):
                    specs.add(snake(m.group(2)))
            m = LOCAL.match(line)
            if m and not line.lstrip().startswith("--") and not is_goal(path, line):
                top.add(m.group(1))
            m = FIELD.match(line)
            if m:
                fields.add(m.group(1))
            m = DOTTED.match(line)
            if m:
                dotted.add(m.group(1))
    return top, specs, fields, dotted


def respelled(name, specs, is_field):
    if not WORDS.match(name) or name[0].isupper() and "-" not in name:
        return name
    parts = [snake(p) for p in name.split("-")]
    if parts[-1] == "spec":
        return "_".join(parts)
    out = parts[0]
    for i, part in enumerate(parts[1:], 1):
        left = out.split("-")[-1]
        joined = not is_field and (left in specs or left[0].isupper()) and (part in specs or part[0].isupper())
        out += ("-" if joined else "_") + part
    return out


def main(dry):
    top, specs, fields, dotted = collect()
    names, after_dot = {}, {}
    for name in sorted(top | fields):
        new = respelled(name, specs, name in fields)
        if new != name:
            names[name] = new
            if name in dotted:
                after_dot[name] = new
    texts = {}
    for path in files(".antt", ".rt", ".edit"):
        with open(path, encoding="utf-8") as f:
            texts[path] = f.read()
    # a lemma of one file gives way to a definition that it stands beside
    path = "crates/decktext/proofs/Walking.antt"
    texts[path] = re.sub(r"\bend_read\b", "read_there", texts[path])
    # a lemma that would have its function's name gets _lem
    back = defaultdict(set)
    for old in sorted(names):
        if old in ("endRead", "oneLess"):
            continue
        if names[old] in top and names[old] not in names:
            if old in fields:
                continue
            print(f"look: {old} -> {names[old]} is there already: {names[old]}_lem")
            names[old] += "_lem"
    # lemmas of a module that read as fields here
    for old in {"registers-after", "stops-alike"} & set(names):
        names[old] += "_lem"
        fields.discard(old)
        after_dot.pop(old, None)
    for old, new in names.items():
        back[new].add(old)
    for new, olds in sorted(back.items()):
        if len(olds) > 1:
            print(f"look: {', '.join(sorted(olds))} -> {new}")
            if any(o not in fields for o in olds):
                for i, old in enumerate(sorted(olds, key=lambda o: ("-" in o, o))):
                    if i and old not in fields:
                        names[old] = new + "_lem"
    if dry:
        for old in sorted(names):
            print(old, names[old])
        return

    def turn(text, comment=False):
        def one(m):
            word, before = m.group(0), text[: m.start()]
            if before.endswith("."):
                qualifier = re.search(r"([^\s(){}\[\].;,]+)\.$", before)
                if word in after_dot and not (qualifier and qualifier.group(1)[0].isupper()):
                    return after_dot[word]
                if not (qualifier and qualifier.group(1)[:1].isupper()) and "-" in word:
                    return word
            if comment and "-" in word:
                return word
            return names.get(word, word)

        return NAME.sub(one, text)

    def antt_line(line):
        m = re.match(r"^(.*?)(\s*-- .*)$", line) if "-- " in line else None
        if line.lstrip().startswith("--"):
            return turn(line, comment=True)
        return turn(m.group(1)) + turn(m.group(2), comment=True) if m else turn(line)

    def rt_text(text):
        """The comments, clauses and ghost imports of a source, also those that go over several lines."""
        lines, open_braces = [], 0
        for line in text.split("\n"):
            bare = line.strip()
            begins = re.match(r"(ghost use|ghost|requires|ensures|decreases)\b", bare)
            if open_braces or begins:
                open_braces += line.count("{") - line.count("}")
                lines.append(turn(line))
            else:
                lines.append(turn(line, comment=True) if bare.startswith("//") else line)
        return "\n".join(lines)

    for path, text in texts.items():
        if path.endswith(".antt"):
            new = "\n".join(antt_line(l) for l in text.split("\n"))
        elif path.endswith(".rt"):
            new = rt_text(text)
        else:
            new = "\n".join(re.sub(r"(?<!-)\b[a-z][A-Za-z0-9]*\b", lambda m: names.get(m.group(0), m.group(0)), l) if re.match(r"(old|new): ", l) else l for l in text.split("\n"))
        if new != text:
            with open(path, "w", encoding="utf-8") as f:
                f.write(new)


if __name__ == "__main__":
    main("--dry" in sys.argv)
