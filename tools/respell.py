#!/usr/bin/env python3
"""Brings the repository's own definitions and lemmas to snake case: `farEnd` and `far-end` become `far_end`. Types, predicates and modules keep
their capitals, names of the library and of Rust source stay.

usage: tools/respell.py        at the top of the repository, once, after the kit's script for older repositories

Looked at are .antt files, the clauses and comments of .rt files, must-fail edits, and the names in backquotes of the pages.
"""

import glob
import os
import re
import sys

# A lemma that would have its function's name ends in `_lem`, by the kit's rule for names.
LEMMAS = """after-finding after-grow all-permit counted-tight-by degree-of done-at far-end-by gets-on goes-on grow-by heard-from in-bounds in-use
is-odd kind-in lead-of line-end mark-along not-virtual of-word peer-of place-at reduced-by remaining-by settled-on stalls-along tight-by
tight-count units-on weight-by""".split()
# The kit's script has turned these already.
TURNED = "done_at goes_on in_bounds in_use is_odd of_word place_at settled_on".split()
EXCEPT = {n: n.replace("-", "_") + "_lem" for n in LEMMAS + TURNED}
# These would have the name of a field.
EXCEPT |= {"defaultVirtual": "is_default_virtual", "isImage": "is_an_image"}

DECLARED = re.compile(
    r"(?m)^[ ]*(?:(?:unfoldable|abbrev|pub|ruleset|data|record) )*([a-zα-ω][^\s(){};,.:\"◌]*)(?: [^\n:=]*)? (?::|=)(?= |$)"
)
GOAL = re.compile(r"(?m)^(?:abbrev )?([^\s(){};,.:]+) : tie\.")
IMPORT = re.compile(r"(?ms)^(?:pub |ghost )?use ([\w.·+-]+?)(?:\.\{([^}]*)\})?;?$")


def antt_files():
    for pattern in ("crates/*/specs/**/*.antt", "crates/*/proofs/**/*.antt"):
        yield from sorted(glob.glob(pattern, recursive=True))


def read(path):
    with open(path, encoding="utf-8") as f:
        return f.read()


def without_comments(text):
    return re.sub(r"--[^\n]*", "", text)


def snake(name):
    """The name in snake case, or None where it keeps its spelling."""
    if name in EXCEPT:
        return EXCEPT[name]
    if not name[0].islower() or not re.search(r"[a-z0-9'][A-Z]|-", name):
        return None
    name = name.replace("getD", "get_or")
    name = re.sub(r"([a-z0-9'])([A-Z])", r"\1_\2", name)
    return name.replace("-", "_").lower()


def crates():
    with open("crates.txt", encoding="utf-8") as f:
        return {line.split(":")[0].strip() for line in f if ":" in line and not line.startswith("#")}


def declared():
    """Each name that the repository declares, but for the goals of a function's proof."""
    names = {}
    for path in antt_files():
        text = without_comments(read(path))
        goals = set(GOAL.findall(text))
        for name in DECLARED.findall(text):
            if name in goals or (path.endswith("/Proof.antt") and re.search(r"-spec$", name)):
                continue
            if name in ("use", "module", "elim", "let", "in", "where", "unfolding", "record"):
                continue
            names.setdefault(name, set()).add(path)
    return names


def foreign(text, ours):
    """The names that a file imports from the library."""
    out = set()
    for module, items in IMPORT.findall(without_comments(text)):
        parts = re.split(r"[.·]", module)
        if parts[0] == "Rattle" and len(parts) > 1 and parts[1] in ours:
            continue
        for item in re.split(r"[\s,]+", items):
            if item:
                out.add(item)
    return out


def renamer(names, keep, walks=False):
    """Behind a lowercase word and a dot stands a field, a step of a proof or a folder: a name that is turned only where no such has it."""

    def one(match):
        before, word = match.groups()
        if word not in names or word in keep:
            return match.group(0)
        if before and before[0].islower() and (word in TURNED or (walks and "-" in word)):
            return match.group(0)
        return before + names[word]

    return lambda text: re.sub(r"((?:(?<![\w'′◌«-])[^\W\d_][\w'′-]*|[)\]])?\.|)(?<![\w'′◌«-])([^\W\d_][\w'′-]*)", one, text)


def in_comment(text, rename):
    """In a comment a name in backquotes is turned, and elsewhere one with a capital inside."""
    parts = re.split(r"(`[^`]*`)", text)
    camel = lambda t: re.sub(r"(?<![\w-])[a-z]+[A-Z]\w*(?![\w-])", lambda m: rename(m.group(0)), t)
    return "".join(rename(p) if p.startswith("`") else camel(p) for p in parts)


def turn_lines(text, mark, rename, code):
    out = []
    for line in text.split("\n"):
        at = line.find(mark)
        head, tail = (line, "") if at < 0 else (line[:at], line[at:])
        out.append(code(head) + in_comment(tail, rename))
    return "\n".join(out)


def turn_rt(text, rename):
    """The clauses of a .rt file: what stands in a `ghost use`, and between the braces after requires, ensures, ghost and the like."""
    spans = [m.span() for m in re.finditer(r"(?s)\bghost use [^;]*;", text)]
    for m in re.finditer(r"(?m)^\s*(?:pub )?(?:requires|ensures|ghost(?! use))\b[^{;\n]*\{", text):
        depth, at = 1, m.end()
        while depth and at < len(text):
            depth += {"{": 1, "}": -1}.get(text[at], 0)
            at += 1
        spans.append((m.start(), at))
    spans.sort()
    out, done = [], 0
    for start, end in spans:
        out.append(turn_lines(text[done:start], "//", rename, lambda t: t))
        out.append(rename(text[start:end]))
        done = end
    out.append(turn_lines(text[done:], "//", rename, lambda t: t))
    return "".join(out)


def turn_edit(text, rename):
    return "\n".join(line if line.startswith("file: ") else rename(line) for line in text.split("\n"))


def main():
    ours = crates()
    known = declared()
    names = {n: s for n in known if (s := snake(n)) is not None}
    names |= {n: EXCEPT[n] for n in TURNED if n in known}
    taken = {}
    for old, new in sorted(names.items()):
        taken.setdefault(new, set()).add(old)
        if new in known:
            taken[new].add(new)
    for new, olds in sorted(taken.items()):
        if len(olds) > 1:
            places = set.intersection(*(known[o] for o in olds))
            print(f"together: {new}: {', '.join(sorted(olds))}{' in ' + ', '.join(sorted(places)) if places else ''}")
    if "--dry" in sys.argv:
        return
    for path in antt_files():
        text = read(path)
        keep = foreign(text, ours) | set(GOAL.findall(text))
        rename = renamer(names, keep, path.endswith("/Proof.antt"))
        write(path, text, turn_lines(text, "--", rename, rename))
    for path in sorted(glob.glob("crates/*/src/**/*.rt", recursive=True)):
        text = read(path)
        write(path, text, turn_rt(text, renamer(names, foreign(text, ours))))
    for path in sorted(glob.glob("crates/*/must-fail/*.edit")):
        text = read(path)
        write(path, text, turn_edit(text, renamer(landed(text, names, known), set())))
    for path in ["README.md", *sorted(glob.glob("docs/*.md"))]:
        text = read(path)
        rename = renamer(landed(text, names, known), set())
        write(path, text, re.sub(r"`[^`\n]*`", lambda m: rename(m.group(0)), text))


def landed(text, names, known):
    """The names of a text that the kit's script leaves alone, so that it has those too which that script has turned elsewhere."""
    more = {}
    for word in set(re.findall(r"[^\W\d_][\w'′-]*", text)):
        new = snake(word)
        if new and word not in names and (new in known or new in names.values()):
            more[word] = new
    return {n: s for n, s in names.items() if n not in TURNED} | more


def write(path, old, new):
    if new != old:
        with open(path, "w", encoding="utf-8") as f:
            f.write(new)


if __name__ == "__main__":
    main()
