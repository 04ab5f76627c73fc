"""The crate comb_lent becomes comb_driver: folder, crates.txt, uses, docs. Runs of `use` lines that were sorted are sorted again."""
import re
from names import TOP, by, change, files

PLAIN = by(("\\--- comb_lent -/", "\\-- comb_driver /"), (re.compile(r"(?<!\w)comb_lent(?!\w)"), "comb_driver"))


def runs(lines):
    """The lines in runs: of `use` lines, or of one other line."""
    run = []
    for line in lines:
        if line.startswith("use "):
            run.append(line)
            continue
        if run:
            yield run
            run = []
        yield [line]
    if run:
        yield run


def renamed(text):
    if "comb_lent" not in text:
        return text
    out = []
    for run in runs(text.splitlines(keepends=True)):
        new = [PLAIN(line) for line in run]
        out += sorted(new) if len(run) > 1 and run == sorted(run) else new
    return "".join(out)


old, new = TOP / "crates/comb_lent", TOP / "crates/comb_driver"
if old.exists():
    if new.exists():
        raise SystemExit("crates/comb_lent and crates/comb_driver both stand: bring them together first")
    old.rename(new)
    print("crates/comb_lent is crates/comb_driver")
for file in files("crates.txt", "crates", "docs", "README.md", "oracle", "tools", "bench"):
    change(file, renamed)
