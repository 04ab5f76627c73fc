"""What the scripts here share. Each takes the tree's top as its argument, may run twice, and prints the files that it changed."""
import re
import sys
from pathlib import Path

TOP = Path(sys.argv[1]).resolve()
# a character of a Rattle or antt identifier, but the hyphen, at which antt joins names
WORD = r"[\w′·]"


def files(*roots, suffixes=(".rt", ".antt", ".edit", ".md", ".txt", "")):
    """The text files under the roots, which are relative to the top."""
    for root in roots:
        path = TOP / root
        found = [path] if path.is_file() else sorted(path.rglob("*"))
        for file in found:
            if file.is_file() and file.suffix in suffixes and not {"target", ".git"} & set(file.relative_to(TOP).parts):
                try:
                    file.read_text()
                except UnicodeDecodeError:
                    continue
                yield file


def word(old, before=rf"(?<!{WORD})", after=rf"(?!{WORD})"):
    return re.compile(before + old + after)


def change(file, edit):
    """Write what `edit` makes of the file's text, where that is another."""
    old = file.read_text()
    new = edit(old)
    if new != old:
        file.write_text(new)
        print(file.relative_to(TOP))


def by(*pairs):
    """An edit that puts each pattern's new text in its place, in turn."""
    def edit(text):
        for pattern, new in pairs:
            text = pattern.sub(new, text) if isinstance(pattern, re.Pattern) else text.replace(pattern, new)
        return text
    return edit
