"""Sees that each text which a must-fail edit replaces stands exactly once in its file, after the pairs before it."""
from names import TOP

bad = count = 0
for edit in sorted((TOP / "crates").glob("*/must-fail/*.edit")):
    crate = edit.parent.parent
    texts, file, old = {}, None, None
    for line in edit.read_text().splitlines():
        key, _, rest = line.partition(": ")
        if key == "file":
            file = crate / rest
            texts.setdefault(file, file.read_text() if file.exists() else "")
        elif key == "old":
            old = rest
            count += 1
            if texts[file].count(old) != 1:
                bad += 1
                print(f"{edit.relative_to(TOP)}: {texts[file].count(old)} times in {file.relative_to(TOP)}: {old}")
        elif key == "new":
            texts[file] = texts[file].replace(old, rest)
print(f"{count} texts, {bad} not once")
raise SystemExit(bool(bad))
