"""Instruct.settled (stages 4 to 8) becomes Instruct.finished, with the laws named after it: settle is stages 4 to 6 alone."""
import re
from names import TOP, by, change, files, word

IMPORTS = re.compile(r"Instruct\.\{[^}]*\bsettled\b")
# settled, settled-is, settledOn
NAMES = re.compile(r"(?<![\w′·-])settled(?=On\b|-|(?![\w′·]))")

for file in files("crates", suffixes=(".rt", ".antt")):
    if IMPORTS.search(file.read_text()) or file == TOP / "crates/rules/specs/Instruct.antt":
        change(file, by((NAMES, "finished")))
for file in files("crates/rules/must-fail"):
    if "file: specs/Instruct.antt" in file.read_text():
        change(file, by((NAMES, "finished")))
for file in files("crates", "docs", suffixes=(".rt", ".antt", ".md")):
    change(file, by((word(r"Instruct\.settled"), "Instruct.finished")))
