"""A call's result, Run.Turn, becomes Run.Called: a turn is a search's. (Outcome is taken in the crate session.)"""
import re
from names import TOP, by, change, files, word

IMPORTS = re.compile(r"Run\.\{[^}]*\bTurn\b")

for file in files("crates", suffixes=(".antt",)):
    if IMPORTS.search(file.read_text()) or file == TOP / "crates/rules/specs/Run.antt":
        change(file, by((word("Turn"), "Called")))
for file in files("docs"):
    change(file, by((word(r"Run\.Turn"), "Run.Called")))
