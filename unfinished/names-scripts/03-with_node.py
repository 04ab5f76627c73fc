"""The setter of speed, node and root, VertexRegisters::led and Execute.led, becomes with_node and withNode: led is only a vertex that has a peer."""
import re
from names import TOP, by, change, files, word

EXECUTE = (word(r"Execute\.led"), "Execute.withNode")
IMPORTS = re.compile(r"Execute\.\{[^}]*\bled\b")
LED = re.compile(r"(?<![\w′·-])led(?![\w′·-])")

for file in files("crates/rules", suffixes=(".rt", ".edit")):
    change(file, by(EXECUTE, (LED, "with_node")))
for file in files("crates/rules/proofs", suffixes=(".antt",)):
    change(file, by(
        (re.compile(r"(?<![\w′])led-requires"), "with-node-requires"),
        (" .led .", " .with-node ."),
        ("`led`", "`with_node`"),
    ))
for file in files("crates", suffixes=(".rt", ".antt")):
    if IMPORTS.search(file.read_text()) or file == TOP / "crates/rules/specs/Execute.antt":
        change(file, by((LED, "withNode")))
    change(file, by(EXECUTE))
for file in files("docs"):
    change(file, by(EXECUTE, (word("rules::led"), "rules::with_node")))
