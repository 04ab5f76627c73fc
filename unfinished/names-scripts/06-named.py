"""The vertex that AddDefectVertex names is `named`: a place is one at a vertex. How many values a field has is `values`, and a blank buffer
is blank_bytes: room is what is free in a buffer."""
import re
from names import TOP, by, change, files, word

for file in files("crates/rules/src/execute.rt"):
    change(file, by((re.compile(r"(?<![\w.`])place(?!\w)"), "named")))

FIELD = "crates/instruction"
old, new = TOP / FIELD / "proofs/kinds/room", TOP / FIELD / "proofs/kinds/values"
if old.exists():
    old.rename(new)
    print("crates/instruction/proofs/kinds/room is values")
for file in files(f"{FIELD}/src"):
    change(file, by((re.compile(r"(?<=kinds::)room\("), "values("), ("fn room(", "fn values(")))
for file in files(f"{FIELD}/proofs", suffixes=(".antt",)):
    change(file, by(
        ("kinds.room.", "kinds.values."),
        (re.compile(r"(?<![\w-])room-(spec|requires)"), r"values-\1"),
        ("Need-room-requires", "Need-values-requires"),
        (" .room .", " .values ."),
    ))
for file in files("crates/images/src/main.rt", "crates/cuts/src/main.rt", "crates/bench/src/main.rt", "crates/sessions/src/main.rt"):
    change(file, by((re.compile(r"(?<![\w:.])room\(\)"), "blank_bytes()")))
