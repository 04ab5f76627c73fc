"""Flags of stalled vertices are stalled_vertices (type VertexFlags) in code, contracts and the proofs that name them; the list of the vertices
that grow is growing; `still` is left to "stalled or waiting". Rules' definitions that have both say stalled-vertices too."""
import re
from names import TOP, by, change, files

# a word that is no field of something, nor part of a longer name
def free(old):
    return re.compile(rf"(?<![\w′·.«-]){old}(?![\w′·»-])")


def code(old, new, functions=None):
    """An edit of Rattle code, outside comments: `new` in code, and between « » in a contract where it needs that; in all functions or in some."""
    quoted = f"«{new}»" if "_" in new else new

    def edit(text):
        inside = ""
        out = []
        for line in text.splitlines(keepends=True):
            name = re.search(r"\bfn (\w+)", line)
            inside = name[1] if name else inside
            bare = line.split("//")[0]
            if functions is None or inside in functions:
                contract = bare.lstrip().startswith(("requires", "ensures"))
                bare = free(old).sub(quoted if contract else new, bare)
            out.append(bare + line[len(line.split("//")[0]):])
        return "".join(out)
    return edit


def proof(old, new):
    """An edit of a proof about that code: invariants' names, and needs named after the variable."""
    hyphened = new.replace("_", "-")
    return by(
        (re.compile(rf"(?<![\w′·.-]){old}(₀?)(?![\w′·₀-])"), rf"{hyphened}\1"),
        (re.compile(rf"\bgiven \.{old} "), f"given .{hyphened} "),
        (re.compile(rf"\b(cast|element-write)-{old}(?![\w-])"), rf"\1-{hyphened}"),
    )


def at(*paths):
    return [TOP / path for path in paths if (TOP / path).exists()]


OFFLOADING = "crates/comb_offloading"
for file in files(f"{OFFLOADING}/src", suffixes=(".rt",)):
    change(file, code("vertices", "stalled_vertices"))
for file in at(f"{OFFLOADING}/proofs/offload/Proof.antt", f"{OFFLOADING}/proofs/stall_around/stall_around/Proof.antt"):
    change(file, proof("vertices", "stalled_vertices"))

for file in at("crates/comb_vertex/src/execute.rt", "crates/comb_settle/src/lib.rt"):
    change(file, code("stalled", "stalled_vertices"))
for file in at("crates/comb_vertex/proofs/execute/execute/Proof.antt", "crates/comb_settle/proofs/settle/Proof.antt"):
    change(file, proof("stalled", "stalled_vertices"))
for file in at("crates/comb_settle/proofs/settle_at/Proof.antt"):
    change(file, by(("given .stalled .now", "given .stalled-vertices .now")))
for file in at("crates/comb_settle/must-fail/shadow_without_the_stall.edit"):
    # short enough to stand on one line, however `rt fmt` lays the call out
    change(file, by((re.compile(r"(?<!\w)stalled\["), "stalled_vertices["), (re.compile(r"    registers\.(shadow\(.*\))\.keep\(\)"), r"\1")))

for file in at("crates/comb_cycle/src/stages.rt"):
    change(file, code("vertices", "stalled_vertices", {"stall_units"}))
    change(file, code("stalled", "stalled_vertices", {"execute_all"}))
for file in at("crates/comb_cycle/src/cycle.rt"):
    change(file, code("still", "stalled_vertices"))
for file in at("crates/comb_cycle/src/growing.rt", "crates/comb_cycle/src/strongest.rt"):
    change(file, code("vertices", "growing"))
for file in at("crates/comb_cycle/proofs/growing/list_growing/Proof.antt", "crates/comb_cycle/proofs/strongest/strongest/Proof.antt"):
    lines = file.read_text().splitlines(keepends=True)
    edit = proof("vertices", "growing")
    change(file, lambda text: "".join(line if line.startswith("--") else edit(line) for line in lines))

STEP = re.compile(r"(?m)^      let stalled = verticesStalled s in\n      (carried s .*)$")
for file in at("crates/rules/specs/Instruct.antt"):
    change(file, lambda text: STEP.sub(lambda m: "      let stalled-vertices = verticesStalled s in\n      " + m[1].replace(" stalled ", " stalled-vertices "), text))

# a step that moved nothing is unmoved, and a turn taken again is turn-again
for file in at("crates/comb_search/specs/Repeats.antt", "crates/comb_search/proofs/Again.antt"):
    change(file, by(
        ("pub still :", "pub unmoved :"), (" .still ", " .unmoved "), ("; still =", "; unmoved ="),
        (re.compile(r"(?m)^  still (:|rs)"), r"  turn-again \1"), ("(still g ws", "(turn-again g ws"),
    ))

# in definitions, the list that stage 2 made of the vertices
SPECS = at(
    "crates/rules/specs/Execute.antt", "crates/comb_vertex/specs/Execution.antt", "crates/comb_settle/specs/Settled.antt",
    "crates/comb_settle/specs/Wiring.antt", "crates/comb_cycle/specs/Stages.antt", "crates/comb_cycle/specs/On.antt",
)
for file in SPECS:
    change(file, lambda text: "".join(
        line if line.lstrip().startswith("--") else free("stalled").sub("stalled-vertices", line) for line in text.splitlines(keepends=True)
    ))
change(TOP / "crates/rules/specs/Execute.antt", by(("vs the vertices, stalled what stage 2 stalled.", "vs the vertices, stalled-vertices those that stage 2 stalled.")))
change(TOP / "crates/rules/specs/Shadow.antt", by(("(stalled : List Bool)", "(stalled-vertices : List Bool)"), ("getD stalled v", "getD stalled-vertices v")))
