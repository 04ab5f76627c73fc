"""One home for a helper that two crates had:
rules::registers::at (comb_edge's and comb_offloading's), VertexRegisters::belongs_to (comb_vertex's), rules::registers::speed_code (instruction's
and sessions'), rules::registers::bit (sessions'), rules::graph::wide (board's and batch's), batch::blank_bytes (that of four programs)."""
import re
import shutil
from names import TOP, change, by

REGISTERS = TOP / "crates/rules/src/registers.rt"


def used(text, line):
    """The text with a `use` line, in order among those that stand there, as the first run of them has it."""
    if line in text:
        return text
    lines = text.splitlines(keepends=True)
    uses = [k for k, row in enumerate(lines) if row.startswith("use ")]
    # the longest run of plain uses
    runs, run = [], []
    for k in uses:
        if run and k != run[-1] + 1:
            runs.append(run)
            run = []
        run.append(k)
    runs.append(run)
    run = max(runs, key=len)
    after = [k for k in run if lines[k] < line]
    lines.insert(after[-1] + 1 if after else run[0], line)
    return "".join(lines)


def dropped(text, line):
    """Without that `use` line, where nothing else names its last part."""
    name = line.rstrip(";\n").split("::")[-1]
    rest = text.replace(line, "")
    return rest if not re.search(rf"(?<![\w.:]){name}(?!\w)", code(rest)) else text


def code(text):
    return "\n".join(row.split("//")[0] for row in text.splitlines() if not row.lstrip().startswith(("ghost", "requires", "ensures")))


def without(text, name):
    """Without the function of that name and the comment that stands before it."""
    return re.sub(rf"(?m)^(?://[^\n]*\n)*(?:pub(?:\(crate\))? )?fn {name}\((?:.*\n)+?\}}\n\n?", "", text)


def removed(*paths):
    for path in paths:
        if (TOP / path).exists():
            shutil.rmtree(TOP / path)
            print("removed", path)


def at(path):
    return TOP / path


# ---- rules

AT = """// The registers of one vertex in a table.
pub fn at(registers: &Registers, vertex: VertexIndex) -> VertexRegisters
    requires { ⌜ vertex .0 < 256 ⌝ }
    ensures { λ r. ⌜ (r ≡ Registers.at (now (registers .entry)) (vertex .0)) × (r .grown < 67_108_864) ⌝ }
{
    view(registers[vertex.0 as usize])
}

"""


def registers(text):
    text = text.replace("fn code_of(speed: CompactGrowState) -> u64", "pub fn speed_code(speed: CompactGrowState) -> u32")
    text = re.sub(r"(?<!\w)code_of\(speed\) \*", "speed_code(speed) as u64 *", text)
    text = text.replace("\nfn bit(on: bool) -> u64", "\npub fn bit(on: bool) -> u64")
    if "pub fn at(" not in text:
        text = text.replace("impl VertexRegisters {\n    pub fn fresh", AT + "impl VertexRegisters {\n    pub fn fresh")
        text = used(text, "use crate::index::VertexIndex;\n")
        text = used(text, "use crate::tables::Registers;\n")
        text = text.replace("ghost use Prim.Native.Nat.{_≤_};", "ghost use Prim.Native.Nat.{_<_, _≤_};")
    return text


change(REGISTERS, registers)
KEEP = at("crates/rules/proofs/registers/VertexRegisters/keep/Proof.antt")
CAST = "cast-result-4 : tie.Need-cast-result-4\ncast-result-4 c = search needs\n\n"
if "cast-result-4" not in KEEP.read_text():
    change(KEEP, by(
        ("code-of-requires", "speed-code-requires"),
        ("mul-result-3 : tie", CAST + "mul-result-3 : tie"),
        ("    speed-code-requires\n    mul-result-3", "    speed-code-requires\n    cast-result-4\n    mul-result-3"),
    ))

moved = at("crates/rules/proofs/registers/at/Proof.antt")
old = at("crates/comb_edge/proofs/at/Proof.antt")
if old.exists() and not moved.exists():
    moved.parent.mkdir(parents=True)
    moved.write_text(by(
        ("Rattle·rules.specs.", "Rattle·rules·specs.specs."),
        ("Rattle·rules.proofs.Round", "Rattle·rules·proofs.proofs.Round"),
        ("Rattle·comb_edge·proofs.proofs.at.", "Rattle·rules·proofs.proofs.registers.at."),
    )(old.read_text()))
    print("crates/comb_edge/proofs/at is crates/rules/proofs/registers/at")
removed("crates/comb_edge/proofs/at", "crates/comb_offloading/proofs/vertex/at")

change(at("crates/rules/src/execute.rt"), by(("\n    fn belongs_to(self", "\n    pub fn belongs_to(self")))


def graph(text):
    if "pub fn wide(" in text:
        return text
    return text + "\n// A number of a table, as an index.\npub fn wide(n: u32) -> usize\n    ensures { λ r. ⌜ r ≡ n ⌝ }\n{\n    n as usize\n}\n"


change(at("crates/rules/src/graph.rt"), graph)

# ---- those that had their own


def edge(text):
    text = used(without(text, "at"), "use rules::registers::at;\n")
    return dropped(dropped(text, "use rules::registers::view;\n"), "use rules::registers::VertexRegisters;\n")


change(at("crates/comb_edge/src/lib.rt"), edge)


def offloading(text):
    text = used(without(text, "at"), "use rules::registers::at;\n").replace("at(vertex, registers)", "at(registers, vertex)")
    return dropped(dropped(text, "use rules::registers::view;\n"), "use rules::registers::VertexRegisters;\n")


change(at("crates/comb_offloading/src/vertex.rt"), offloading)
for name in ("is_defect", "is_virtual"):
    change(at(f"crates/comb_offloading/proofs/vertex/{name}/Proof.antt"), by(("(c .at .ensures)", "(c .at .ensures .0)")))


def vertex(text):
    text = without(text, "belongs_to").replace("=> belongs_to(registers, node)", "=> registers.belongs_to(node)")
    return dropped(text, "use rules::index::NodeIndex;\n")


change(at("crates/comb_vertex/src/execute.rt"), vertex)
removed("crates/comb_vertex/proofs/execute/belongs_to")


def packing(text):
    text = used(without(text, "speed_code"), "use rules::registers::speed_code;\n")
    text = text.replace("ghost use Rattle·rules.specs.Numbers.{speedCode};\n", "") if "speedCode" not in text.replace("Numbers.{speedCode}", "") else text
    return dropped(text, "use rules::instruction::CompactGrowState;\n")


change(at("crates/instruction/src/packing.rt"), packing)
removed("crates/instruction/proofs/packing/speed_code")


def listed(text):
    text = without(without(text, "code"), "bit").replace(" code(speed)", " speed_code(speed) as u64")
    text = used(used(text, "use rules::registers::bit;\n"), "use rules::registers::speed_code;\n")
    return dropped(text, "use rules::instruction::CompactGrowState;\n")


change(at("crates/sessions/src/registers.rt"), listed)

LIMITS = "// Counts go no further than their tables: the bounds are seen by the compiler, and save it work in the loops.\n"


def board(text):
    if "fn wide(" not in text:
        return text
    return used(without(text, "wide").replace("pub fn nv(", LIMITS + "pub fn nv("), "use rules::graph::wide;\n")


change(at("crates/board/src/lib.rt"), board)

BLANK = "\n// A buffer for a session, whose bytes no proof looks into.\npub fn blank_bytes() -> [u8; 1048576] {\n    [0u8; 1048576]\n}\n"


def batch(text):
    text = used(without(text, "wide"), "use rules::graph::wide;\n")
    return text if "fn blank_bytes" in text else text + BLANK


change(at("crates/batch/src/lib.rt"), batch)
for program in ("images", "cuts", "bench", "sessions"):
    change(at(f"crates/{program}/src/main.rt"), lambda text: used(without(text, "blank_bytes"), "use batch::blank_bytes;\n"))

# ---- docs

change(at("docs/PROMISES.md"), by(
    ("| `rules::view`, `rules::keep`, `rules::fresh` | `Registers.view`, `Registers.keep`, `Registers.fresh` |",
     "| `rules::view`, `rules::keep`, `rules::fresh`, `rules::at` | `Registers.view`, `Registers.keep`, `Registers.fresh`, `Registers.at` |"),
    ("| `rules::is_growing`, `rules::is_shrinking`, `rules::at_most` | `Registers.growing`, `Registers.shrinking`; the lesser of two |",
     "| `rules::is_growing`, `rules::is_shrinking`, `rules::belongs_to` | `Registers.growing`, `Registers.shrinking`; whether the node or the root is that one |\n"
     "| `rules::speed_code`, `rules::bit`, `rules::at_most`, `rules::wide` | `Numbers.speedCode`, `laws/Fold.bit`; the lesser of two; the number itself |"),
))
change(at("docs/DECISIONS.md"), by(
    ("- `board::edge` and `board::place` ask for an index", "- `rules::registers::at`, `board::edge` and `board::place` ask for an index"),
))
