"""Each wrong body of a crate can be applied: a text that it replaces stands exactly once in its file, in what the pairs before it
left. And what it calls by a plain name is there: a body with a name that is gone is refused before any clause is tried. Those that one check
tries, and which of them it refuses, are told right for a made-up file."""
import os
import re
import tempfile

from checking import TOP, count, read
from wrong_bodies import Edit, applied, batches_of, functions_of, in_gate, in_more, read_edit, refusal, refusals

CALL = re.compile(r"(?<![\w.:!])(fn )?([a-z_]\w*)\(")
USE = re.compile(r"\buse [^;]*;")
WORDS = {"if", "match", "while", "for", "in", "return", "loop", "move", "unsafe", "pub", "drop"}


def unknown_call(text, new):
    """A function that a new text calls by its name alone, and that the file neither defines nor takes from elsewhere."""
    used = " ".join(USE.findall(text))
    for is_made, name in CALL.findall(re.sub(r"(?:ensures|requires) \w* ?\{[^}]*\}|\"[^\"]*\"", "", new)):
        made = is_made or name in WORDS or re.search(rf"\b(?:fn|let|let mut) {name}\b|[(,|] *{name} *:|\.{name}\(", text)
        if not made and not re.search(rf"\b{name}\b", used):
            return name
    return None


def fault(edit):
    """Why the edit of a crate shows nothing; None where it may."""
    folder = os.path.join(TOP, "crates", edit.crate)
    texts, why = applied(edit, folder)
    if why:
        return why
    calls = [name for file, _, new in edit.pairs if file.endswith(".rt") and (name := unknown_call(texts[file], new))]
    return f"it calls {calls[0]}, which its file does not have" if calls else None


MADE = """const MOST: u64 = 8;

trait Looks {
    fn look(&self) -> u64
        ensures { result ≤ 8 };
}

#[inline(always)]
pub fn lower(x: u64) -> u64
    ensures { result ≤ x }
{
    x / 2
}

impl Looks for Item {
    fn look(&self) -> u64 {
        lower(MOST)
    }

    fn other(&self) -> u64 { 7 }
}
"""
SAID = """note: src/item.rt:8:1: it is not proved that what the function ensures holds when it returns (`returns`)
note: src/item.rt:17:9: a goal may be false even if its line does not say so
./proofs/item/Item/look/Answers.antt:3:5: error: `returns`: `goal.returns`: module `X` has no `returns` that can be named from here
./proofs/item/Item/other/Answers.antt:3:5: error: `returns`: expected type `8 ≡ 7`
fn made::item::Item::look: no proof: it calls `made::item::lower`, which is not proved
logic=not-proved functions=3
"""
# The same of a check that came to no verdict.
NO_VERDICT = (
    (3, SAID.replace("logic=not-proved functions=3", "rattle: no verdict: antt ran out of the steps that the check of one declaration may take")),
    (1, "src/item.rt:17:9: error: `x` is not in scope\n" + SAID),
    (1, "module `Rattle-lower` changed. Run the lower steps again\n" + SAID),
    (-9, SAID.partition("logic=")[0]),
)


def made_edits(folder):
    """Edits of a made-up file: of a function, of the one that calls it, twice of another one, and of a constant."""
    os.mkdir(os.path.join(folder, "src"))
    with open(os.path.join(folder, "src", "item.rt"), "w", encoding="utf-8") as file:
        file.write(MADE)
    pairs = {"half": ("x / 2", "x * 2"), "most": ("lower(MOST)", "lower(9)"), "seven": ("{ 7 }", "{ 8 }"), "six": ("{ 7 }", "{ 6 }"), "constant": ("= 8;", "= 9;")}
    return {name: Edit("made", name, "", (("src/item.rt", old, new),)) for name, (old, new) in pairs.items()}


def check_batches():
    with tempfile.TemporaryDirectory() as folder:
        made = made_edits(folder)
        names = [[it.name for it in batch.edits] for batch in batches_of(list(made.values()), folder)]
        wanted = [["half", "seven"], ["most", "six"], ["constant"]]
        count("edits: of one check none shares its function with another or calls it, and what is in no function has its own", names == wanted, names)
        texts = applied(made["seven"], folder, applied(made["half"], folder)[0])[0]
        refused = refusals(1, SAID, texts)
        told = {name for name, edit in made.items() if functions_of(edit, folder) & set(refused)}
        count("edits: a function is refused by its own goals, and not at a name that is gone", told == {"half", "seven", "six"}, refused)
        none = [(refusals(*it, texts), refusal(*it)) for it in NO_VERDICT]
        count("edits: a check that came to no verdict refuses nothing", none == [({}, None)] * len(NO_VERDICT), none)
        lines = SAID.split("\n")
        whole = [refusal(1, "\n".join(it)) for it in (lines, lines[3:], lines[2:3] + lines[4:])]
        count("edits: a check of one wrong body refuses it by any goal, and not at a name that is gone", whole == [lines[0], lines[3], None], whole)


def misplaced(crate):
    """The files below a crate's must-fail/ that neither tier takes, and the names that both have."""
    top = os.path.join(TOP, "crates", crate, "must-fail")
    files = {os.path.join(at, name) for at, _, names in os.walk(top) for name in names}
    taken = in_gate(crate) + in_more(crate)
    names = [read_edit(path).name for path in taken]
    return [os.path.relpath(it, TOP) for it in sorted(files - set(taken))] + [f"{crate}/{it} twice" for it in sorted(set(names)) if names.count(it) > 1]


def check_all():
    crates = sorted(os.listdir(os.path.join(TOP, "crates")))
    for tier, found in (("must-fail", in_gate), ("must-fail/more", in_more)):
        edits = [read_edit(path) for crate in crates for path in found(crate)]
        faults = [(str(it), why) for it in edits if (why := fault(it))]
        count(f"edits: {len(edits)} wrong bodies of {tier}/ can be applied", edits and not faults, faults)
    many = [(crate, len(in_gate(crate))) for crate in crates if len(in_gate(crate)) > 8]
    count("edits: a crate has at most eight wrong bodies in must-fail/", not many, many)
    whole = sum(len(in_gate(crate)) for crate in crates)
    count("edits: the gate tries at most 200 wrong bodies", whole <= 200, whole)
    strays = [it for crate in crates for it in misplaced(crate)]
    count("edits: each file below must-fail/ is a wrong body of one tier, and no name stands twice in a crate", not strays, strays)
    count("edits: a call of a function that is gone is told", unknown_call("use a::b;\nfn c() {}\n", "c(); b(); d.e(); f(g())") == "f")
    check_batches()
