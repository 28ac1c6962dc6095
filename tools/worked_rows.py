#!/usr/bin/env python3
"""worked_rows.py [--check]: writes crates/worked_rows/proofs/Rows.antt from the folders of tests/rows.

Each row becomes a lemma under the row's name: the definitions of ecs_model, computed by the prover on the row's script, give
the row's output, the number of its lines, and how many of them are refused, which its exit status tells too. A row whose script
is too long for the prover's step limit, or has an answered query of too many variables, is left out and named in a comment;
so is one that fits these limits and was found to take too many steps all the same (TOO_MANY_STEPS).

With --check it writes nothing, and says which rows the file doesn't have as their folders have them: status 1 if there are any.
"""
import os
import re
import sys

TOP = os.path.join(os.path.dirname(os.path.realpath(__file__)), "..")
ROWS = os.path.join(TOP, "tests", "rows")
OUT = os.path.join(TOP, "crates", "worked_rows", "proofs", "Rows.antt")
MOST_BYTES = 9000
MOST_LINES = 100
# by the definition all entities are tried for each variable
MOST_VARIABLES = 14
# short, and still more than the prover's steps
TOO_MANY_STEPS = {
    "cascade-sample-16": "a monitor and kept queries in which a variable stands for a component",
    "instantiate-sample-51": "queries and a kept query in which variables stand for components",
    "instantiate-sample-60": "queries in which variables stand for components, in groups and alternatives",
    "stored-queries-sample-08": "chains of a Reflexive relationship between any two entities, in queries and in a monitor of three variables",
    "stored-queries-sample-40": "a monitor of three variables, asked before and after each of ten commands",
    "stored-queries-sample-51": "queries of three and four variables, and monitors of two",
}

HEAD = """-- The worked rows, computed by the definitions. Made by tools/worked_rows.py.
-- Too long to be computed here, and run by the program alone: {long_rows}.
use Rattle.std.specs.Prelude.{{◌≡◌, ℕ, List, [], ◌∷◌, ◌++◌, refl, codes, drop, get_or, flat_map, length, count_by}}
use Rattle.std.specs.Fmt.{{digits}}
use Rattle.std.specs.Str.{{chars, is_utf8}}
use Rattle.ecs_id.specs.Id.{{id_cmp}}
use Rattle.ecs_model.specs.World.{{first_world, key_cmp, next_among}}
use Rattle.ecs_model.specs.Sets.{{has_chain, within}}
use Rattle.ecs_model.specs.steps.Outcomes.{{with_born, with_named, with_component, differences}}
use Rattle.ecs_model.specs.steps.FactChanges.{{added, replaced, facts_with_added, new_base, copied, facts_after_add, facts_after_remove, deleted, facts_after_delete}}
use Rattle.ecs_model.specs.steps.Step.{{without_entities, reasons, effect, step}}
use Rattle.ecs_model.specs.Depth.{{depth_within}}
use Rattle.ecs_model.specs.AncestorLine.{{ancestor_line_within}}
use Rattle.ecs_model.specs.Links.{{reaches}}
use Rattle.ecs_model.specs.rows.Level.{{top}}
use Rattle.ecs_model.specs.rows.Rows.{{hits, fields_of_term, fields_of_item, solutions, rows}}
use Rattle.query_model.specs.Tokens.{{tokens_from, tokens_of}}
use Rattle.query_model.specs.Check.{{faults}}
use Rattle.query_model.specs.Query.{{checked_query, query_of}}
use Rattle.ecs_model.specs.Orders.{{command_of}}
use Rattle.ecs_model.specs.Script.{{lines_of, forms, form_among}}
use Rattle.ecs_model.specs.Output.{{Effect, effect_of, effects_of, output_of, count_of}}
use Rattle.ecs_model.specs.stored.Session.{{free_order, apply}}
use Rattle.ecs_model.specs.stored.Watches.{{matching, told_of_rows, told_of}}
use Rattle.ecs_model.specs.steps.Pins.{{unpin}}
use Rattle.std.proofs.Common.{{ap}}
use lib.Utf8.{{encode}}

-- the script prints this output, and has so many lines, of which so many are refused
unfoldable Gives : List ℕ → List ℕ → ℕ → ℕ → Type 0
Gives script output lines refused = (output_of script ≡ output) × (count_of script ≡ (lines, refused))

-- how many lines there are and how many are refused, and after these numbers what they print
abbrev told : List Effect → List ℕ
told es = length es ∷ count_by (λ e. e.refused) es ∷ flat_map (λ e. e.printed) es

-- what the lines do is computed once for all three
gives : (script output : List ℕ) (lines refused : ℕ) → told (effects_of script) ≡ lines ∷ refused ∷ output → Gives script output lines refused
unfolding Gives
gives script output lines refused h = (ap (λ t. drop 2 t) h, ap (λ t. (get_or t 0 0, get_or t 1 0)) h)
"""
UNFOLDING = (
    "id_cmp key_cmp first_world next_among within has_chain added replaced facts_with_added new_base copied facts_after_add facts_after_remove deleted facts_after_delete without_entities "
    "with_born with_named with_component reasons effect differences step ancestor_line_within depth_within reaches top hits fields_of_term fields_of_item solutions rows "
    "tokens_from tokens_of faults checked_query query_of command_of free_order apply matching told_of_rows told_of unpin lines_of forms form_among effect_of effects_of digits chars is_utf8 encode"
)


def read(*path):
    with open(os.path.join(*path), "rb") as file:
        return file.read()


def literal(data):
    """Bytes as a term: runs of printable characters by `codes`, the others as numbers."""
    if not data:
        return "[]"
    runs, at = [], 0
    while at < len(data):
        plain = is_plain(data[at])
        end = at
        while end < len(data) and is_plain(data[end]) == plain:
            end += 1
        runs.append(run_of(data[at:end], plain))
        at = end
    return "(" + " ++ ".join(runs) + ")"


def is_plain(byte):
    return 32 <= byte < 127 or byte in (9, 10)


def run_of(run, plain):
    if not plain:
        return "(" + " ∷ ".join(map(str, run)) + " ∷ [])"
    word = run.decode().replace("\\", "\\\\").replace('"', '\\"').replace("\n", "\\n").replace("\t", "\\t")
    return f'codes "{word}"'


def lines_of(text):
    """The lines of a text: after the last line feed there is one only if it isn't empty."""
    lines = text.split(b"\n")
    return lines if lines[-1] else lines[:-1]


def refused_in(output):
    """How many lines were refused: each prints one line that begins with `error `, and no other line does."""
    return sum(line.startswith(b"error ") for line in lines_of(output))


def lemma(row, script, output):
    name = row.replace("-", "_")
    return (
        f"{name} : Gives {literal(script)} {literal(output)} {len(lines_of(script))} {refused_in(output)}\n"
        f"unfolding {UNFOLDING}\n"
        f"{name} = gives _ _ _ _ refl\n"
    )


def is_short(row):
    if row in TOO_MANY_STEPS or not os.path.isfile(os.path.join(ROWS, row, "script")):
        return False
    script = read(ROWS, row, "script")
    return len(script) <= MOST_BYTES and script.count(b"\n") <= MOST_LINES and most_variables(script, read(ROWS, row, "output")) <= MOST_VARIABLES


def most_variables(script, output):
    """The most names of variables in a query that is answered or stored."""
    refused = {int(number) for number in re.findall(rb"^error (\d+) ", output, re.MULTILINE)}
    lines = [line for number, line in enumerate(script.split(b"\n"), 1) if number not in refused]
    queries = [line for line in lines if line.split()[:1] in ([b"query"], [b"keep"], [b"monitor"], [b"on"])]
    return max((len(set(re.findall(rb"\$[A-Za-z][A-Za-z0-9_]*", line))) for line in queries), default=0)


def pieces():
    """The parts of the file: its head, and the lemma of each row under the row's name."""
    short, long_rows = [], []
    for row in sorted(os.listdir(ROWS)):
        (short if is_short(row) else long_rows).append(row)
    parts = {"head": HEAD.format(long_rows=", ".join(long_rows) or "none")}
    for row in short:
        parts[row] = lemma(row, read(ROWS, row, "script"), read(ROWS, row, "output"))
    return parts


def pieces_written():
    """The same parts as they stand in the file; a lemma goes by its name."""
    parts = {}
    text = read(OUT).decode()
    head, *lemmas = text.split("\n\n")
    while lemmas and lemmas[0].startswith("-- "):
        head += "\n\n" + lemmas.pop(0)
    parts["head"] = head + "\n"
    for part in lemmas:
        parts[part.split(" ", 1)[0].replace("_", "-")] = part.rstrip("\n") + "\n"
    return parts


def wrong_statuses():
    """What is wrong with the statuses: 1 where a line is refused, 0 where none is, and greater ones where the run fails."""
    complaints = []
    for row in sorted(os.listdir(ROWS)):
        status, refused = int(read(ROWS, row, "status")), refused_in(read(ROWS, row, "output"))
        if status < 2 and status != min(refused, 1):
            complaints.append(f"row {row}: status {status} with {refused} refused lines")
        if status >= 2 and is_short(row):
            complaints.append(f"row {row}: status {status}, which no script has that runs to its end")
    return complaints


def differences():
    wanted, written = pieces(), pieces_written()
    complaints = [f"row {row}: Rows.antt hasn't it" for row in wanted if row not in written]
    complaints += [f"row {row}: stands in Rows.antt without a folder" for row in written if row not in wanted]
    complaints += [f"row {row}: differs from its folder" for row in wanted if row in written and wanted[row] != written[row] and row != "head"]
    if wanted["head"] != written["head"]:
        complaints.append("the head of Rows.antt differs")
    if not complaints and read(OUT).decode() != "\n".join(wanted.values()):
        complaints.append("Rows.antt differs in the order of its rows, or between them")
    return complaints


def main(arguments):
    complaints = wrong_statuses()
    if arguments == ["--check"]:
        complaints += differences()
    elif arguments:
        sys.exit(__doc__)
    elif not complaints:
        with open(OUT, "w", encoding="utf-8") as file:
            file.write("\n".join(pieces().values()))
    for complaint in complaints:
        print(f"worked rows: {complaint}")
    print(f"worked rows: {len(pieces()) - 1} computed, {len(complaints)} wrong")
    return 1 if complaints else 0


if __name__ == "__main__":
    sys.exit(main(sys.argv[1:]))
