#!/usr/bin/env python3
"""Writes the sources of the crates of worked books from the row files in their folders `rows`.

A row is NAME.lisp (the input), NAME.out (what is written), NAME.status, and NAME.args where it has words. Or it is one file
NAME.row: lines that begin with `> ` are the input, `words: ` the program's words, `# ` what the row shows, and all others are
written. Each becomes a law: the output of these words and these bytes is exactly these bytes, with this status. LEFT-OUT
names the rows that are not computed, a name and the reason in each line. Run `rt fmt` in the crates afterwards.
"""
import pathlib

CRATES = pathlib.Path(__file__).resolve().parent.parent / "crates"
BOOKS = {
    "model_books_rows": "Worked books, each computed from the definitions: from the bytes of a book to the bytes of its answers.",
    "model_exports_rows": "Books that stop inside an export, each computed from the definitions: the stobj is as it was at the export's call.",
    "model_expansion_rows": "Books of expansion, each computed from the definitions: shapes, refusals in their order, counts.",
    "model_stobjs_rows": "Books of stobjs and abstract stobjs, each computed from the definitions: shapes, names, refusals in their order.",
    "model_events_rows": "Books of other events, each computed from the definitions: shapes, refusals in their order, counts.",
}
STATUS = {"0": "Done", "1": "Errors", "2": "Words", "3": "Text"}

# the definitions that computing a row opens
UNFOLDED = {
    "Rattle.std.specs.Fmt": "digits",
    "Rattle.model_symbols.specs.Opening": "common_lisp_text acl2_text common_lisp_symbols acl2_symbols acl2_package opening",
    "Rattle.model_text.specs.Token": "token_of",
    "Rattle.model_text.specs.Next": "step next_at",
    "Rattle.model_prims.specs.Guards": "recognizer_guard relation_guard arithmetic_guard listing_guard naming_guard guard",
    "Rattle.model_prims.specs.Applied": "bounded applied_to",
    "Rattle.model_prims.specs.Values": "recognized related computed listed named_by wanted",
    "Rattle.model_prims.specs.Rows": "table",
    "Rattle.model_lists.specs.Effects": "accessed changed lengthened hash_read hash_bound hash_looked_up hash_put hash_removed",
    "Rattle.model_terms.specs.Sites": "below below_parts below_actuals",
    "Rattle.model_terms.specs.Nested": "stobj_let_holds with_local_holds",
    "Rattle.model_terms.specs.Faults": "first_in first_at first_fault",
    "Rattle.model_terms.specs.Outputs": "outputs",
    "Rattle.model_eval.specs.StobjLayouts": "layout_within",
    "Rattle.model_eval.specs.GeneratedCalls": "effect",
    "Rattle.model_eval.specs.Evaluated": "exec_called called in_order all_borrowed put_back evaluated",
    "Rattle.model_stobjs.specs.Obligations": "core_object core_objects binding_objects obligations",
    "Rattle.model_stobjs.specs.Heads": "name_in_use",
    "Rattle.model_events.specs.Constants": "constant_read package_read current_read",
    "Rattle.model_events.specs.Macros": "written_macro macro_read",
    "Rattle.model_stobjs.specs.Abstracts": "written_abstract abstract_read",
    "Rattle.model_stobjs.specs.Descriptors": "written_stobj nesting_within shape_of names_made descriptor_read",
    "Rattle.model_stobjs.specs.Guards": "renamed_core renamed_cores with_functions all_with_functions binds any_binds generated_guard",
    "Rattle.model_expansion.specs.Expansion": "macro_values look_at settled grown_all grown",
    "Rattle.model_expansion.specs.Layers": "made_of",
    "Rattle.model_events.specs.Events": "admitted",
    "Rattle.model_events.specs.Functions": "written_fault functions_read",
    "Rattle.model_events.specs.Declarations": "declarations",
    "Rattle.model_books.specs.Output": "summary_text answers output",
    "Rattle.model_books.specs.Opening": "opening_world opening_session",
    "Rattle.model_books.specs.Commands": "command",
    "Rattle.model_books.specs.Lines": "answer_lines",
    "Rattle.model_books.specs.GeneratedBook": "generated_book",
    "Rattle.model_books.specs.ProgramWords": "given",
}


def codes(text):
    """A text as a term of bytes."""
    if not text:
        return "[]"
    if all(32 <= byte <= 126 for byte in text):
        plain = text.decode("ascii").replace("\\", "\\\\").replace('"', '\\"')
        return f'codes "{plain}"'
    return "(" + " ∷ ".join(map(str, text)) + " ∷ [])"


def listed(terms):
    return " ∷ ".join([*terms, "[]"])


def bytes_term(data):
    """Bytes as lines, each with the byte that ends it, and what stands behind the last."""
    *whole, last = data.split(b"\n")
    if not whole:
        return codes(last)
    lines = f"lines ({listed(map(codes, whole))})"
    return lines if not last else f"{lines} ++ {codes(last)}"


def camel(name):
    return "".join(part.capitalize() for part in name.split("_"))


def transcript(path):
    """The row of a file of input and output lines."""
    words, given, written = [], [], []
    for line in path.read_bytes().split(b"\n")[:-1]:
        if line.startswith(b"> "):
            given.append(line[2:] + b"\n")
        elif line.startswith(b"words: "):
            words = line[7:].split()
        elif not line.startswith(b"# "):
            written.append(line + b"\n")
    out = b"".join(written)
    status = "Text" if b"Text fault: " in out else "Done" if out.endswith(b" 0 errors\n") else "Errors"
    return {"name": path.stem, "input": b"".join(given), "out": out, "status": status, "words": words}


def read_rows(folder):
    left_out = set()
    listing = folder / "LEFT-OUT"
    if listing.exists():
        left_out = {line.split(":")[0] for line in listing.read_text().splitlines() if line}
    for path in sorted(folder.glob("*.row")):
        yield transcript(path)
    for path in sorted(folder.glob("*.lisp")):
        if path.stem in left_out:
            continue
        args = path.with_suffix(".args")
        yield {
            "name": path.stem,
            "input": path.read_bytes(),
            "out": path.with_suffix(".out").read_bytes(),
            "status": STATUS[path.with_suffix(".status").read_text().strip()],
            "words": args.read_bytes().split() if args.exists() else [],
        }


def spec(row):
    name = row["name"]
    return f"""
-- {name.replace("_", " ")}
abbrev pub {name}_input : List ℕ
{name}_input = {bytes_term(row["input"])}

abbrev pub {name}_written : List ℕ
{name}_written = {bytes_term(row["out"])}

pub record {camel(name)} : Type 0 where
  pub is_written : output ({listed(map(codes, row["words"]))}) {name}_input ≡ record {{ bytes = {name}_written; status = {row["status"]} }}
"""


def proof(crate, row):
    name = row["name"]
    uses = "\n".join(f"use {module}.{{{', '.join(names.split())}}}" for module, names in UNFOLDED.items())
    return f"""-- The row of this name, computed.
use Rattle.std.specs.Prelude.{{refl}}
{uses}
use Rattle.{crate}.specs.Rows.{{{camel(name)}}}

pub is_computed : {camel(name)}
unfolding {" ".join(UNFOLDED.values())}
is_computed = record {{ is_written = refl }}
"""


def law(row):
    name = row["name"]
    return f"""
/// The row `{name}`.
#[tactic(auto, using(crate::proofs::Row{camel(name)}::is_computed))]
pub fn {name}()
    ensures {{ {camel(name)} }}
{{}}
"""


def write(crate, about):
    folder = CRATES / crate
    rows = list(read_rows(folder / "rows"))
    text = "".join(map(spec, rows))
    statuses = ", ".join(s for s in STATUS.values() if f"status = {s} " in text)
    head = f"""-- Whole books: the program's words, an input, what is written, and the status. Written by tools/rows.py.
use Rattle.std.specs.Prelude.{{◌≡◌, ℕ, List, [], ◌∷◌, ◌++◌, codes}}
use Rattle.acl_base.specs.declared.status.Status.TheVariants.{{{statuses}}}
use Rattle.model_books.specs.Output.{{output, lines}}
"""
    (folder / "specs" / "Rows.antt").write_text(head + text)
    (folder / "specs" / "Lib.antt").write_text("pub mod Rows\n")
    for old in (folder / "proofs").glob("*.antt"):
        old.unlink()
    for row in rows:
        (folder / "proofs" / f"Row{camel(row['name'])}.antt").write_text(proof(crate, row))
    (folder / "proofs" / "Lib.antt").write_text("".join(f"pub mod Row{camel(row['name'])}\n" for row in rows))
    names = ", ".join(camel(row["name"]) for row in rows)
    source = f"""//! {about} Written by
//! tools/rows.py from the files in rows/.
#![tactic(auto)]

ghost use Rattle.{crate}.specs.Rows.{{{names}}};
"""
    (folder / "src" / "lib.rt").write_text(source + "".join(map(law, rows)))


def main():
    for crate, about in BOOKS.items():
        write(crate, about)


if __name__ == "__main__":
    main()
