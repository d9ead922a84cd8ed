"""Prints the corners as rows of a theorem about the definitions of the lowering.

`python3 samples/corner_theorems.py proved > crates/audit/proofs/Proved.antt` prints
those that document 01 marks [P], with `further` the others that are small, for
crates/audit/proofs/Further.antt, with `params` those on parameters, for
crates/param_runs/proofs/Corners.antt, and with `judged` and `clauses` those on fit,
meaning and run, for crates/audit/proofs/Judged.antt and Clauses.antt. The answers are
those of lowering.py, of params.py and of judged.py; then format the files. With `--check` it fails if a file is not what
it prints, but for its layout.
"""

import contextlib
import io
import sys
from pathlib import Path

sys.dont_write_bytecode = True

from corners import CORNERS
from images import ABSENT, broken, decode
from judged import CLAUSES, KINDS, MARKED, PROVED
from lowering import lower, root_type
from params import PARAM_CORNERS, UNFIT, binds_again, lower_params
from theorems import byte_list

SMALL = 500

MODULES = [
    ("image", "Bytes", "word_at little_endian"),
    ("image", "Tables", "tables_of"),
    ("image", "Rows", "type_at variant_at pat_at binding_at list_at operand_at operand_bytes"),
    ("image", "Lists", "all_below all_in all_true member distinct up_from gather"),
    ("image", "Operands", "is_scalar_value operand_value_holds operand_holds"),
    ("image", "Rules", "counts_what_follows version_is_one tables_fill_the_rest listed types_listed is_integer_size adt_may_have type_shape_holds type_holds variants_by "
     "adts_share_no_variant variant_holds binding_holds within_limits"),
    ("image", "Subpatterns", "if_present subpatterns_by"),
    ("image", "Patterns", "path_holds pattern_shape_holds pattern_holds subpatterns_below used_once"),
    ("image", "Valid", "valid"),
    ("image", "Types", "shape_by ty_of variant_of binding_of operand_of"),
    ("image", "Tree", "word? operand? trees tree? target node_by node tree_of tree"),
    ("place", "Elems", "elem_of word_of"),
    ("place", "Places", "projection_of"),
    ("place", "PlaceTypes", "field_of deref_ty adt_field_ty field_ty element_ty subslice_ty adt_downcast_ty downcast_ty ty_projection variant_projection part_projection "
     "projection_ty multi_projection_ty"),
    ("mir", "Blocks", "term_row"),
    ("mir", "Statements", "halves place_words"),
    ("mir", "Locals", "local_ty"),
    ("mir", "Rvalues", "constant_words left_words place_rvalue_kind binary_kind live_row dead_row place_rvalue_row constant_row binary_row"),
    ("state", "Steps", "new_block set_terminator push_statement new_local push_scope push_entry try_block try_statement try_local try_scope try_entry"),
    ("literals", "Literals", "constant_of string_constant integer_constant literal_by lower_literal_to_operand lower_const_to_operand literal_or_const_by "
     "lower_literal_or_const_to_operand"),
    ("lower_spec", "Temps", "is_slice is_held mark_live temp binding_local"),
    ("views", "Views", "terminator_of elems_at path_of constant_at left_of line_of mir_of"),
    ("refusals", "Refusals", "number_of reason_of refusal_at"),
    ("pattern_matching", "Walking", "visited project local_place else_state else_block derefed entered"),
    ("pattern_matching", "Tests", "compare pattern_match_const literal lit_by constant_path range_end range_end? binding_rvalue pattern_match_binding local_path"),
    ("pattern_matching", "Variants", "place_ty shape_of pattern_match_adt pattern_match_tuple_like ellipsis_at tuple_on tuple_pattern ref_on ref_pattern resolved "
     "record_fields variant_fields discriminant_test variant_on adt_on pattern_matching_variant variant_pattern"),
    ("pattern_matching", "Slices", "length_constant length_compared length_test rest_bound slice_items slice_on"),
    ("pattern_matching", "Patterns", "alternatives alternatives_end or_pattern end_op range_pattern path_pattern bind_pattern rest_by rest_of pattern_match_inner lowerings "
     "lowering? pattern_match"),
]

PARAM_MODULES = [
    ("params_spec", "Params", "param_local by_value plain_bind plain_binding bound_to declare_self declare_param declare_params declare_binding declare_bindings declare "
     "shut_else shut unless_bound unless_own lower_param lower_params self_count lower_all lower_params_and_bindings"),
    ("params_spec", "Calls", "binds_receiver none_binds_receiver receiver_apart"),
]

FIT_MODULES = [
    ("image", "Integers", "least_value greatest_value in_range integer_value"),
    ("cases_spec", "Cases", "kind_number tuple_fields referent"),
    ("meaning", "Values", "items parts_of int_fits has_variant value_fits"),
    ("meaning", "Typing", "adt_variants"),
    ("meaning", "Fit", "behind type_is_the_places arguments_fit discriminants_differ integer_fits literal_fits path_fits row_fits each_fits types_fit bound_in bindings_fit path_taken "
     "nothing_refused present locals_differ fits"),
    ("meaning", "Matching", "crossed created match_all match_row is_variant path_matches matches"),
    ("meaning", "Running", "scalar_of bytes_of same_value"),
]

# What the rows on fit, meaning and run unfold besides, by the whole of its name.
MEANING = {
    "image.specs.Integers": "least_value greatest_value in_range integer_value",
    "cases_spec.specs.Cases": "kind_number tuple_fields referent",
    "counting.specs.Reaching": "is_enum is_slice_shape behind_derefs field_count path_tests zip in_a_row by_fields downcast of_variant slice_arguments some_argument all_alternatives can_fail",
    "meaning.specs.Values": "items values derefed parts_of middle subslice part_at place_in int_fits has_variant value_fits",
    "meaning.specs.Running": "update value_of data_bytes signed_number constant_by constant_value scalar_of bytes_of same_numbers same_value compared discriminant_of elem_numbers "
    "same_elem behind_root part_behind read of_place_value left_value rvalue_value execute switched",
    "meaning.specs.Executing": "runs",
    "meaning.specs.Matching": "onto crossed crossed_path evaluated created from_start to_end match_all match_row match_fields is_variant path_matches matches bound_as bind_all "
    "row_fields record_fields last_items variant_path",
    "meaning.specs.Binding": "rest_binds? binds",
    "meaning.specs.Typing": "adt_variants variant_fields field_type element_type",
    "meaning.specs.Fit": "behind type_is_the_places arguments_fit field_numbers discriminants_differ items_fit rest_fits integer_fits refers_to_str constant_fits literal_fits end_fits "
    "path_fits each_fits row_fits by_fields_fit items_all_fit types_fit stands_in within rest_ty rest_bound? pat_count bound_in bindings_fit fields_there path_taken "
    "nothing_refused present locals_differ fits",
}

FILES = {"proved": "audit/proofs/Proved", "further": "audit/proofs/Further", "params": "param_runs/proofs/Corners", "judged": "audit/proofs/Judged",
         "clauses": "audit/proofs/Clauses"}

JUDGED = {
    "judged": ("document 01's corners that are marked [P], and every kind of pattern, operand and binding", MARKED + KINDS),
    "clauses": ("each clause of document 01's \"A pattern fits when\", from both sides", CLAUSES),
}

HEAD = """-- {what}, lowered by computation from the images' bytes: each row has {has}, and the answer with the
-- whole content of its listing and the visits. The rows are written out by samples/corner_theorems.py. Assumes nothing.
use Prim.Native.Nat.{{ℕ}}
use mathlib.Core.Path.{{◌≡◌, refl}}
use mathlib.Core.List.{{List, [], ◌∷◌, map}}
{first}
use Rattle.place.specs.declared.elems.ProjectionElem.{{ProjectionElem}}
use Rattle.mir.specs.declared.blocks.Terminator.{{Terminator}}
use Rattle.mir.specs.declared.rvalues.BinOp.{{BinOp}}
use Rattle.mir.specs.declared.rvalues.Left.{{Left}}
use Rattle.mir.specs.declared.rvalues.PlaceRvalue.{{PlaceRvalue}}
use Rattle.views.specs.Views.{{Rvalue, of_place, of_constant, binary, Statement, live, dead, set}}
{uses}
{own}
"""

AUDIT = """use Rattle.audit.specs.Call.{lowering}
use Rattle.audit.specs.Started.{start_state, start, answer_by, Answer, lowers_to, refusal, Row}"""

ELEMENTS = {"deref": "Deref", "f": "Field", "i": "Index", "e": "IndexFromEnd", "s": "Subslice", "v": "Downcast"}
RVALUES = {"copy": "Copy", "ref": "Ref", "mut": "Mut", "len": "Len", "discr": "Discr"}
OPERATORS = {"eq": "Eq", "le": "Le", "ge": "Ge", "gt": "Gt"}
WORDS = {"bool": 256, "usize": 257, "i128": 258}


def number(n):
    """A number under a tuple struct."""
    return f"(record {{ 0 = {n} }})"


def word(type_):
    """The word of a local's type."""
    return WORDS.get(type_, type_)


def row_of(items):
    """A list."""
    return "(" + "".join(f"{item} ∷ " for item in items) + "[])"


def element(parts):
    """An element of a place."""
    name = "ProjectionElem." + ELEMENTS[parts[0]]
    return name if len(parts) == 1 else "(" + " ".join([name, *map(str, parts[1:])]) + ")"


def place(value):
    """A place."""
    return f"(record {{ local = {value[0]}; elems = {row_of(map(element, value[1]))} }})"


def constant(value):
    """A constant: its bytes as two halves, its type, and where a string's bytes lie."""
    data, type_ = value[1], value[2]
    offset = value[3][0] if value[3] else 0
    low, high = (int.from_bytes(half, "little") for half in (data[:8], data[8:]))
    return f"(record {{ count = {len(data)}; ty = {word(type_)}; offset = {offset}; low = {low}; high = {high} }})"


def rvalue(value):
    """What a local is set to."""
    if value[0] == "const":
        return f"(of_constant {constant(value)})"
    if value[0] in OPERATORS:
        left = value[1]
        operand = f"(Left.Constant {constant(left)})" if left[0] == "const" else f"(Left.Local {number(left[1][0])})"
        return f"(binary BinOp.{OPERATORS[value[0]]} {operand} {place(value[2][1])})"
    return f"(of_place PlaceRvalue.{RVALUES[value[0]]} {place(value[1])})"


def line(created):
    """A statement and its block."""
    block, statement = created
    text = f"set {statement[1]} {rvalue(statement[2])}" if statement[0] == "set" else f"{statement[0]} {statement[1]}"
    return f"record {{ block = {block}; statement = {text} }}"


def terminator(value):
    """A block's terminator."""
    if value is None:
        return "Terminator.Open"
    if value[0] == "goto":
        return f"Terminator.Goto {number(value[1])}"
    if value[0] == "switch":
        _, local, tested, then, other = value
        return f"Terminator.Switch {number(local)} {tested % 2 ** 64} {tested >> 64} {number(then)} {number(other)}"
    return "Terminator.Unreachable"


def wanted(body):
    """The answer of a lowering."""
    if body.refusal:
        return "refusal (record {{ number = {}; pattern = {}; reason = {} }})".format(*body.refusal)
    other = "None" if body.other is None else f"(Some {number(body.other)})"
    return f"lowers_to {number(body.then)} {other} {content(body)} {row_of(body.visits)}"


def content(body):
    """The whole content of a listing."""
    return (f"(record {{ terminators = {row_of(map(terminator, body.terminators))}; lines = {row_of(map(line, body.created))}; "
            f"locals = {row_of(map(word, body.locals))} }})")


def label_of(name):
    """The name of a corner's row; `constant_row` is a definition that the rows are computed by."""
    return "the_constant_row" if name == "constant" else name + "_row"


def rows(names):
    """A declaration for each corner."""
    for name, image in CORNERS:
        data = image.encode()
        if name not in names:
            continue
        m = decode(data)
        label = label_of(name)
        type_ = root_type(m, len(m.patterns) - 1)
        print(f"abbrev {label} : Row\n{label} = record {{ image = {byte_list(data)}; ty = {type_}; wanted = {wanted(lower(m, len(m.patterns) - 1))} }}\n")


def small(name, image):
    """A corner whose answer is that of the walk, and that is no long computation."""
    data = image.encode()
    if broken(data) or len(data) > SMALL:
        return False
    m = decode(data)
    return root_type(m, len(m.patterns) - 1) is not None and name not in PROVED


def value(of):
    """A value, in judged.py's notation; a tuple that begins with a number is a variant too."""
    if isinstance(of, bool):
        return f"Bool' {str(of).lower()}"
    if isinstance(of, int):
        return f"Int (pos {of})" if of >= 0 else f"Int (negsuc {-1 - of})"
    if isinstance(of, str):
        return f"Char {ord(of)}"
    if isinstance(of, bytes):
        return f"Reference (Str {row_of(of)})"
    word, *parts = of[1:] if of[0] == "of" else of
    if word == "ref":
        return f"Reference ({value(parts[0])})"
    fields = "no_more"
    for field in reversed(parts):
        fields = f"(more ({value(field)}) {fields})"
    return f"Adt {word} {fields}" if isinstance(word, int) else f"{word.capitalize()} {fields}"


def held(of):
    """What a local holds: a value, or a reference to a part of local 0."""
    if isinstance(of, tuple) and of[0] in ("by ref", "by mut"):
        return f"refers_to {'true' if of[0] == 'by mut' else 'false'} {place((0, of[1]))}"
    return f"value ({value(of)})"


def tried(row, answer, of, bound):
    """A value, with what is wanted of it."""
    if answer == "stranger":
        return f"not_of_type ({value(of)})"
    if answer == "unmatched":
        return f"unmatched ({value(of)}) to_else"
    then = [dict(bound).get(binding, ("tuple",)) for binding in range(len(row.locals))]
    pairs = row_of(f"record {{ binding = {binding}; what = {held(what)} }}" for binding, what in bound)
    return f"matched ({value(of)}) {pairs} (to_then {row_of(map(held, then))})"


def judged_rows(rows_):
    """A declaration for each row on fit, meaning and run."""
    for row in rows_:
        label = label_of(row.name)
        print(f"abbrev {label} : Judgement\n{label} = record {{ image = {byte_list(row.image.encode())}; holds = true; ty = {row.place}; locals = {row_of(row.locals)}; "
              f"fit = {str(row.fit).lower()}; tried = {row_of(tried(row, *of) for of in row.tried)} }}\n")


def param_rows():
    """A declaration for each corner on parameters."""
    for name, m, receiver, params, values in PARAM_CORNERS:
        body = lower_params(m, receiver, params)
        locals_ = row_of(ABSENT if local is None else local for local in body.binding_locals)
        answer = f"accepted_params {number(body.then)} {locals_} {content(body)} {row_of(body.visits)}"
        if binds_again(m, receiver, [p for p, _ in params]):
            answer = f"refused_params (record {{ number = 1; pattern = {ABSENT}; reason = 0 }})"
        me = f"Some ({number(receiver[0])[1:-1]}, {receiver[1]})" if receiver else "None"
        listed = row_of(f"record {{ pattern = {p}; ty = {type_} }}" for p, type_ in params)
        label = label_of(name)
        given = f"values = {row_of(map(value, values))}; fit = {'false' if name in UNFIT else 'true'}"
        print(f"abbrev {label} : ParamsRow\n{label} = record {{ image = {byte_list(m.encode())}; self = {me}; params = {listed}; wanted = {answer}; {given} }}\n")


def differs(kind):
    """A file is not what is printed for it."""
    printed = io.StringIO()
    with contextlib.redirect_stdout(printed):
        print_file(kind)
    path = Path(__file__).resolve().parent.parent / "crates" / f"{FILES[kind]}.antt"
    return printed.getvalue().split() != path.read_text().split()


def main():
    """Prints a file, or checks all."""
    if sys.argv[1] != "--check":
        print_file(sys.argv[1])
    elif wrong := [f"crates/{FILES[kind]}.antt" for kind in FILES if differs(kind)]:
        sys.exit(f"not what samples/corner_theorems.py prints: {', '.join(wrong)}")


def print_end(modules, present, opened, answer, row="Row"):
    """Prints the list of the rows, and the theorem."""
    unfolded = " ".join(names for _, _, names in modules)
    print(f"abbrev pub rows : List {row}\nrows = {row_of(present)[1:-1]}\n")
    print("-- each row's image comes to the answer that is wanted")
    print(f"pub as_wanted : map (λ (row : {row}). {answer}) rows ≡ map (λ (row : {row}). row.wanted) rows")
    print(f"unfolding {unfolded} {opened}\nas_wanted = refl")


def uses(modules):
    """The lines that name the modules."""
    return "\n".join(f"use Rattle.{crate}.specs.{module}.{{{', '.join(names.split())}}}" for crate, module, names in modules)


def print_file(kind):
    """Prints a file."""
    if kind == "params":
        print_params()
        return
    if kind in JUDGED:
        print_judged(*JUDGED[kind])
        return
    proved = kind == "proved"
    names = PROVED if proved else [name for name, image in CORNERS if small(name, image)]
    present = [label_of(name) for name, _ in CORNERS if name in names]
    what = "The corners of pattern_matching.rs that document 01 marks [P]" if proved else "Further corners"
    first = "use Rattle.std.specs.Prelude.{Some, None}"
    print(HEAD.format(what=what, has="an image, the type of local 0", first=first, uses=uses(MODULES), own=AUDIT))
    rows(names)
    print_end(MODULES, present, "start_state start answer_by", "answer_by lowering row.image row.ty")


def print_params():
    """Prints the file on parameters."""
    first = """use mathlib.Core.Bool.{true, false}
use lib.IntN.{pos}
use Rattle.std.specs.Prelude.{Some, None}
use Rattle.meaning.specs.Values.{Value, Int, Tuple, Adt, no_more, more}"""
    own = """use Rattle.param_runs.specs.Returned.{own_local}
use Rattle.param_runs.specs.Through.{plain, pattern_fits, param_fits, params_fit, all_fit, params_bound}
use Rattle.param_runs.specs.Corner.{params_start, unbound, corner_answer, ParamsAnswer, accepted_params, refused_params, ParamsRow, corner_fits}"""
    print(HEAD.format(what="The corners of document 01 on parameters", has="an image, self, the parameters", first=first, uses=uses(MODULES + PARAM_MODULES + FIT_MODULES), own=own))
    param_rows()
    present = [label_of(corner[0]) for corner in PARAM_CORNERS]
    print_end(MODULES + PARAM_MODULES, present, "params_start unbound corner_answer", "corner_answer row.image row.self row.params", "ParamsRow")
    tables = [module for module in MODULES if module[0] == "image"]
    unfolded = " ".join(names for _, _, names in tables + FIT_MODULES)
    print("\n-- whether the parameters fit the values beside them, as the theorem on runs asks")
    print("pub fit_as_said : map corner_fits rows ≡ map (λ (row : ParamsRow). row.fit) rows")
    print(f"unfolding {unfolded} Rattle.meaning.specs.Typing.variant_fields own_local plain pattern_fits param_fits params_fit all_fit params_bound corner_fits\nfit_as_said = refl")


def print_judged(what, rows_):
    """Prints a file on fit, meaning and run."""
    print(f"""-- Whether patterns fit, what they match and bind, and where a run comes, computed from the images' bytes: {what}. What is wanted was written by hand in
-- samples/judged.py, from which samples/corner_theorems.py writes the rows out. Assumes nothing.
use Prim.Native.Nat.{{ℕ}}
use mathlib.Core.Path.{{◌≡◌, refl}}
use mathlib.Core.Bool.{{true, false}}
use mathlib.Core.List.{{List, [], ◌∷◌, map}}
use lib.IntN.{{pos, negsuc}}
use Rattle.place.specs.declared.elems.ProjectionElem.{{ProjectionElem}}
use Rattle.meaning.specs.Values.{{Value, Int, Bool', Char, Str, Tuple, Adt, Reference, Array, Slice, no_more, more}}
use Rattle.meaning.specs.Running.{{Held, value, refers_to}}
use Rattle.meaning.specs.Matching.{{Bound}}
use Rattle.audit.specs.Started.{{start_state, start}}
use Rattle.audit.specs.Judged.{{to_then, to_else, not_of_type, unmatched, matched, Judgement, try, judged}}
""")
    judged_rows(rows_)
    lowered = [f"Rattle.{crate}.specs.{module}.{name}" for crate, module, names in MODULES for name in names.split()]
    meant = [f"Rattle.{module}.{name}" for module, names in MEANING.items() for name in names.split()]
    print(f"abbrev pub rows : List Judgement\nrows = {row_of(label_of(row.name) for row in rows_)[1:-1]}\n")
    print("-- each row's answers, computed anew, are those that are wanted")
    print("pub as_judged : map judged rows ≡ rows")
    print(f"unfolding {' '.join(lowered + meant)} start_state start try judged\nas_judged = refl")


if __name__ == "__main__":
    main()
