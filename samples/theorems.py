"""Prints crates/samples/proofs/Samples.antt: the samples as theorems about the definitions.

`python3 samples/theorems.py > crates/samples/proofs/Samples.antt`, then format the file.
"""

import sys
from pathlib import Path

sys.dont_write_bytecode = True

from images import broken

FOLDER = Path(__file__).resolve().parent

HEAD = """-- The samples, computed: which of them are valid, by the definition. The bytes are those of samples/*.img, written out by samples/theorems.py.
-- Assumes nothing.
use Prim.Native.Nat.{ℕ}
use mathlib.Core.Path.{◌≡◌, refl}
use mathlib.Core.Bool.{true, false}
use mathlib.Core.List.{List, [], ◌∷◌}
use Rattle.image.specs.Bytes.{word_at, little_endian}
use Rattle.image.specs.Tables.{tables_of}
use Rattle.image.specs.Rows.{type_at, variant_at, pat_at, binding_at, list_at, operand_at, operand_bytes}
use Rattle.image.specs.Lists.{all_below, all_in, all_true, member, distinct, up_from, gather}
use Rattle.image.specs.Operands.{is_scalar_value, operand_value_holds, operand_holds}
use Rattle.image.specs.Rules.{counts_what_follows, version_is_one, tables_fill_the_rest, listed, types_listed, is_integer_size, adt_may_have, type_shape_holds, type_holds, variants_by, adts_share_no_variant, variant_holds, binding_holds, within_limits}
use Rattle.image.specs.Subpatterns.{if_present, subpatterns_by}
use Rattle.image.specs.Patterns.{path_holds, pattern_shape_holds, pattern_holds, subpatterns_below, used_once}
use Rattle.image.specs.Valid.{valid}
"""

OPENED = (
    "word_at little_endian tables_of type_at variant_at pat_at binding_at list_at operand_at operand_bytes all_below all_in all_true member distinct "
    "up_from gather is_scalar_value operand_value_holds operand_holds counts_what_follows version_is_one tables_fill_the_rest listed types_listed is_integer_size "
    "adt_may_have type_shape_holds type_holds variants_by adts_share_no_variant variant_holds binding_holds within_limits if_present subpatterns_by path_holds "
    "pattern_shape_holds pattern_holds subpatterns_below used_once valid"
)


def byte_list(image):
    """The bytes of an image as a list."""
    return " ∷ ".join(str(byte) for byte in image) + " ∷ []"


def main():
    """Prints the file."""
    print(HEAD)
    for path in sorted(FOLDER.glob("*.img")):
        image = path.read_bytes()
        name = path.stem
        answer = "false" if broken(image) else "true"
        print(f"abbrev pub {name} : List ℕ\n{name} = {byte_list(image)}\n")
        print(f"{name}_valid : valid {name} ≡ {answer}\nunfolding {OPENED}\n{name}_valid = refl\n")


if __name__ == "__main__":
    main()
