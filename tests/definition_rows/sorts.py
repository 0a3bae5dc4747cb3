"""The sorts of rows: where each comes from and what it imports.

If modules of the crates are rearranged, this is the place to follow.
"""
import collections
import dataclasses
import pathlib
import subprocess
from collections.abc import Callable

from . import computed
from .readers import READ, reader_row
from .terms import ERRORS, KINDS, NAMES, SETTINGS
from .words import WORDED, word_rows

PROJECT = pathlib.Path(__file__).resolve().parent.parent.parent

# what every sort of rows imports, and what each does beside what the prover opens for it
IMPORTS = """\
use Rattle.std.specs.Prelude.{ℕ, ◌≡◌, refl, true, false, List, [], ◌∷◌}
use Rattle.wat.specs.declared.Sign.TheVariants as sign
use Rattle.wat.specs.declared.FloatKind.TheVariants as float
use Rattle.wat.specs.declared.TokenKind.TheVariants as kind
use Rattle.wat.specs.declared.LexError.TheVariants as error
"""

LEX_IMPORTS = """\
use Rattle.wat.specs.Answers as answer
use Rattle.wat.specs.Settings.{plain, lenient}
use Rattle.wat.specs.Faults.{fault}
"""
UTF8_IMPORTS = "use Rattle.std.specs.Prelude.{Ok}\nuse Rattle.wat.specs.Checked.{Bad}\n"
NUMBER_IMPORTS = """\
use Rattle.wat.specs.declared.Refusal.TheVariants as refusal
use Rattle.wat.specs.Cases.{kind_number, error_number, number, list_full}
"""
MESSAGE_IMPORTS = """\
use Rattle.std.specs.Prelude.{replicate, Ok, Err}
use Rattle.wat.specs.declared.Refusal.TheVariants as refusal
"""
LINE_IMPORTS = "use Rattle.std.specs.Prelude.{Bool}\n"
RECORD_IMPORTS = "use Rattle.wat.specs.Division.{records}\n"
READER_IMPORTS = """\
use Rattle.wat.specs.declared.Refusal.TheVariants.{Lexical}
use Rattle.wat_values.specs.declared.FloatPart.TheVariants as the
use Rattle.wat_values.specs.Answered as reading
use Rattle.wat_values.specs.declared.NameKind.TheVariants as whose
use Rattle.wat_values.specs.Named as named
use Rattle.wat.specs.Numbers.{Digits, Signed, Fraction, Exponent}
use Rattle.wat_values.specs.Values.{Reader, Sigil, Takes, part, copy, absent, refused, Name, Reads}
use Rattle.wat_values.specs.Reading.{found, needs, Read, ReadsName}
use Rattle.evidence.specs.Evidence as evidence
"""
WORD_IMPORTS = """\
use lib.Dec.{lit<, lit≤}
use Rattle.wat_values.specs.IntegerValue as value
use Rattle.wat.specs.Numbers.{Signed}
use Rattle.wat.specs.Strings.{Hex}
use Rattle.wat_values.specs.Integers.{radix, Num, Word, IntegerWord, Worded, out_of_range_number}
use Rattle.evidence.specs.Evidence as evidence
"""

# the functions that the prover opens, by module: those that rows name, and what they compute with
LEX_OPENED = {
    "wat.specs.Bytes": "between has",
    "wat.specs.Numbers": "digit marks",
    "wat.specs.NumberModel": "classify run strip after_dot fraction sign_of after_sign exponent at_end then decide"
    " finite is nothing_left payload unsigned",
    "wat.specs.Utf8": "scalar table",
    "wat.specs.Utf8Model": "front",
    "wat.specs.Chars": "idchar letter space newline punctuation confusing control is_scalar",
    "wat.specs.Strings": "escapes",
    "wat.specs.StringModel": "peek hex_of digits encode close_by number_by first_by brace_by second_by escape_by hides read_by"
    " read",
    "wat.specs.RunModel": "body walk",
    "wat.specs.CommentModel": "opens ends",
    "wat.specs.LexModel": "family count word whole quoted_kind run_kind kind_of hidden comment lex",
}
UTF8_OPENED = {"wat.specs.Utf8": "table", "wat.specs.Utf8Model": "front scan checked"}
MESSAGE_OPENED = {
    "wat.specs.Bytes": "between has",
    "wat.specs.Chars": "is_scalar confusing",
    "messages.specs.Messages": "named",
    "messages.specs.Spelled": "hex_by hex shown lead",
    "messages.specs.MessageModel": "known showable tellable rest message fitted answer",
}
PLACE_OPENED = {
    "wat.specs.Bytes": "has",
    "wat.specs.Chars": "newline",
    "wat_lines.specs.LineEnds": "begins",
    "place.specs.PlaceModel": "next_column kept after moved",
}
LINE_OPENED = {"wat_lines.specs.LineEnds": "begins line_ends ends_in_return"}
READER_OPENED = {
    "wat.specs.Bytes": "between has",
    "wat.specs.Numbers": "digit marks",
    "wat.specs.Utf8": "scalar table",
    "wat.specs.Utf8Model": "front scan checked",
    "wat.specs.Chars": "idchar control",
    "wat.specs.Strings": "escapes",
    "wat_values.specs.Values": "copy_or_part copied bare",
}
WORD_OPENED = {"wat_values.specs.IntegerModel": "digit_value amount"}


@dataclasses.dataclass
class Sort:
    """Rows of one sort: how many there are by default, where they come from, what they need, and what is counted."""

    name: str
    option: str
    rows: int
    help: str
    # what makes a row of a line, by the oracle's name for such lines
    of_line: dict
    imports: str
    opened: dict
    # the answers and the columns that are counted
    answers: list
    columns: list = dataclasses.field(default_factory=lambda: [""])
    needs: str = "wat"
    # rows that are none of the oracle's: so many, by a seed
    more: Callable = lambda count, seed: []
    # whether rows are equations, which the prover computes so many at a time; else each is a statement with its proof
    computed: bool = True
    per_table: int = 100
    # the type of an equation's sides, where the prover does not see it
    sides: str = ""

    def rows_of_the_original(self, count, seed):
        rows = []
        for name, of_line in self.of_line.items():
            command = ["cargo", "run", "--quiet", "--release", "--offline", "--", "rows", name]
            command += ["--rows", str(count), "--seed", str(seed)]
            run = subprocess.run(command, cwd=PROJECT / "tests/oracle", check=True, stdout=subprocess.PIPE, text=True)
            rows += map(of_line, run.stdout.splitlines())
        return rows + self.more(count, seed)

    def table(self, index, rows):
        """The model's answers, the original's, and that computing makes them the same; or a statement and its proof."""
        opening = f"unfolding {' '.join(self.opened.values())}\n" if self.opened else ""
        if not self.computed:
            return f"\ntable-{index} : {rows[0].left}\n{opening}table-{index} = {rows[0].right}\n"
        left = "".join(f"    {row.left} ∷\n" for row in rows)
        right = "".join(f"    {row.right} ∷\n" for row in rows)
        equal = f"◌≡◌ {{A = List ({self.sides})}}" if self.sides else "◌≡◌"
        return f"\ntable-{index} : {equal} (\n{left}    []) (\n{right}    [])\n{opening}table-{index} = refl\n"

    def head(self):
        uses = [f"use Rattle.{module}.{{{', '.join(names.split())}}}\n" for module, names in self.opened.items()]
        return "-- Answers of the original.\n" + IMPORTS + self.imports + "".join(uses)

    def print_counts(self, rows):
        counts = collections.Counter((row.answer, row.column) for row in rows)
        print(f"{self.name:32}{''.join(f'{column:>9}' for column in self.columns)}".rstrip())
        for answer in self.answers:
            print(f"{answer:32}{''.join(f'{counts[answer, column]:>9}' for column in self.columns)}")


TOKENS = [f"{number} {name}" for number, name in KINDS.items()]
FAULTS = [f"{number} {name}" for number, (name, _) in ERRORS.items() if number not in NAMES]
SORTS = [
    Sort(
        name="lex",
        option="--rows",
        rows=20_000,
        help="texts for lex",
        of_line={"lex": computed.lex_row},
        imports=LEX_IMPORTS,
        opened=LEX_OPENED,
        answers=["end", *TOKENS, *FAULTS],
        columns=[*SETTINGS],
    ),
    Sort(
        name="utf8",
        option="--utf8-rows",
        rows=4_000,
        help="byte strings for checked",
        of_line={"utf8": computed.utf8_row},
        imports=UTF8_IMPORTS,
        opened=UTF8_OPENED,
        answers=["UTF-8", *(f"not UTF-8, error length {length}" for length in range(4))],
    ),
    Sort(
        name="numbers",
        option="--number-rows",
        rows=3_000,
        help="errors whose number is asked, beside every kind and refusal",
        of_line={"kinds": computed.kind_row, "errors": computed.error_row},
        imports=NUMBER_IMPORTS,
        opened={},
        answers=["kinds", "errors", "refusals"],
        more=lambda count, seed: computed.refusal_rows(),
        sides="ℕ × List ℕ",
    ),
    Sort(
        name="messages",
        option="--message-rows",
        rows=3_000,
        help="errors whose message is asked",
        of_line={"messages": computed.message_row},
        imports=MESSAGE_IMPORTS,
        opened=MESSAGE_OPENED,
        answers=["a message", "34, none", "32, too short a buffer"],
        needs="wat messages",
    ),
    Sort(
        name="places",
        option="--place-rows",
        rows=3_000,
        help="moves of the place counter",
        of_line={"places": computed.place_row},
        imports="",
        opened=PLACE_OPENED,
        answers=["a place", "35, past the limit"],
        columns=["other", "cr"],
        needs="wat wat_lines place",
    ),
    Sort(
        name="lines",
        option="--line-rows",
        rows=1_000,
        help="bytes whose line ends are counted",
        of_line={},
        imports=LINE_IMPORTS,
        opened=LINE_OPENED,
        answers=computed.LINE_ENDS,
        columns=["other", "cr"],
        needs="wat wat_lines",
        more=computed.line_end_rows,
        sides="ℕ × Bool",
    ),
    Sort(
        name="records",
        option="--record-rows",
        rows=3_000,
        help="texts whose records are asked",
        of_line={"records": computed.record_row},
        imports=RECORD_IMPORTS,
        opened={},
        answers=computed.RECORDED,
    ),
    Sort(
        name="readers",
        option="--reader-rows",
        rows=4_000,
        help="tokens that readers read",
        of_line={"readers": reader_row},
        imports=READER_IMPORTS,
        opened=READER_OPENED,
        answers=READ,
        columns=["part", "copy", "absent", "22", "23", "24", "31"],
        needs="wat wat_values evidence",
        computed=False,
        per_table=1,
    ),
    Sort(
        name="words",
        option="--word-rows",
        rows=2_000,
        help="integer literals whose word of some bits is asked",
        of_line={},
        imports=WORD_IMPORTS,
        opened=WORD_OPENED,
        answers=WORDED,
        columns=["word", "0x word", "40", "0x 40"],
        needs="wat wat_values evidence",
        more=word_rows,
        computed=False,
        per_table=1,
    ),
]

