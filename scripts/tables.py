"""Writes all that follows from the tables of crate paper (Words, Classes, Frames, Grammar): what proofs compute with, and the tables of the code. The
proofs hold each to the definitions; they take nothing on trust.

  python3 scripts/tables.py            writes the files (from the repository's root)
  python3 scripts/tables.py --check    says which files are not as it would write them; status 1 if there is one
"""
import os
import re
import sys

from grammar import CLASSES, EMPTY, FRAMES, TAKES, completions, follow, heads, numbers, text, words

MADE_BY = "Made by scripts/tables.py."


def plain(name):
    """The name of a frame or class in words."""
    return name.removeprefix("want_").replace("_", " ")


def constant(name):
    """The name of a frame or class as a constant's."""
    return name.removeprefix("want_").upper()


def consed(items):
    """A list as antt writes it."""
    return " ∷ ".join([*items, "[]"])


def stacked(items):
    """A list as antt writes it, an item to a line."""
    return "\n    ∷ ".join([*items, "[]"])


# ---- paper: Open


def opened():
    files = "Bytes Words Tokens Constants Names Items Machine Grammar Line WellFormed Listing Errors Store Calls Direct Batch Examine Files Collect Weigh Hex".split()
    out = f"-- Bundles: to unfold one is to unfold all that its line names. For proofs that compute. ({MADE_BY})\n"
    for f in files:
        out += f"use Rattle.paper.specs.{f} as {f}'\n"
    for f in files:
        names = re.findall(r"^ *unfoldable pub (\S+)", text(f), re.M)
        out += f"\nunfoldable pub all_{f} : Unit {{0}}\nunfolding " + " ".join(f"{f}'.{n}" for n in names) + f"\nall_{f} = tt\n"
    return out + "\nunfoldable pub everything : Unit {0}\nunfolding " + " ".join("all_" + f for f in files) + "\neverything = tt\n"


# ---- laws: Counts


def counts():
    return f"""-- How many there are. ({MADE_BY})
use Rattle.std.specs.Prelude.{{ℕ}}

-- classes of items
abbrev pub class_count : ℕ
class_count = {len(CLASSES)}

-- frames
abbrev pub frame_count : ℕ
frame_count = {len(FRAMES)}
"""


# ---- grounds: FrameTables, and the proofs WordReads


def frame_tables():
    completion, head, after = completions(), heads(), follow()

    def in_order(classes):
        return consed(sorted(classes, key=lambda c: CLASSES.get(c, 999)))

    used = {c for f in FRAMES for c in [*TAKES[f], *after[f], *completion[f], *head[f]]} - {"none"}
    return f"""-- For each frame, in the order of their numbers, what the tests over the grammar need. ({MADE_BY})
use Rattle.std.specs.Prelude.{{ℕ, List, [], ◌∷◌, get_or}}
use Rattle.paper.specs.Classes.{{{", ".join(c for c in CLASSES if c in used)}}}
use Rattle.grounds.specs.Viable.{{Info, none}}

-- an entry of the table
unfoldable pub info : List ℕ → List ℕ → Info
info w h = record {{ word = w; heads = h }}

-- a short word that completes it, and the classes that may then come first under it
unfoldable pub infos : List Info
infos =
    {stacked(f"info ({consed(completion[f])}) ({in_order(head[f])})" for f in FRAMES)}

-- the classes that it takes
unfoldable pub firsts_table : List (List ℕ)
firsts_table =
    {stacked(f"({in_order(TAKES[f])})" for f in FRAMES)}

-- the classes that may come once it is gone
unfoldable pub follow_table : List (List ℕ)
follow_table =
    {stacked(f"({in_order(after[f])})" for f in FRAMES)}

-- the classes that a frame takes
unfoldable pub firsts : ℕ → List ℕ
firsts f = get_or firsts_table f []

-- the classes that may follow a frame
unfoldable pub follow : ℕ → List ℕ
follow f = get_or follow_table f []
"""


def word_reads():
    read = "record { at = _; is = refl }"

    def operator(word):
        if word.class_ == "unfit":
            return "(λ u. absurd u)"
        if word.spelling in ("<", ">"):
            return f"(λ u ys a p. {'less' if word.spelling == '<' else 'greater'}_reads ys a p)"
        if word.class_ in ("function_of_string", "function_of_number", "string_function"):
            return f"(λ u ys a p. opened _ _ _ _ ys a (λ s. {read}))"
        return f"(λ u ys a p. {read})"

    def statement(word):
        return "(λ u. absurd u)" if word.class_ == "unfit" else f"(λ u ys p. {read})"

    def each(one, table):
        return "\n    ▸ ".join([*map(one, words(table)), "no_more"])

    return f"""-- Each word and symbol of the tables, as it is listed, is read as itself: by computing, with any text after it. ({MADE_BY})
use Rattle.std.specs.Prelude.{{refl}}
use Rattle.paper.specs.Bytes.{{among}}
use Rattle.paper.specs.Words.{{operators, statements}}
use Rattle.paper.specs.Open.{{all_Bytes, all_Words, all_Tokens, all_Items, all_Listing}}
use Rattle.grounds.specs.WordReading.{{read_tokens, after, Each, no_more, ◌▸◌, OperatorReads, opened, less_reads, greater_reads, after_statement, StatementReads}}

-- operators and functions
pub operators_read : Each OperatorReads operators
unfolding OperatorReads after among all_Bytes all_Words all_Tokens all_Items all_Listing read_tokens
operators_read =
    {each(operator, "operators")}

-- statement words
pub statements_read : Each StatementReads statements
unfolding StatementReads after_statement all_Bytes all_Words all_Tokens all_Items all_Listing read_tokens
statements_read =
    {each(statement, "statements")}
"""


# ---- tokens: the classes as constants


def class_constants():
    remarks = {m[2]: m[1] for m in re.finditer(r"^-- (.*)\nabbrev pub (\w+) :", text("Classes"), re.M)}
    out = f"// The classes of items, numbered as the definitions number them: all that the grammar tells apart. ({MADE_BY})\n"
    out += "// Stays numbers and no enum: the definitions number the classes, and the grammar adds a class to the place of a row to find its entry.\n"
    for name, number in CLASSES.items():
        said = remarks.get(name)
        out += f"\n// {said[0].upper()}{said[1:]}.\n" if said else "\n"
        out += f"pub const {constant(name)}: u8 = {number};\n"
    return out


# ---- tokens: the numbers of tokens as patterns


def token_names(kind):
    """The name of each constant of a kind of token, by its number."""
    found = re.findall(rf"pub const (\w+): {kind}Token = {kind}Token\((0x\w+)\);", open("crates/tokens/src/lib.rt").read())
    return {int(number, 16): name for name, number in found}


OPERATORS = token_names("Operator")


def token_numbers():
    fit = [w.token for w in words("operators") if w.class_ != "unfit"]
    placed = [w.token for w in words("placed_operators")]
    kinds = {"Statement": [w.token for w in words("statements")], "Operator": [0x16, 0x9B, *fit, *placed], "Function": fit}
    out = f"// The numbers of tokens for patterns, where a field of a constant cannot stand. ({MADE_BY})\n"
    for kind, tokens in kinds.items():
        out += f"\npub(crate) mod {kind.lower()} {{\n    use crate::{kind}Token;\n"
        for number, name in sorted(token_names(kind).items()):
            if number in tokens:
                out += f"\n    pub(crate) const {name}: u8 = {kind}Token::{name}.0;\n"
        out += "}\n"
    return out


# ---- tokens: the proofs of the classes of words

FIT = {
    "statement": [w.token for w in words("statements") if w.class_ != "unfit"],
    "operator": sorted([0x16, 0x9B] + [w.token for w in words("operators") if w.class_ != "unfit"]),
}


def fit_tokens():
    out = f"-- The tokens of other classes than unfit, the last first. ({MADE_BY})\nuse Prim.Native.Nat.{{ℕ}}\nuse mathlib.Core.List.{{List, [], ◌∷◌}}\n"
    for kind, tokens in FIT.items():
        listed = [f"0x{t:02x}" for t in reversed(tokens)]
        lines = "\n    ∷ ".join(" ∷ ".join(listed[i : i + 16]) for i in range(0, len(listed), 16))
        out += f"\n-- {kind}s\nabbrev pub fit_{kind}s : List ℕ\nfit_{kind}s =\n    {lines} ∷ []\n"
    return out


def goal(name, unfolded, value):
    """The proof of a goal of a function."""
    return f"\npub {name} : goal.{name}\nunfolding {unfolded}\n{name} c = {value}\n"


def class_proof(kind, of, definitions, unfolded, before, otherwise):
    """The proof of the class of a kind of words: of what stands before the match, of an arm for each fit token below, and of the rest."""
    tokens = [t for t in FIT[kind] if t < 0x80]
    goals = [*before, *((f"in-{t}", f"at_key {of} 0x{t:02x} c.in-{t}.is") for t in tokens), ("in_default", otherwise)]
    laws = ", ".join(dict.fromkeys(value.split()[0] for _, value in goals if value.startswith(kind + "_")))
    return f"""-- Each arm of `{kind}_class` says the class of its token's word. ({MADE_BY})
{definitions}
use Rattle.tokens.proofs.Keys.{{at_key}}
use Rattle.tokens.proofs.Classes.{{{laws}}}
use Rattle.tokens.proofs.{kind}_class.Goals as goal
""" + "".join(goal("returns-" + name, unfolded, value) for name, value in goals)


def class_proofs():
    words_file = "use Rattle.paper.specs.Words."
    rest = "c.in_default.in_default-own.rest"
    return {
        "statement": class_proof(
            "statement",
            "(λ (t : ℕ). (word_of statements t).class)",
            f"use Prim.Native.Nat.{{ℕ}}\n{words_file}{{word, statements, word_of}}",
            "word_of statements word",
            [],
            f"statement_else c.args.token.0 {rest}",
        ),
        "operator": class_proof(
            "operator",
            "operator_class",
            "use native.Mathlib.Omega.{arith}\nuse Rattle.paper.specs.Tokens.{operator_class}\n"
            f"{words_file}{{word, read_operators, functions, placed_operators, operators, word_of}}",
            "operator_class word_of operators read_operators functions placed_operators word",
            [
                ("then-token-eq-RAW_END", "at_key operator_class 0x9b c.if-token-eq-RAW_END.true"),
                ("then-token", "operator_past c.args.token c.if-token.true c.if-token-eq-RAW_END.false"),
            ],
            f"operator_else c.args.token ({rest}, λ e. omega arith)",
        ),
    }


# ---- grammar: the rows laid over one another, and what the acts say

LAYOUT = numbers(open("crates/grammar/specs/Tables.antt").read())
FIRST_ACT, PAST_ROWS, NO_ENTRY = LAYOUT["first_act"], LAYOUT["past_rows"], LAYOUT["no_entry"]
GIVEN = {"itself": 0, "for_strings": 1, "as_prefix": 2}


def lay(refusing):
    """Where the row of each frame begins, and the frame of each entry by its place. Long rows are laid first; the rows of frames that refuse what they do
    not take begin at `refusing` or later, those of the others before."""
    first, entries = {}, {}
    for frame in sorted(FRAMES, key=lambda f: (-len(TAKES[f]), FRAMES[f])):
        places = [CLASSES[c] for c in TAKES[frame]]
        same = [f for f in first if TAKES[f] == TAKES[frame] and (f in EMPTY) == (frame in EMPTY)]
        begin = 0 if frame in EMPTY else refusing
        while begin in first.values() or any(begin + c in entries for c in places):
            begin += 1
        first[frame] = first[same[0]] if same else begin
        entries.update({} if same else {begin + c: frame for c in places})
    return first, entries


def fits(refusing):
    """Do all rows of frames that leave what they do not take begin before `refusing`."""
    return all(lay(refusing)[0][f] < refusing for f in EMPTY)


REFUSING = min(filter(fits, range(PAST_ROWS)), key=lambda n: max(lay(n)[1]))
FIRSTS, ENTRIES = lay(REFUSING)
PLACES = range(max(ENTRIES) + 1)
assert max(PLACES) < PAST_ROWS and PAST_ROWS + len(CLASSES) < 256, "a place is a byte"
assert len(CLASSES) <= NO_ENTRY >> 8 and len(FRAMES) <= 64, "too many classes or frames"

# the acts, in the order of their bytes: (wants, gives)
ACTS = sorted({act for row in TAKES.values() for act in row.values()}, key=lambda act: (len(act[0]), [FRAMES[w] for w in act[0]], GIVEN.get(act[1], act[1])))
assert FIRST_ACT + len(ACTS) <= 0x7F, "an act is a byte that can be written"
assert all(len(wants) <= 9 for wants, _ in ACTS), "a row may want nine frames: let one of them want the others"
BYTES = {act: FIRST_ACT + i for i, act in enumerate(ACTS)}


def written(byte):
    """A byte as a string has it."""
    return "\\\\" if byte == ord("\\") else chr(byte)


def entry(place):
    """The class and the act of an entry."""
    frame = ENTRIES[place]
    of = list(CLASSES)[place - FIRSTS[frame]]
    return of, TAKES[frame][of]


def with_n(frames):
    """Names of frames with N in the place of a term and more terms, as the grammar writes them."""
    return " ".join(frames).replace("want_operand want_more_terms", "N").split()


def wanted(names):
    """A list of such names as the grammar writes it."""
    if not names:
        return "[]"
    rest = wanted(names[1:])
    return f"{names[0]} ∷ {rest}" if names[0] != "N" else f"N ({rest})" if names[1:] else "N []"


def act_term(act):
    """An act as its table has it."""
    frames, gives = act
    given = gives if gives in GIVEN else f"(put 0x{gives:02x})"
    return f"act {given} ({wanted(with_n(frames))})" if frames else f"act {given} []"


def row_tables():
    listed = [str(FIRSTS[f]) for f in FRAMES]
    lines = "\n    ∷ ".join(" ∷ ".join(listed[i : i + 12]) for i in range(0, len(listed), 12))
    classes = "".join(written(48 + CLASSES[entry(p)[0]]) if p in ENTRIES else "~" for p in PLACES)
    acts = "".join(written(BYTES[entry(p)[1]]) if p in ENTRIES else "." for p in PLACES)
    acts_as_terms = [act_term(act) for act in ACTS]
    named = {name for term in acts_as_terms for name in re.findall(r"\w+", term)}
    return f"""-- The rows of the grammar's frames, laid over one another, and the words of their acts. ({MADE_BY})
use Rattle.std.specs.Prelude.{{ℕ, List, [], ◌∷◌, map}}
use Rattle.paper.specs.Bytes.{{bytes}}
use Rattle.paper.specs.Frames.{{{", ".join(f for f in FRAMES if f in named)}}}
use Rattle.paper.specs.Grammar.{{itself, for_strings, as_prefix, put, N}}
use Rattle.grammar.specs.Tables.{{laid, Wanting, act, word, rest}}

-- the rows of the frames that leave what they do not take begin before this place, those of the others here or later
abbrev pub refusing : ℕ
refusing = {REFUSING}

-- where the row of each frame begins
unfoldable pub firsts : List ℕ
firsts =
    {lines} ∷ []

-- for each place the class, and what the frame whose row it is does with its items
unfoldable pub entries : List ℕ
entries =
    laid
    (bytes "{classes}")
    (bytes "{acts}")

-- the acts, in the order of their bytes
unfoldable pub acts : List Wanting
acts =
    {stacked(acts_as_terms)}

-- the word of each, and the rest
unfoldable pub words : List ℕ
words = map word acts

unfoldable pub rests : List ℕ
rests = map rest acts
"""


def frames_word(frames):
    """Two hexadecimal digits for each frame but for a ninth."""
    return "0x" + "_".join(f"{FRAMES[f]:02x}" for f in frames[-8:])


def rest_digits(frames):
    """Two octal digits for the ninth frame, where there is one, and two for how many there are."""
    ninth = f"{FRAMES[frames[0]]:02o}_" if len(frames) == 9 else ""
    return f"0o{ninth}{len(frames):02o}"


def given_rest(act):
    """The name of the rest of an act that gives another token, and the rest."""
    frames, gives = act
    name = "_THEN_".join([OPERATORS[gives]] + ["_".join(map(constant, with_n(frames)))] * bool(frames))
    return name, f"{rest_digits(frames)}_00", f"OperatorToken::{OPERATORS[gives]}.0 as u32"


def has_word(act):
    """Is the word of an act other than 0, as any number's is that is no act."""
    return any(FRAMES[f] for f in act[0])


def word_arm(act):
    """What `word_of` says of an act, and in words what it wants."""
    return f"{frames_word(act[0])}, // {', '.join(plain(f) for f in with_n(act[0]))}"


def rest_arm(act):
    """What `rest_of` says of an act, and in words what it gives."""
    frames, gives = act
    return f"{rest_digits(frames)}_{GIVEN[gives]:02o}, // {plain(gives)}" if gives in GIVEN else f"{given_rest(act)[0]},"


def code():
    firsts = "".join(f"        {FRAMES[f]} => {FIRSTS[f]}, // {plain(f)}\n" for f in FRAMES)
    entries = ""
    for p in sorted(ENTRIES):
        of, act = entry(p)
        entries += f"        {p} => 0x{CLASSES[of]:02x}_{BYTES[act]:02x}, // {plain(ENTRIES[p])}: {plain(of)}\n"
    givens = ""
    for name, frames, token in (given_rest(act) for act in ACTS if act[1] not in GIVEN):
        line = f"const {name}: u32 = {frames} + {token};"
        givens += "\n" + (line if len(line) <= 100 else line.replace(" + ", "\n    + ")) + "\n"
    word_arms = "".join(f"        b'{written(BYTES[act])}' => {word_arm(act)}\n" for act in ACTS if has_word(act))
    rest_arms = "".join(f"        b'{written(BYTES[act])}' => {rest_arm(act)}\n" for act in ACTS if act != ((), "itself"))
    return f"""// The rows of the grammar's frames, laid over one another, and the words of their acts. ({MADE_BY})
ghost use Rattle.std.specs.Prelude.{{◌≡◌, ◌-◌, ◌≤◌, slice_index, slice_index_or}};
ghost use Rattle.grammar.specs.Tables.{{no_entry, past_rows, first_act}};
ghost use Rattle.grammar.specs.Rows.{{firsts, entries, words, rests}};

use tokens::OperatorToken;

// The rows of the frames that leave what they do not take begin before this place, those of the others here or later.
pub(crate) const REFUSING: u8 = {REFUSING};

// Where the row of a frame begins among the entries. The entry for a class is as many places further.
pub(crate) fn first_of(frame: u8) -> u8
    ensures {{ result ≡ slice_index_or firsts frame past_rows }}
{{
    match frame {{
{firsts}        _ => {PAST_ROWS},
    }}
}}

// The entry at a place: a class, and what the frame whose row this is does with its items. The rows of the frames lie over one another, so that an
// entry of one stands where others have none. It is a `match`, since a table that is borrowed is laid down anew in each call.
pub(crate) fn entry_at(place: u8) -> u16
    ensures {{ result ≡ slice_index_or entries place no_entry }}
{{
    match place {{
{entries}        _ => 0x{NO_ENTRY >> 8:02x}_{NO_ENTRY & 0xFF:02x},
    }}
}}

// The word of an act: two hexadecimal digits for each frame that it wants, from the top of the stack down, but for a ninth.
pub(crate) fn word_of(act: u8) -> u64
    requires {{ first_act ≤ act }}
    ensures {{ result ≡ slice_index words (act - first_act) }}
{{
    match act {{
{word_arms}        _ => 0,
    }}
}}

// The rests of acts that give a token of the grammar's own.
{givens.lstrip()}
// The rest of what an act says, in octal: two digits for the ninth frame, two for how many there are, and two for what it gives: 0 for the item's own
// token, 1 for the one for strings, 2 for the prefix one, any other number for that token.
pub(crate) fn rest_of(act: u8) -> u32
    requires {{ first_act ≤ act }}
    ensures {{ result ≡ slice_index rests (act - first_act) }}
{{
    match act {{
{rest_arms}        _ => 0,
    }}
}}
"""


def proof(function, value, keys, otherwise, definitions, unfolded):
    """The proof of a `match` that is a table: the value at each arm's key, and at any other number."""
    minus = ", ◌-◌" if " - " in value("n") else ""
    arms = "".join(goal(f"returns-in-{key}", f"{unfolded} places", f"here c.in-{key}.is") for key in keys)
    return f"""-- Each arm of `{function}` says what the table says at its key. ({MADE_BY})
use Rattle.std.proofs.Common.{{◌≡◌, ℕ{minus}, get_or, sym, ap}}
{definitions}
use Rattle.grammar.proofs.Places.{{places, {otherwise.split()[0]}}}
use Rattle.grammar.proofs.rows.{function}.Goals as goal

here : {{x k : ℕ}} → x ≡ k → {value("k")} ≡ {value("x")}
here e = sym (ap (λ n. {value("n")}) e)
{arms}""" + goal("returns-in_default", f"{unfolded} places", f"{otherwise} c.in_default.in_default-own.rest")


def proofs():
    tables = "use Rattle.grammar.specs.Tables."
    rows = "use Rattle.grammar.specs.Rows."
    return {
        "first_of": proof(
            "first_of",
            lambda n: f"get_or firsts {n} past_rows",
            FRAMES.values(),
            "at_none past_rows firsts c.args.frame",
            f"{tables}{{past_rows}}\n{rows}{{firsts}}",
            "firsts",
        ),
        "entry_at": proof(
            "entry_at",
            lambda n: f"get_or entries {n} no_entry",
            sorted(ENTRIES),
            "at_none no_entry entries c.args.place",
            f"use Rattle.paper.specs.Open.{{all_Bytes}}\n{tables}{{no_entry, laid}}\n{rows}{{entries}}",
            "all_Bytes laid entries",
        ),
        "word_of": proof(
            "word_of",
            lambda n: f"get_or words ({n} - first_act) 0",
            [BYTES[act] for act in ACTS if has_word(act)],
            "at_none_from first_act 0 words c.args.act c.requires",
            f"use Rattle.paper.specs.Grammar.{{N}}\n{tables}{{first_act, act, packed, word}}\n{rows}{{acts, words}}",
            "N act packed word acts words",
        ),
        "rest_of": proof(
            "rest_of",
            lambda n: f"get_or rests ({n} - first_act) 0",
            [BYTES[act] for act in ACTS if act != ((), "itself")],
            "at_none_from first_act 0 rests c.args.act c.requires",
            f"use Rattle.paper.specs.Grammar.{{N}}\n{tables}{{first_act, act, code, packed, rest}}\n{rows}{{acts, rests}}",
            "N act code packed rest acts rests",
        ),
    }


def main():
    made = {
        "crates/paper/specs/Open.antt": opened(),
        "crates/laws/specs/Counts.antt": counts(),
        "crates/grounds/specs/FrameTables.antt": frame_tables(),
        "crates/grounds/proofs/WordReads.antt": word_reads(),
        "crates/tokens/src/class.rt": class_constants(),
        "crates/tokens/src/number.rt": token_numbers(),
        "crates/tokens/proofs/FitTokens.antt": fit_tokens(),
        **{f"crates/tokens/proofs/{kind}_class/Answers.antt": text for kind, text in class_proofs().items()},
        "crates/grammar/specs/Rows.antt": row_tables(),
        "crates/grammar/src/rows.rt": code(),
        **{f"crates/grammar/proofs/rows/{function}/Answers.antt": text for function, text in proofs().items()},
    }
    other = [path for path, made_text in made.items() if not os.path.exists(path) or open(path).read() != made_text]
    if sys.argv[1:] == ["--check"]:
        for path in other:
            print(path, "is not what scripts/tables.py writes")
        sys.exit(1 if other else 0)
    for path in other:
        os.makedirs(os.path.dirname(path), exist_ok=True)
        open(path, "w").write(made[path])
        print(path)


main()
