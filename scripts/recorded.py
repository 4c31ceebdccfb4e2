"""Writes crates/recorded/specs/Recorded.antt: recorded calls, chosen from those of crates/calls, which `typed`, `list` and `show` of paper must meet.

  python3 scripts/recorded.py      (from the repository's root)

Chosen are: for every row of the grammar that an accepted text of them uses, a short one that uses it; some calls of every answer, to texts with a number and
without, to listings and to `show`; and some whose record disagrees with a sound store. None is longer than is quick to compute with. docs/PROTOCOL.md says what the fields of a call are.
"""
import re
from collections import Counter
from itertools import islice, takewhile

import grammar

LONGEST = 1100  # characters of a call: the time to compute grows with it
EACH_ANSWER = 9
EACH_DIRECT = 3  # of texts without a number, and of `show`
DISAGREEING = 4

STATEMENTS, OPERATORS = ({w.spelling: w.class_ for w in table} for table in (grammar.words("statements"), grammar.words("functions") + grammar.words("read_operators")))


def classes(text):
    """The classes of a line's items after its number, as far as they can be read."""
    rest, first, out = text.lstrip(b" ").lstrip(b"0123456789").decode("latin1"), True, []
    while True:
        rest = rest.lstrip(" ")
        if not rest:
            return out + ["line_end"]
        name = re.match(r"[A-Z][A-Z0-9]*\$?", rest)
        number = re.match(r"(\d+\.?\d*|\.\d+)(E[+-]?\d\d?)?", rest)
        string = re.match('"[^"\x9b]*"', rest)
        if name:
            word = name[0]
            rest = rest[len(word) :]
            if first and word in STATEMENTS:
                of = STATEMENTS[word]
            elif word in OPERATORS:
                of = OPERATORS[word]
            else:
                kind = "string" if word[-1] == "$" else "array" if rest[:1] == "(" else "numeric"
                of = "first_" + kind if first else kind if kind == "array" else kind + "_variable"
            if of == "remark":
                return out + [of, "raw_text", "raw_end"]
        elif number:
            rest, of = rest[number.end() :], "number"
        elif string:
            rest, of = rest[string.end() :], "quoted"
        elif first and rest[0] == "?":
            rest, of = rest[1:], "print_word"
        else:
            symbol = rest[:2] if rest[:2] in OPERATORS else rest[:1]
            rest, of = rest[len(symbol) :], OPERATORS.get(symbol, "unfit")
        out.append(of)
        first = of in ("colon", "then_word")


def rows_used(text):
    """The rows of the grammar that the reading of an accepted text uses."""
    stack, used = ["want_statement"], set()
    for of in classes(text):
        while (stack[0], of) not in TABLE:
            assert stack[0] in grammar.EMPTY, (text, stack, of)
            stack.pop(0)
        used.add((stack[0], of))
        stack = TABLE[stack[0], of] + stack[1:]
    assert stack == [], (text, stack)
    return used


TABLE = {(f, c): ws for f, c, e, ws in grammar.ROWS}


ASKED, ANSWERED = (open(f"crates/calls/{name}", newline="\n").read().split("\n")[:-1] for name in ("stdin", "stdout"))


def without_switch(asked, answer):
    """A call as it was before the switch for wrong lines: without the field of it, if that is 0; None of a call that keeps them."""
    if asked[0] not in ("enter", "batch") or answer == ["bad"]:
        return asked, answer
    return (asked[:-1], answer) if asked[-1] == "0" else None


CALLS = [call for a, b in zip(ASKED, ANSWERED) if (call := without_switch(a.split(" "), b.split(" ")))]


def is_call(call):
    return call[1] != ["bad"]


def of_word(word, recorded):
    return [call for call in recorded if call[0][0] == word]


def text_of(call):
    return bytes.fromhex(call[0][1].replace("-", ""))


def is_direct(call):
    """Whether a call enters a text without a number."""
    return call[0][0] == "enter" and not text_of(call).lstrip(b" ")[:1].isdigit() and text_of(call).strip(b" ") != b""


def size(call):
    return sum(len(field) for field in call[0])


def disagrees(call):
    """Whether the store of a call is sound, and the record's count of lines or greatest number is not that of its lines."""
    store, used, lines, greatest = call[0][6:10]
    store, used, numbers, at = bytes.fromhex(store.replace("-", "")), int(used), [-1], 0
    while at + 6 <= used <= len(store) and 6 <= store[at + 2]:
        numbers.append(store[at] + 256 * store[at + 1])
        at += store[at + 2]
    sound = at == used and all(a < b <= 32767 for a, b in zip(numbers, numbers[1:]))
    return sound and (int(lines), int(greatest)) != (len(numbers) - 1, max(numbers[-1], 0))


def of_each_answer(count, recorded, taken):
    """So many calls of every answer, that are short and not taken yet."""
    answers = Counter()
    for call in recorded:
        if call not in taken and size(call) <= LONGEST and answers[call[1][0]] < count:
            answers[call[1][0]] += 1
            yield call


def chosen():
    """The calls of the table. Texts with a number and listings, but for records that disagree, are chosen from those before the first line that is no call."""
    first, every = list(takewhile(is_call, CALLS)), list(filter(is_call, CALLS))
    entered = [call for call in of_word("enter", first) if not is_direct(call)]
    taken, rows = [], Counter()
    for call in sorted(entered, key=size):
        text = text_of(call)
        if call[1][0] == "0" and text.strip(b" 0123456789"):
            new = rows_used(text)
            if any(not rows[r] for r in new):
                rows.update(new)
                taken.append(call)
    for recorded in (entered, of_word("list", first)):
        taken += list(of_each_answer(EACH_ANSWER, recorded, taken))
    for recorded in (filter(is_direct, every), of_word("show", every)):
        taken += list(of_each_answer(EACH_DIRECT, recorded, taken))
    for word in ("enter", "list"):
        short = (call for call in of_word(word, every) if size(call) <= LONGEST)
        taken += islice((call for call in short if disagrees(call) and call not in taken), DISAGREEING)
    return taken


def quoted(field):
    return '""' if field == "-" else f'"{field}"'


def state(names, size_of_names, count, values, store, used, lines, greatest):
    return f"(state {quoted(names)} {size_of_names} {count} {quoted(values)} {quoted(store)} {used} {lines} {greatest})"


def row(call):
    """A call and its answer as a row of the table. What lists a line buffer is lent no store."""
    asked, answer = call
    if asked[0] == "enter":
        text, before, line = asked[1], state(*asked[2:-1]), asked[-1]
        number, place, end, added, used, lines, greatest, size_of_names, count, names, values, store, line_after = answer
        after = state(names, size_of_names, count, values, store, used, lines, greatest)
        return f"types (hex {quoted(text)}) {before} (hex {quoted(line)}) {number} {place} {end} {added} {after} (hex {quoted(line_after)})"
    if asked[0] == "show":
        what = f"shows (hex {quoted(asked[1])}) {state(*asked[2:-1], '-', 0, 0, 0)}"
    else:
        what = f"lists {asked[1]} {state(*asked[2:-1])}"
    return f"{what} (hex {quoted(asked[-1])}) {answer[0]} {answer[1]} (hex {quoted(answer[2])})"


FILE = "crates/recorded/specs/Recorded.antt"
GROUP = 20
HEAD = """-- Recorded calls, on which two implementations by different hands agree, as a table that `typed`, `list` and `show` meet. (Made by scripts/recorded.py.)
use Rattle.std.specs.Prelude.{ℕ, ◌≡◌, refl, List, [], ◌∷◌}
use Prim.Native.String.{String}
use Rattle.paper.specs.Hex.{hex}
use Rattle.paper.specs.Calls.{State}
use Rattle.paper.specs.Open.{everything}
use Rattle.cases.specs.Answers.{Call, types, lists, shows, same_state, meets, failing}

-- names, their bytes and count, values, store, the bytes used, the count of lines and the greatest number; all bytes in hexadecimal
unfoldable pub state : String → ℕ → ℕ → String → String → ℕ → ℕ → ℕ → State
state ns nb nc vs st u l g = record { names = hex ns; name_size = nb; name_count = nc; values = hex vs; store = hex st; used = u; line_count = l; greatest = g }
"""


def main():
    table = [row(c) for c in chosen()]
    out = HEAD
    for i in range(0, len(table), GROUP):
        n = i // GROUP
        out += f"\nunfoldable pub calls_{n} : List Call\ncalls_{n} =\n    " + "\n    ∷ ".join(table[i : i + GROUP]) + "\n    ∷ []\n"
        out += f"\npub agree_{n} : failing {i} calls_{n} ≡ []\nunfolding everything state same_state meets failing calls_{n}\nagree_{n} = refl\n"
    open(FILE, "w").write(out)
    print(len(table), "calls")


main()
