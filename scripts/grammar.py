"""The tables of crate paper, read from its text: classes, frames, words, and the rows of the grammar. What is read is a list of numbers, names and
rows, which definitions put together: `a ∷ b`, `a ++ b`, and a definition with its arguments."""
import re
from collections import namedtuple

PAPER = "crates/paper/specs/"
Row = namedtuple("Row", "frame class_ gives wants")
Word = namedtuple("Word", "token spelling class_")
MADE = {"row": lambda *parts: Row(*parts), "word": lambda *parts: Word(*parts), "put": lambda token: token}


def text(name):
    return open(PAPER + name + ".antt").read()


def numbers(text):
    """The named numbers of a file's text: name -> number."""
    return {m[1]: int(m[2], 0) for m in re.finditer(r"^(\w+) = (\d\w*)$", text, re.M)}


class Definitions:
    """The definitions of a file, to be read as lists."""

    def __init__(self, name):
        found = re.findall(r"^(?:unfoldable )?pub (\w+) : [^\n]*\n\1([^\n]*?) =(.*?)(?:\n\n|\Z)", text(name), re.M | re.S)
        self.of = {head: (parameters.split(), body) for head, parameters, body in found}

    def value(self, head, *arguments):
        """What a definition gives for its arguments."""
        parameters, body = self.of[head]
        left = re.findall(r'"[^"]*"|\(|\)|∷|\+\+|\[\]|[^\s()]+', body)
        return self.joined(left, dict(zip(parameters, arguments)))

    def joined(self, left, given):
        parts = []
        while left and left[0] not in (")", "∷", "++"):
            parts.append(self.part(left, given))
        value = self.applied(parts)
        sign = left.pop(0) if left and left[0] != ")" else None
        if sign is None:
            return value
        return ([value] if sign == "∷" else value) + self.joined(left, given)

    def part(self, left, given):
        word = left.pop(0)
        if word == "(":
            value = self.joined(left, given)
            left.pop(0)
            return value
        if word == "[]":
            return []
        if word[0] == '"':
            return word[1:-1]
        return int(word, 0) if word[0].isdigit() else given.get(word, word)

    def applied(self, parts):
        if not isinstance(parts[0], str):
            return parts[0]
        head, *arguments = parts
        if head in MADE and arguments:
            return MADE[head](*arguments)
        return self.value(head, *arguments) if head in self.of else head


CLASSES, FRAMES = numbers(text("Classes")), numbers(text("Frames"))
EMPTY = Definitions("Grammar").value("may_be_empty")
ROWS = Definitions("Grammar").value("grammar")
# what each frame takes: class -> the row's wants, and what it gives
TAKES = {f: {r.class_: (tuple(r.wants), r.gives) for r in ROWS if r.frame == f} for f in FRAMES}
assert sum(map(len, TAKES.values())) == len(ROWS), "two rows of one frame for one class, or a row of no frame"
assert all(r.class_ in CLASSES and all(w in FRAMES for w in r.wants) for r in ROWS)
assert all(list(named.values()) == list(range(len(named))) for named in (CLASSES, FRAMES)), "numbers left out, or not in order"


def words(table):
    """The rows of a word table."""
    return Definitions("Words").value(table)


def completions():
    """A short word of classes that completes each frame; the empty one where nothing may come."""
    word = {f: [] for f in EMPTY}
    shorter = True
    while shorter:
        shorter = False
        for f, c, _, wants in ROWS:
            if f not in EMPTY and all(w in word for w in wants):
                longer = sum((word[w] for w in wants), [c])
                if f not in word or len(longer) < len(word[f]):
                    word[f], shorter = longer, True
    return word


def grown(sets, more):
    """Sets of classes by frame, with all that a row adds to those of the frames that it wants."""
    size = -1
    while size != (size := sum(map(len, sets.values()))):
        for row in ROWS:
            for i, w in enumerate(row.wants):
                sets[w] |= more(row.wants[i + 1 :], sets[row.frame])
    return sets


def heads():
    """The classes that may come first once a frame is completed, if every frame under it is completed by its word."""
    word = completions()

    def under(frames, lasts):
        return next(({word[f][0]} for f in frames if word[f]), lasts)

    found = grown({f: {"none"} if f == "want_statement" else set() for f in FRAMES}, under)
    for f in EMPTY:
        assert not found[f] & {"none", *TAKES[f]}, ("a frame that may be empty takes what comes after it", f)
    return found


def follow():
    """The classes that may follow a frame."""

    def after(frames, lasts):
        if not frames:
            return lasts
        return {*TAKES[frames[0]], *(after(frames[1:], lasts) if frames[0] in EMPTY else [])}

    return grown({f: set() for f in FRAMES}, after)
