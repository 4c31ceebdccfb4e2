"""Tries wrong edits of the definitions (crate paper) against the crates that can refuse them, and says which lemma refuses each. (The edits
under crates/NAME/must-fail change one crate alone; these change the definitions and are refused by the cases and theorems about them.)

  python3 scripts/breaks.py [--every N] [--list] [--table] [NAME...]      (from the repository's root; some ten seconds and more for each edit)

Edits are made from the text of the definitions, one at a time, in a copy of the repository under target/breaks; those of BY_HAND are written below.
A NAME picks the edits that contain it, or a kind; --every N each Nth of each kind of those; --list only names them. What an edit came to is kept in
target/breaks.txt, so that a run goes on where the last one stopped, and an edit that was not refused is tried again; --table prints what is kept
there, by kind, and the edits that nothing refuses with the reason of each.
"""
import os
import re
import shutil
import subprocess
import sys

import grammar

COPY, KEPT = "target/breaks", "target/breaks.txt"
CRATES = {"paper": "", "laws": "paper", "grounds": "paper laws", "promises": "paper laws grounds", "requested": "paper laws grounds promises", "cases": "paper", "limits": "paper cases", "recorded": "paper cases", "asked": "paper cases limits"}
# what of cases is tried first on an edit of a file, as it is likely to refuse it
FIRST = {"Grammar": [["Following"]], "Words": [["Kinds"], ["Worked"]]}
# the files of paper that hold theorems; an error in another one is no refusal but an edit that cannot be read
THEOREMS = ["Cases", "MachineLaws"]
# where names that an edit may need come from
HOMES = {"Rattle.std.specs.Prelude": ["leb", "ltb", "◌&&◌", "◌||◌", "true", "false"]}
# why an edit that nothing refuses is no wrong definition
REASONS = {
    r"WellFormed.items_of-": "the places and sizes of a stored line's items are never looked at",
    r"Line.variable_(size-a-number-one-more-2|number-a-number-one-more-[268])$": "what a variable has past the end: its bytes always stand there",
    r"Calls.outcome-": "items that run out before the frames, or frames before the items: neither occurs",
}
FILES = ["Bytes", "Words", "Tokens", "Constants", "Names", "Items", "Machine", "Grammar", "Line", "WellFormed", "Listing", "Store", "Calls", "Direct", "Errors", "Batch", "Examine", "Files", "Collect", "Weigh"]

# kind: [(name, file, text, wrong text)]
BY_HAND = {
    "a wrong definition": [
        ("words_without_blanks", "Listing", "(blank ∷ s ++ blank ∷ []) s", "s s"),
        ("statement_word_without_blank", "Listing", "(word_of statements t).spelling ++ blank ∷ []", "(word_of statements t).spelling"),
        ("constant_one_digit_less", "Constants", "constant_text s = text_of (get_or s 0 0) (digits_of (drop 1 s))", "constant_text s = text_of (get_or s 0 0) (take 9 (digits_of (drop 1 s)))"),
        ("plain_up_to_1E12", "Constants", "(leb 0x3f b && leb b 0x44)", "(leb 0x3f b && leb b 0x45)"),
        ("rounded", "Constants", "(v * 10 ^ u * 100 ^ 53 / (10 ^ d * 100 ^ k))", "((v * 10 ^ u * 100 ^ 53 + 10 ^ d * 100 ^ k / 2) / (10 ^ d * 100 ^ k))"),
        ("exponent_off", "Constants", "pick (leb (n * 100) m) r 0", "pick (ltb (n * 100) m) r 0"),
        ("let_before_a_word", "WellFormed", "known? ns n && not (statement_word? (less_open n))", "known? ns n"),
        ("quote_in_a_string", "WellFormed", "right_token? ns (string b) = every string_byte? b", "right_token? ns (string b) = true"),
        ("scanner_takes_words_as_names", "Items", "pick first word other", "other"),
        ("offset_from_the_statement", "Line", "(suc p + length own + to_next ns ts) ∷ own", "(suc (length own) + to_next ns ts) ∷ own"),
        ("blank_after_rem_kept", "Items", "pick (blank? (get_or s 0 0)) one none", "none"),
        ("replaced_line_kept", "Store", "pick (first_is? n r) (drop 1 r) r", "r"),
        ("names_added_twice", "Names", "add_name ns n = pick (known? ns n) ns (ns ++ n ∷ [])", "add_name ns n = ns ++ n ∷ []"),
        ("names_in_front", "Names", "add_name ns n = pick (known? ns n) ns (ns ++ n ∷ [])", "add_name ns n = pick (known? ns n) ns (n ∷ ns)"),
        ("last_byte_unmarked", "Names", "marked (x ∷ []) = (x + 128) ∷ []", "marked (x ∷ []) = x ∷ []"),
        ("reserved_name_added", "Items", "operator_or nowhere other = other", "operator_or nowhere other = operator 0x1c"),
        ("refusal_adds", "Calls", "added = 0; after = s }", "added = 1; after = s }"),
        ("refused_listing_writes", "Calls", "not_listed number output = record { number = number; written = 0; output = output }", "not_listed number output = record { number = number; written = 0; output = [] }"),
        ("place_of_the_text", "Calls", "outcome (bad k ts r) = refused_at k (place_of r)", "outcome (bad k ts r) = refused_at k no_span"),
        ("five_before_four", "Grammar", "if_in_range false (refuse k) = refuse k", "if_in_range false (refuse k) = refuse 5"),
        ("end_inside_a_line", "Items", "pick (eqb n (length s)) (item (p + n) 0 (operator 0x9b) ∷ [])", "pick true (item (p + n) 0 (operator 0x9b) ∷ item (p + n) 0 (operator 0x9b) ∷ [])"),
        ("mark_in_a_string", "Items", "not (eqb b 34 || eqb b 0x9b)", "not (eqb b 34)"),
        ("tab_as_blank", "Bytes", "blank? b = eqb b blank", "blank? b = eqb b blank || eqb b 9"),
        ("third_subscript", "Grammar", "row want_second comma (put 0x3c) (N (want_close ∷ []))", "row want_second comma (put 0x3c) (N (want_second ∷ []))"),
        ("any_room_for_old_names", "Calls", "ltb (length old) (length ns)\n    &&", "ltb (length old) (length ns)\n    ||"),
        ("direct_text_of_any_length", "Direct", "(leb (length text) 120 && unnumbered? (head_of text))", "unnumbered? (head_of text)"),
        ("direct_over_unsound_store", "Direct", "pick (sound_state s && ", "pick (sound_table s.names s.name_size s.name_count && "),
        ("any_number_in_a_line_buffer", "Direct", "listable? direct_number? ns l", "listable? (λ n. true) ns l"),
        ("shown_over_any_names", "Direct", "pick (sound_table names size count && leb (8 * count) (length values))", "pick (leb (8 * count) (length values))"),
        ("and_as_or", "Words", 'word 0x29 "OR" or_and', 'word 0x2a "OR" or_and'),
    ],
    "two tests exchanged": [
        ("two_before_one", "Calls", "enter text s = let entered = enter_sound text s in pick (sound_state s) entered (refusal 1 no_span s)", "enter text s = let entered = at_head s (head_of text) in pick (ltb 120 (length text)) (refusal 2 no_span s) (pick (sound_state s) entered (refusal 1 no_span s))"),
        ("three_before_two", "Calls", "enter_sound text s = let entered = at_head s (head_of text) in pick (ltb 120 (length text)) (refusal 2 no_span s) entered", "enter_sound text s = let entered = at_head s (head_of text) in pick (eqb entered.number 3) entered (pick (ltb 120 (length text)) (refusal 2 no_span s) entered)"),
        ("four_before_two", "Calls", "enter_sound text s = let entered = at_head s (head_of text) in pick (ltb 120 (length text)) (refusal 2 no_span s) entered", "enter_sound text s = let entered = at_head s (head_of text) in pick (eqb entered.number 4) entered (pick (ltb 120 (length text)) (refusal 2 no_span s) entered)"),
        ("nine_before_two", "Calls", "enter_sound text s = let entered = at_head s (head_of text) in pick (ltb 120 (length text)) (refusal 2 no_span s) entered", "enter_sound text s = let entered = at_head s (head_of text) in pick (eqb entered.number 9) entered (pick (ltb 120 (length text)) (refusal 2 no_span s) entered)"),
        ("seven_before_six", "Calls", "pick lacking (refuse 6) (pick (ltb 255 (length line)) (refuse 7) (pick unfitting (refuse 8) accepted))", "pick (ltb 255 (length line)) (refuse 7) (pick lacking (refuse 6) (pick unfitting (refuse 8) accepted))"),
        ("eight_before_seven", "Calls", "pick lacking (refuse 6) (pick (ltb 255 (length line)) (refuse 7) (pick unfitting (refuse 8) accepted))", "pick lacking (refuse 6) (pick unfitting (refuse 8) (pick (ltb 255 (length line)) (refuse 7) accepted))"),
        ("eight_before_six", "Calls", "pick lacking (refuse 6) (pick (ltb 255 (length line)) (refuse 7) (pick unfitting (refuse 8) accepted))", "pick (lacking && not unfitting) (refuse 6) (pick (ltb 255 (length line)) (refuse 7) (pick unfitting (refuse 8) accepted))"),
        ("ten_before_nine", "Calls", "pick (not (stored? n (lines_of s))) (not_listed 9 output) listed", "pick (not (stored? n (lines_of s)) && well_formed? (names_of s) l) (not_listed 9 output) listed"),
        ("eleven_before_ten", "Calls", "pick (not listable) (not_listed 10 output) (pick (ltb (length output) (length text)) (not_listed 11 output) listed)", "pick (ltb (length output) (length text)) (not_listed 11 output) (pick (not listable) (not_listed 10 output) listed)"),
        ("nine_before_one", "Calls", "list n s output = let listed = list_sound n s output in pick (sound_state s) listed (not_listed 1 output)", "list n s output = let listed = list_sound n s output in pick (sound_state s || eqb listed.number 9) listed (not_listed 1 output)"),
        ("values_untested_in_listing", "Calls", "list n s output = let listed = list_sound n s output in pick (sound_state s) listed (not_listed 1 output)", "list n s output = let listed = list_sound n s output in pick (sound_table s.names s.name_size s.name_count && (sound_store s.store s.used && agrees s)) listed (not_listed 1 output)"),
        ("five_for_a_constant_that_fits_nowhere", "Grammar", "if_in_range false (refuse k) = refuse k", "if_in_range false (refuse k) = refuse 5"),
        ("five_after_four", "Grammar", "look_in_range f i = if_in_range (not (out_of_range? i.token)) (look_item f i)", "look_in_range f i = look_item f i"),
    ],
}


def clauses(file):
    """The text of a file, and the spans of what its definitions say: (definition, start, end), a line at a time."""
    text, spans, name, at, inside = grammar.text(file), [], "", 0, False
    for line in text.split("\n"):
        start, at = at, at + len(line) + 1
        if re.match(r"(pub )?(data|record)|use |module|--|$", line.strip()):
            inside = inside and re.match(r"\s*--", line) is not None
            continue
        if re.match(r"\s*(unfoldable|abbrev|pub)? ?(pub )?[^ ]+ :|\s*pub \w", line):
            inside = re.match(r"\s*(unfoldable|abbrev)", line) is not None
            continue
        if not inside:
            continue
        head = re.match(r" {0,2}([^ ]+)( .*?)? =( |$)", line)
        name = head[1] if head else name
        spans.append((name, start + (head.end() if head else 0), start + len(line)))
    return text, spans


def atom(text, at):
    """Where an argument begins and ends, from a place on."""
    while text[at] in " \n":
        at += 1
    end = at
    if text[at] == "(":
        depth = 0
        while True:
            depth += (text[end] == "(") - (text[end] == ")")
            end += 1
            if depth == 0:
                return at, end
    while text[end] not in " \n()":
        end += 1
    return at, end


def matches(file, pattern):
    """Where a pattern stands in what the definitions of a file say: (definition, start, end)."""
    text, spans = clauses(file)
    for name, start, end in spans:
        for m in re.finditer(pattern, text[start:end]):
            yield name, start + m.start(), start + m.end()


def made():
    """Every edit: (kind, name, file, start, end, new)."""
    for kind, some in BY_HAND.items():
        for name, file, old, new in some:
            text = grammar.text(file)
            assert text.count(old) == 1, (name, text.count(old))
            yield kind, f"{file}.{name}", file, text.index(old), text.index(old) + len(old), new
    yield from of_grammar()
    yield from of_words()
    for file in FILES:
        yield from of_file(file)


def of_grammar():
    """A frame optional or no longer so; a row left out; in a row a class, what it gives, or a wanted frame changed."""
    text = grammar.text("Grammar")
    frames, classes = list(grammar.FRAMES), list(grammar.CLASSES)
    empty = text.index("\nmay_be_empty =") + len("\nmay_be_empty =\n    ")
    for f in frames:
        if f in grammar.EMPTY:
            at = text.index(f, empty)
            yield "a frame no longer optional", f"Grammar.{f}-needed", "Grammar", at, at + len(f), "99"
        else:
            yield "a frame optional", f"Grammar.{f}-optional", "Grammar", empty, empty, f + " ∷ "
    for m in re.finditer(r"\brow (f|want_\w+) (\w+) (\(put \w+\)|\w+) ", text):
        row = f"Grammar.{m[1]}/{m[2]}"
        start, end = atom(text, m.end())
        yield "a row left out", row + "-left-out", "Grammar", m.start(), m.start() + 4 + len(m[1]), "row 99"
        near = classes[(classes.index(m[2]) + 1) % len(classes)]
        yield "a row's class exchanged", f"{row}-for-{near}", "Grammar", m.start(2), m.end(2), str(classes.index(near))
        other = "itself"
        if m[3] == "itself":
            other = "as_prefix" if m[2] in ("plus_minus", "not_word") else "for_strings"
        elif m[3].startswith("("):
            other = f"(put {int(m[3][5:-1], 16) + 1:#x})"
        yield "what a row gives exchanged", f"{row}-gives-{other.strip('()').replace(' ', '-')}", "Grammar", m.start(3), m.end(3), other
        for k, w in enumerate(re.finditer(r"want_\w+|\bN\b|\bnumeric\b|\bstringy\b", text[start:end])):
            a, b = start + w.start(), start + w.end()
            name = f"{row}-{k}-{w[0]}"
            if w[0] == "N":
                yield "a wanted frame left out", name + "-left-out", "Grammar", a, b, ""
                yield "a wanted frame doubled", name + "-doubled", "Grammar", a, b, "N [] ++ N"
            elif w[0] in ("numeric", "stringy"):
                yield "a wanted frame left out", name + "-left-out", "Grammar", a, b, "[]"
                yield "a wanted frame exchanged", name + "-exchanged", "Grammar", a, b, {"numeric": "stringy", "stringy": "numeric"}[w[0]]
            else:
                yield "a wanted frame left out", name + "-left-out", "Grammar", a, b + 3, ""
                yield "a wanted frame doubled", name + "-doubled", "Grammar", a, b, f"{w[0]} ∷ {w[0]}"
                i = frames.index(w[0])
                yield "a wanted frame exchanged", f"{name}-for-next", "Grammar", a, b, frames[(i + 1) % len(frames)]
                yield "a wanted frame exchanged", f"{name}-for-the-one-before", "Grammar", a, b, frames[i - 1]


def of_words():
    """A word's token one off, and its class exchanged for the one after it."""
    text = grammar.text("Words")
    used = re.search(r"Classes\.\{([^}]*)\}", text)[1].split(", ")
    for m in re.finditer(r'word (0x\w\w) "([^"]+)" (\w+)', text):
        word = f"Words.{m[1][2:]}-{m[2]}"
        yield "a word's token one off", word + "-token", "Words", m.start(1), m.end(1), f"{int(m[1], 16) + 1:#04x}"
        yield "a word's class exchanged", word + "-class", "Words", m.start(3), m.end(3), used[(used.index(m[3]) + 1) % len(used)]
        yield "a word left out", word + "-left-out", "Words", m.start(2), m.end(2), m[2] + "@"


def of_file(file):
    """A number one off, a comparison or a connective exchanged, a test turned round, two answers exchanged, a successor left out."""
    text, count = grammar.text(file), {}

    def named(kind, name, a, b, new):
        count[name, kind] = count.get((name, kind), 0) + 1
        return kind, f"{file}.{name}-{kind.replace(' ', '-')}-{count[name, kind]}", file, a, b, new

    for name, a, b in matches(file, r"\b(0x[0-9a-f]+|\d+)\b"):
        n = int(text[a:b], 0)
        if text[a - 4 : a] == "put " or text[a - 5 : a] == "word ":
            continue
        yield named("a number one more", name, a, b, str(n + 1))
        if n > 0:
            yield named("a number one less", name, a, b, str(n - 1))
    for name, a, b in matches(file, r"\b(leb|ltb)\b"):
        yield named("< for ≤ or ≤ for <", name, a, b, {"leb": "ltb", "ltb": "leb"}[text[a:b]])
    for name, a, b in matches(file, r"&&|\|\|"):
        yield named("and for or, or for and", name, a, b, {"&&": "||", "||": "&&"}[text[a:b]])
    for name, a, b in matches(file, r"\b(true|false)\b"):
        yield named("true for false, false for true", name, a, b, {"true": "false", "false": "true"}[text[a:b]])
    for name, a, b in matches(file, r"\bnot "):
        yield named("a test turned round", name, a, b, "")
    for name, a, b in matches(file, r"\bsuc "):
        yield named("a successor left out", name, a, b, "")
    for name, a, b in matches(file, r"\bpick "):
        one = atom(text, atom(text, b)[1])
        other = atom(text, one[1])
        yield named("two answers exchanged", name, one[0], other[1], text[slice(*other)] + text[one[1] : other[0]] + text[slice(*one)])


def copy():
    shutil.rmtree(COPY, ignore_errors=True)
    for crate in CRATES:
        for part in ("src", "specs", "proofs"):
            if os.path.exists(f"crates/{crate}/{part}"):
                shutil.copytree(f"crates/{crate}/{part}", f"{COPY}/crates/{crate}/{part}")
    open(COPY + "/crates.txt", "w").write("".join(f"{c}: {d}\n" for c, d in CRATES.items()))
    shutil.copytree("crates/cases/specs", COPY + "/cases")


def cases(modules):
    """The copy's crate cases with these of its files alone, or with all."""
    specs = COPY + "/crates/cases/specs/"
    shutil.rmtree(specs)
    shutil.copytree(COPY + "/cases", specs)
    if modules:
        for file in os.listdir(specs):
            if file.removesuffix(".antt") not in [*modules, "Lib"]:
                os.remove(specs + file)
        open(specs + "Lib.antt", "w").write("".join(f"pub mod {m}\n" for m in modules))


def edited(file, start, end, new):
    """The text of a file with an edit, and with the names that the edit needs."""
    text = grammar.text(file)
    uses = "".join(re.findall(r"^use .*\n", text, re.M))
    more = [f"use {home}.{{{name}}}\n" for home, names in HOMES.items() for name in names if name.strip("◌") in new and not re.search(rf"[{{ ]{re.escape(name)}[,}}]", uses)]
    at = text.index("use ")
    return text[:at] + "".join(more) + text[at:start] + new + text[end:]


def checked(crate):
    """What refuses the copy, checked up to a crate: `crate file.lemma`, or nothing."""
    run = subprocess.run(["rt", "check"], cwd=f"{COPY}/crates/{crate}", stdin=subprocess.DEVNULL, capture_output=True, text=True)
    out = run.stdout + run.stderr
    if run.returncode == 0:
        return ""
    below = re.search(r"^rt: the library (\w+) did not build", out, re.M)
    crate = below[1] if below else crate
    found = re.search(r"(?:specs|proofs)/(\w+)\.antt:\d+:\d+: error: `([^`]+)`", out)
    if found and (crate != "paper" or found[1] in THEOREMS):
        return f"{crate} {found[1]}.{found[2]}"
    return "unread " + re.sub(r"\s+", " ", out)[:300]


def refusal(file):
    """The crate and lemma that refuse the edit in the copy."""
    for modules in FIRST.get(file, []):
        cases(modules)
        answer = checked("cases")
        if answer:
            return answer
    cases([])
    for crate in ("requested", "asked", "recorded"):
        answer = checked(crate)
        if answer:
            return answer
    return "nothing -"


def kept():
    """What edits came to: name -> (crate, lemma)."""
    if not os.path.exists(KEPT):
        return {}
    return {name: (crate, lemma) for name, crate, lemma in (line.split(" ", 2) for line in open(KEPT).read().splitlines())}


def table(edits):
    """By kind: how many were tried, and which crate refused how many."""
    came = kept()
    order = [*CRATES, "nothing"]
    print("| Kind of edit | Tried | " + " | ".join(order) + " |\n|---|" + "---|" * (len(order) + 1))
    kinds = dict.fromkeys(kind for kind, *_ in edits)
    for kind in [*kinds, "all"]:
        crates = [came[name][0] for k, name, *_ in edits if kind in (k, "all") and name in came]
        if crates:
            print(f"| {kind} | {len(crates)} | " + " | ".join(str(crates.count(c)) for c in order) + " |")
    for kind, name, *_ in edits:
        if name in came and came[name][0] not in CRATES:
            print(name, *came[name], *(reason for pattern, reason in REASONS.items() if re.match(pattern, name)))


def main():
    words = sys.argv[1:]
    every = int(words.pop(words.index("--every") + 1)) if "--every" in words else 1
    names = [w for w in words if not w.startswith("--")]
    edits = list(made())
    assert len({e[1] for e in edits}) == len(edits), [e[1] for e in edits if [x[1] for x in edits].count(e[1]) > 1]
    if "--table" in words:
        return table(edits)
    edits = [e for e in edits if not names or any(n in e[1] or n == e[0] for n in names)]
    edits = [e for kind in dict.fromkeys(e[0] for e in edits) for e in [e for e in edits if e[0] == kind][::every]]
    if "--list" in words:
        for kind, name, *_ in edits:
            print(f"{kind}: {name}")
        return print(len(edits), "edits")
    came = kept()
    copy()
    for kind, name, file, start, end, new in edits:
        if came.get(name, ("nothing",))[0] in CRATES:
            continue
        path = f"{COPY}/crates/paper/specs/{file}.antt"
        open(path, "w").write(edited(file, start, end, new))
        answer = refusal(file)
        open(path, "w").write(grammar.text(file))
        came[name] = tuple(answer.split(" ", 1))
        open(KEPT, "w").write("".join(f"{n} {c} {l}\n" for n, (c, l) in came.items()))
        print(f"{name:60} {answer}", flush=True)


main()
