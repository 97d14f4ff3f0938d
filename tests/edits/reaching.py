"""What a check of a crate reads of the crates below it, as far as the crate reaches it by name.

A file of tokens is cut into items: of `.rt` functions, types, constants, traits, impls and imports, of `.antt` declarations and
imports. An item is reached if the crate's own words name it, or those of an item that is reached. Of a reached item all counts that
another crate can see:

- a public function without its body, since a caller goes by its contract, and a method if its type is reached, too;
- a type with its fields and its attributes, a trait, a constant, and a declaration of `.antt`, whole;
- of the impls of a reached type the heads and what they state, and the signatures;
- of an import the names that are reached, and of one that isn't `pub` those that are reached of its own crate.

What isn't `pub` is reached only by what is reached of its own crate. What can't be named, as a macro that is called among items,
counts always. Answers, invariants and proofs of functions don't count: they are their function's own. A name is reached wherever a
word is spelled like it. So more may count than is read, and never less.
"""
import functools
import re
from collections import defaultdict
from dataclasses import dataclass

# The files of `proofs/` that nothing but their function's proof can name.
OWN = ("Answers.antt", "Invariants.antt", "Proof.antt")

OPENING, CLOSING = "([{", ")]}"
PREFIXES = {"pub", "unsafe", "async", "default", "extern", "ghost"}
NAMED = {"struct", "enum", "union", "trait", "const", "static", "type", "mod", "fn"}
DECLARING = {"use", "pub", "abbrev", "unfolding", "unfoldable", "record", "data", "mod", "module"}


@dataclass(frozen=True)
class Token:
    text: str
    kind: str      # Code, or Head, Antt and End of a clause
    column: int


@functools.cache
def parts_of(text):
    """The names in a token: those between the places of an operator's arguments, and those of a path."""
    return frozenset(part for part in re.split(r"[◌.]", text) if part)


def words_of(texts):
    return set().union(*map(parts_of, set(texts)))


@dataclass(frozen=True, eq=False)
class Item:
    name: str      # empty if it counts always
    owner: str     # the type of a method or an impl, or nothing
    shown: tuple   # the texts that count
    is_import: bool = False
    is_public: bool = True

    @functools.cached_property
    def words(self):
        return words_of(self.shown)

    @functools.cached_property
    def needs(self):
        """What leads to it, if all of it is reached."""
        return parts_of(self.name) | parts_of(self.owner)

    @functools.cached_property
    def imported(self):
        """The places of the names that an import brings, among its texts."""
        ends = (*self.shown[1:], ";")
        return {at for at, text in enumerate(self.shown) if re.search(r"\w", text) and ends[at] in (",", "}", ";", "as")}

    def among(self, known):
        """An import without the names that aren't known; nothing if all aren't. One that names none, with `*`, stays."""
        lost = {at for at in self.imported if not parts_of(self.shown[at]) <= known}
        if self.imported and len(lost) == len(self.imported):
            return ()
        return tuple(text for at, text in enumerate(self.shown) if at not in lost and text != ",")


def rows_as_tokens(text, rows):
    """The tokens of a file, by the rows that rattle lists of it."""
    tokens = []
    for row in re.finditer(rb'^\d+ (\d+) (\d+) (\w+) ', rows, re.M):
        begin, end = int(row[1]), int(row[2])
        column = begin - (text.rfind(b"\n", 0, begin) + 1)
        tokens.append(Token(text[begin:end].decode(errors="replace"), row[3].decode(), column))
    return tokens


# ---- .rt ----


def end_of_brackets(tokens, at):
    """Where the bracket that opens here is closed."""
    depth = 0
    for place in range(at, len(tokens)):
        if tokens[place].kind == "Code":
            depth += (tokens[place].text in OPENING) - (tokens[place].text in CLOSING)
            if depth == 0:
                return place
    return len(tokens) - 1


def without_attributes(tokens):
    found, at = [], 0
    while at < len(tokens):
        if tokens[at].text == "#" and at + 1 < len(tokens) and tokens[at + 1].text == "[":
            at = end_of_brackets(tokens, at + 1)
        else:
            found.append(tokens[at])
        at += 1
    return found


def keyword_of(head):
    """What an item is, by its first word that isn't a prefix, and the tokens behind that word."""
    words = [token for token in without_attributes(head) if token.kind != "Antt"]
    at = 0
    while at < len(words):
        text = words[at].text
        if text == "(" and at and words[at - 1].text == "pub":
            at = end_of_brackets(words, at)
        elif text == "const" and at + 1 < len(words) and words[at + 1].text in ("fn", "unsafe"):
            pass
        elif text not in PREFIXES and not text.startswith('"'):
            return text, words[at + 1:]
        at += 1
    return "", []


def is_public(head):
    texts = [token.text for token in without_attributes(head)]
    return "pub" in texts and texts[texts.index("pub") + 1:][:1] != ["("]


def behind_angles(tokens):
    """The tokens behind the parameters in angle brackets that these begin with, if they do."""
    if not tokens or tokens[0].text != "<":
        return tokens
    depth = 0
    for at, token in enumerate(tokens):
        is_arrow = token.text == ">" and tokens[at - 1].text == "-"
        depth += (token.text == "<") - (token.text == ">" and not is_arrow)
        if depth == 0:
            return tokens[at + 1:]
    return []


def type_of_impl(tokens):
    """The name of the type that an impl is for, by the tokens behind `impl`, and whether it is the impl of a trait."""
    tokens = behind_angles(tokens)
    until = next((at for at, token in enumerate(tokens) if token.text == "where"), len(tokens))
    tokens = tokens[:until]
    splits = [at for at, token in enumerate(tokens) if token.text == "for" and tokens[at + 1:at + 2] and tokens[at + 1].text != "<"]
    own = tokens[splits[-1] + 1:] if splits else tokens
    path = []
    for token in own:
        if token.text == "<" and path:
            break
        if re.match(r"[A-Za-z_]\w*$", token.text) and token.text not in ("mut", "dyn"):
            path.append(token.text)
    return path[-1] if path else "", bool(splits)


def heads_of(tokens):
    """The items of a file or a block: of each its head, and what stands in its braces if they aren't part of the head."""
    at = 0
    while at < len(tokens):
        begin = at
        if tokens[at].text == "#" and [token.text for token in tokens[at + 1:at + 2]] == ["!"]:
            at = end_of_brackets(tokens, at + 2) + 1
            continue
        while at < len(tokens):
            token = tokens[at]
            if token.kind == "Code" and token.text == ";":
                yield tokens[begin:at + 1], None
                break
            if token.kind == "Code" and token.text == "{" and keyword_of(tokens[begin:at])[0] not in ("use", "const", "static", "type"):
                end = end_of_brackets(tokens, at)
                yield tokens[begin:at], tokens[at + 1:end]
                at = end
                break
            if token.kind == "Code" and token.text in OPENING:
                at = end_of_brackets(tokens, at)
            at += 1
        at += 1


def texts(tokens):
    return tuple(token.text for token in tokens)


def items_of_impl(head, behind, inner):
    """The items of an impl: what it states of its type, and the public methods of an impl that is no trait's."""
    owner, is_traits = type_of_impl(behind)
    stated, methods = [*texts(head)], []
    for its, block in heads_of(inner):
        word, rest = keyword_of(its)
        if word != "fn":
            stated += texts(its) + (texts(block) if block else ())
        elif is_traits:
            stated += texts(its)
        elif is_public(its) and rest:
            methods.append(Item(rest[0].text, owner, texts(head) + texts(its)))
    return [Item(owner, owner, tuple(stated)), *methods]


def items_of_code(tokens):
    for head, inner in heads_of(tokens):
        word, behind = keyword_of(head)
        if word == "impl" and inner is not None:
            yield from items_of_impl(head, behind, inner)
        elif word == "mod" and inner is not None:
            yield from items_of_code(inner)
        elif word == "use":
            yield Item("", "", texts(head), is_import=True, is_public=is_public(head))
        elif word == "fn" and behind:
            if is_public(head):
                yield Item(behind[0].text, "", texts(head))
        elif word in NAMED and behind:
            yield Item(behind[0].text, "", texts(head) + (texts(inner) if inner else ()), is_public=is_public(head))
        else:
            yield Item("", "", texts(head) + (texts(inner) if inner else ()))


# ---- .antt ----


def declarations_of(tokens):
    """The tokens of each declaration: it begins in the first column, with a word that declares or with a name and a colon."""
    found = []
    for at, token in enumerate(tokens):
        has_colon = [it.text for it in tokens[at + 1:at + 2]] == [":"]
        is_behind_unfolding = found and found[-1][0].text == "unfolding" and all(it.column > 0 for it in found[-1][1:])
        if token.column == 0 and (token.text in DECLARING or has_colon) and not (is_behind_unfolding and token.text != "use") or not found:
            found.append([])
        found[-1].append(token)
    return found


def items_of_logic(tokens):
    for declared in declarations_of(tokens):
        words = list(texts(declared))
        if words[0] == "unfolding":
            begin = next((at for at, it in enumerate(declared) if at and it.column == 0), 0)
            words = words[begin:]
        while words and words[0] in ("pub", "abbrev", "unfoldable", "record", "data"):
            words.pop(0)
        if "use" in texts(declared)[:2] or words[:1] == ["mod"]:
            yield Item("", "", texts(declared), is_import=True, is_public=declared[0].text == "pub")
        else:
            is_unnamed = words[:1] == ["module"] or not words
            yield Item("" if is_unnamed else words[0], "", texts(declared), is_public=is_unnamed or "pub" in texts(declared)[:8])


# ---- what is reached ----


class Below:
    """The items of some crates, by the crates' names, and which of them words lead to."""

    def __init__(self, items_of):
        self.items = [(crate, item) for crate, items in items_of.items() for item in items]
        self.waiting = defaultdict(list)
        for number, (_, item) in enumerate(self.items):
            for part in item.needs:
                self.waiting[part].append(number)
        # What isn't public, and the impls of it.
        own = {crate: {it.name for it in items if not it.is_public} - {it.name for it in items if it.is_public and not it.owner}
               for crate, items in items_of.items()}
        self.is_own = [(item.owner or item.name) in own[crate] for crate, item in self.items]

    def reached(self, words):
        """All words that these lead to, and what then counts of the items."""
        known, left, counts = set(), set(words), set()
        inner = defaultdict(set)    # of each crate the words of what is reached of it

        def count(number):
            crate, item = self.items[number]
            counts.add(number)
            inner[crate] |= item.words
            # A word that was known may now lead to what isn't public.
            left.update(item.words)

        for number, (_, item) in enumerate(self.items):
            if not item.name and not item.is_import:
                count(number)
        while left:
            word = left.pop()
            known.add(word)
            for number in self.waiting.get(word, ()):
                crate, item = self.items[number]
                if number not in counts and item.needs <= (inner[crate] if self.is_own[number] else known):
                    count(number)
        shown = [item.shown if number in counts else item.among(known if item.is_public else inner[crate])
                 for number, (crate, item) in enumerate(self.items) if number in counts or item.is_import]
        return known, [it for it in shown if it]
