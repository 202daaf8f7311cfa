"""Terms of the language of specs/ and proofs/, as words and brackets, and how they are broken into lines.

A line is broken at spaces alone, outside texts in quotes, and at what binds least: between items, behind `=` and `in`,
at an operator, between arguments.
"""

MOST_COLUMNS = 120
OPENING, CLOSING = "([{", ")]}"

# Operators, those that bind least first. A term that is broken at one has it at the begin of a line.
LEVELS = [
    "|", "→", "× ⊎ ⊛", "↔", "∵", "≡ ≢ ≤ < ≤ℤ <ℤ ⊑", "∙", ">>= $", "||", "&&", "==", "++", "∷", "+ - +ℤ -ℤ",
    "* / % *ℤ", "^",
]  # fmt: skip
LEVEL_OF = {operator: level for level, operators in enumerate(LEVELS) for operator in operators.split()}
# At these a line takes as many operands as it has room for.
FILLED = {LEVEL_OF[operator] for operator in ("→", "×", "∷", "+")}


class Bracket:
    """What stands between brackets. Spaces at its ends belong to the brackets."""

    def __init__(self, opening, words, closing):
        self.opening, self.words, self.closing = opening, words, closing

    def __str__(self):
        return self.opening + flat(self.words) + self.closing


class Word:
    """What has no space in it but between brackets: pieces of text and brackets."""

    def __init__(self, pieces):
        self.pieces = pieces
        self.text = "".join(map(str, pieces))

    def __str__(self):
        return self.text


class Reaching(Word):
    """What begins with `λ`, `let` or `if` and reaches to the end of its brackets, in parts that are rows of words."""

    def __init__(self, keyword, parts):
        super().__init__([flat([word for part in parts for word in part])])
        self.keyword, self.parts = keyword, parts


def flat(words):
    return " ".join(map(str, words))


def level_of(word):
    return LEVEL_OF.get(str(word))


# Reading


def text_end(text, at):
    """Behind the quoted text that begins there."""
    at += 1
    while text[at] != '"':
        at += 2 if text[at] == "\\" else 1
    return at + 1


def read(text, at=0, nested=False):
    """The words from there to the end of the brackets or of the text, and where they end."""
    words, pieces = [], []
    while at < len(text) and not (nested and text[at] in CLOSING):
        if text[at] == " ":
            words, pieces, end = words + [Word(pieces)], [], at + 1
        elif text[at] in OPENING:
            piece, end = read_bracket(text, at)
            pieces.append(piece)
        else:
            end = text_end(text, at) if text[at] == '"' else at + 1
            pieces.append(text[at:end])
        at = end
    return glued([word for word in words + [Word(pieces)] if word.text]), at


def read_bracket(text, at):
    spaced = text[at + 1 : at + 2] == " "
    words, end = read(text, at + 1 + spaced, nested=True)
    before = " " if words and text[end - 1] == " " else ""
    return Bracket(text[at] + " " * spaced, words, before + text[end : end + 1]), min(end + 1, len(text))


def glued(words):
    """Words, of which some are one with the word before them."""
    found = []
    for word in words:
        if found and (str(word) in (":", "in", "where", *OPENING) or wants_more(found[-1])):
            found[-1] = Word(found[-1].pieces + [" "] + word.pieces)
        else:
            found.append(word)
    return found


def wants_more(word):
    """Whether a word isn't the last of its line: `as`, a record without fields, a part of `(n : ℕ) : Type 0 where`."""
    if word.text.split(" ")[0] in ("record", "(record"):
        return not any(isinstance(piece, Bracket) for piece in word.pieces)
    return word.text in ("as", "Type") or word.text.endswith((") :", "} :", " : Type"))


def items_of(words):
    """Rows of words, each but the last with a comma or a semicolon at its end."""
    items = [[]]
    for word in words:
        items[-1].append(word)
        if str(word)[-1] in ",;":
            items.append([])
    return [item for item in items if item]


def binding_end(words, at):
    """Behind the `in` of the `let` that stands there, if it has one."""
    depth = 0
    for number in range(at, len(words)):
        depth += (str(words[number]) == "let") - str(words[number]).endswith(" in")
        if depth == 0:
            return [number + 1]
    return []


def branches(words, at):
    """Where the branches of the `if` begin that stands there."""
    found, depth = [], 0
    for number in range(at, len(words)):
        word = str(words[number])
        depth += word == "if"
        found += [number] if depth == 1 and word in ("then", "else") else []
        depth -= word == "else"
    return found


def reaching_at(words, at):
    """What reaches to the end from there, if something does."""
    keyword, ends = str(words[at]), []
    if keyword == "λ":
        ends = [number + 1 for number in range(at, len(words)) if str(words[number]).endswith(".")][:1]
    elif keyword == "let":
        ends = binding_end(words, at)
    elif keyword == "if":
        ends = branches(words, at)
    edges = [at, *ends, len(words)]
    parts = [words[first:last] for first, last in zip(edges, edges[1:]) if first < last]
    return Reaching(keyword, parts) if ends else None


# Breaking. Text begins at `column`. Further lines begin at `indent`, and the last one leaves `tail` columns free. The
# first line lacks what is before it, the others are whole.


def fits(text, column, tail):
    return column + len(text) + tail <= MOST_COLUMNS


def behind(lines, more):
    """Lines, the last of which goes on with the first of others."""
    return lines[:-1] + [lines[-1] + more[0]] + more[1:]


def end_of(lines, column):
    """The column at which lines end, the first of which begins at a column."""
    return len(lines[-1]) + (column if len(lines) == 1 else 0)


def fresh(words, indent, tail):
    """Words on lines of their own."""
    lines = broken(words, indent, indent, tail)
    return [" " * indent + lines[0]] + lines[1:]


def broken(words, column, indent, tail=0):
    """The lines of a row of words."""
    if fits(flat(words), column, tail):
        return [flat(words)]
    if len(items_of(words)) > 1:
        return filled(items_of(words), column, indent, tail)
    levels = [level_of(word) for word in words[1:]]
    if LEVEL_OF["|"] in levels:
        return operands(words, LEVEL_OF["|"], column, indent, tail)
    if level_of(words[0]) is not None and level_of(words[0]) not in levels:
        operator = str(words[0]) + " "
        return behind([operator], broken(words[1:], column + len(operator), indent, tail))
    for at, word in enumerate(words):
        if str(word) in ("=", "↦") and at + 1 < len(words):
            return defined(words[: at + 1], words[at + 1 :], column, indent, tail)
        reaching = reaching_at(words, at)
        if reaching:
            words = words[:at] + [reaching]
            break
    return broken_term(words, column, indent, tail)


def broken_term(words, column, indent, tail):
    """The lines of a term: operands, a function and its arguments, or a single word."""
    levels = [level_of(word) for word in words[1:] if level_of(word) is not None]
    if levels:
        return operands(words, min(levels), column, indent, tail)
    if len(words) > 1:
        return filled([[word] for word in words], column, indent, tail)
    break_one = broken_reaching if isinstance(words[0], Reaching) else broken_word
    return break_one(words[0], column, indent, tail)


def defined(head, body, column, indent, tail):
    """What stands behind `=` or `↦`: on lines of its own, or behind the head if it is a function."""
    lines = broken(head, column, indent)
    at = end_of(lines, column) + 1
    reaching = reaching_at(body, 0)
    if reaching and reaching.keyword == "λ" and fits(flat(reaching.parts[0]), at, 0):
        return behind(behind(lines, [" "]), broken(body, at, indent, tail))
    return lines + fresh(body, indent, tail)


def operands(words, level, column, indent, tail):
    """Operands, each behind the operator with which its line begins."""
    parts = [[]]
    for word in words:
        if level_of(word) == level and parts[-1]:
            parts.append([])
        parts[-1].append(word)
    return filled(parts, column, indent, tail, apart=level not in FILLED)


def filled(parts, column, indent, tail, apart=False):
    """Parts one after another, each on a line of its own if it doesn't fit behind the part before it."""
    lines = last = broken(parts[0], column, indent, tail if len(parts) == 1 else 0)
    for number, part in enumerate(parts[1:], 2):
        is_last = number == len(parts)
        left = tail if is_last else 0
        at = end_of(lines, column) + 1
        if not apart and len(last) == 1 and fits(flat(part), at, left):
            last = [flat(part)]
        elif not apart and is_last and not fits(flat(part), indent, left) and opens_well(part, at):
            last = broken(part, at, indent, left)
        else:
            last = fresh(part, indent, left)
            lines = lines + last
            continue
        lines = behind(behind(lines, [" "]), last)
    return lines


def opens_well(part, at):
    """Whether a last part that needs several lines begins behind the others: it is in brackets, or a function."""
    word = part[0]
    if len(part) > 1 or at > MOST_COLUMNS - 40:
        return False
    if isinstance(word, Reaching):
        return word.keyword == "λ" and fits(flat(word.parts[0]), at, 0)
    return any(isinstance(piece, Bracket) for piece in word.pieces)


def broken_word(word, column, indent, tail):
    """A single word, within its brackets."""
    lines = [""]
    for number, piece in enumerate(word.pieces):
        left = sum(len(str(other)) for other in word.pieces[number + 1 :]) + tail
        at = end_of(lines, column)
        if isinstance(piece, str) or fits(str(piece), at, left) or not piece.words:
            more = [str(piece)]
        elif word.text.startswith("record ") and len(items_of(piece.words)) > 1 and piece.closing:
            more = fields(piece, indent)
        else:
            more = broken(piece.words, at + len(piece.opening), indent, left + len(piece.closing))
            more = behind([piece.opening], behind(more, [piece.closing]))
        lines = behind(lines, more)
    return lines


def fields(bracket, indent):
    """The fields of a record, each on lines of its own."""
    lines = [bracket.opening.rstrip()]
    for item in items_of(bracket.words):
        lines += fresh(item, indent, 0)
    return lines + [" " * indent + bracket.closing.lstrip()]


def broken_reaching(word, column, indent, tail):
    """A function behind its arguments, a term below its bindings, or the branches of a choice."""
    begin, rest = word.parts[0], word.parts[1:]
    is_named = word.keyword == "let" and "=" in map(str, begin)
    if fits(flat(begin), column, 0) or not is_named:
        lines = filled([[one] for one in begin], column, indent, 0)
    else:
        at = [str(one) for one in begin].index("=") + 1
        lines = defined(begin[:at], begin[at:], column, indent, 0)
    for number, part in enumerate(rest, 1):
        left = tail if number == len(rest) else 0
        begins = word.keyword == "if"
        more = broken(part[begins:], indent + begins * len(f"{part[0]} "), indent, left)
        lines += [" " * indent + begins * f"{part[0]} " + more[0]] + more[1:]
    return lines
