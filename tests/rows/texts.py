"""The form of tables: rows, and the texts in them. Used by __main__.py and the kinds of rows."""
import os

ARROW = "  ->  "
# the folder of the tables, and of the files that their texts name
TABLES = os.path.dirname(os.path.abspath(__file__))


class Row:
    """A row of a table: its line, its word, its text and its expected outcome."""

    def __init__(self, line, word, text, expected):
        self.line, self.word, self.text, self.expected = line, word, text, expected

    def shown(self):
        """Returns the row as in its table."""
        return f"{self.word} {self.text}" if self.text else self.word


class Kind:
    """Answers the rows of a table, in their order, and keeps what a row sets for later ones.

    A kind has `row_outcome`, and may override `__init__` and `close`, calling these, or `rows_of` for tables of another form.
    """

    def __init__(self, program, room):
        """Creates it. PROGRAM is an absolute path, ROOM a fresh folder for this table."""
        self.program, self.room = program, room

    def row_outcome(self, word, text):
        """Returns the outcome of one row, as a text to compare with the expected one."""
        raise NotImplementedError

    def close(self):
        """Ends what was started for this table."""

    @staticmethod
    def rows_of(table):
        """Returns the rows in the text of a table."""
        return rows_of(table)


def rows_of(table):
    """Returns the rows of a table with a row a line. An empty line, and one that begins with `#`, is a heading."""
    rows = []
    for number, line in enumerate(table.split("\n"), 1):
        if line and not line.startswith("#"):
            row, arrow, expected = line.rpartition(ARROW)
            if not arrow:
                raise ValueError(f"line {number}: expected an arrow, got none: {line[:100]}")
            word, _, text = row.partition(" ")
            rows.append(Row(number, word, text, expected))
    return rows


def numbered(count, part):
    """Returns a part repeated; in each copy `#` is its index, and `+` its index plus one."""
    return "".join(part.replace("#", str(number)).replace("+", str(number + 1)) for number in range(count))


def inside_of(text):
    """Returns the bytes of a bracket: a repeated part, numbered or not, a file, or bytes."""
    if text.startswith("@"):
        with open(os.path.join(TABLES, text[1:]), "rb") as file:
            return file.read()
    count, sign, part = text.partition("№")
    if sign:
        return numbered(int(count), part).encode()
    count, sign, part = text.partition("×")
    if sign:
        return part.encode() * int(count)
    return bytes(int(byte, 16) for byte in text.split(" "))


def expanded(text):
    """Returns the bytes of a text.

    `⟦3×ab⟧` is `ababab`, `⟦2№a#+⟧` is `a01a12`, `⟦0a ff⟧` two bytes, and `⟦@NAME⟧` what the file tests/rows/NAME holds.
    """
    first, *pieces = text.split("⟦")
    found = [first.encode()]
    for piece in pieces:
        inside, bracket, behind = piece.partition("⟧")
        if not bracket:
            raise ValueError(f"expected a closed bracket, got {piece[:100]}")
        found += [inside_of(inside), behind.encode()]
    return b"".join(found)


def printed(output):
    """Returns the text of a line that a program wrote, without its end, or a note if it is not UTF-8 or has no end."""
    try:
        text = output.decode()
    except UnicodeDecodeError:
        return f"no UTF-8: {output[:200]!r}"
    return text.removesuffix("\n") if text.endswith("\n") else f"{text} without a line's end"
