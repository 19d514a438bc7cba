"""Tables as spreadsheets and other programs save them, read so that each value knows its place: file, line and column."""

import codecs
import csv
import io
import re
import unicodedata

DELIMITERS = {"tab": "\t", "comma": ",", "semicolon": ";"}
GUESSED = ",;\t|"
# what files begin with that people take for tables
NO_TEXT = {
    b"PK\x03\x04": "this is a workbook or a zip file; save each of its tables as CSV, or unpack it",
    b"\xd0\xcf\x11\xe0": "this is a workbook; save each of its tables as CSV",
    b"\x1f\x8b": "this file is packed by gzip; unpack it",
    b"%PDF": "this is a PDF; the table itself is wanted",
}


class Fault(Exception):
    """What can't be read, with its place."""


def counted(count, thing):
    return f"1 {thing} was" if count == 1 else f"{count} {thing}s were"


class Value:
    """A value of a table, with the place at which it begins: its line and column, from 1."""

    def __init__(self, text, file, line, column):
        self.text, self.file, self.line, self.column = text, file, line, column

    def place(self):
        return f"{self.file}:{self.line}:{self.column}"

    def fault(self, says):
        return Fault(f"{self.place()}: {says}")

    def bare(self):
        """The text with one blank for whatever blanks it has: nobody means two concepts by `Salix alba` with one and with two."""
        return " ".join(self.text.split())

    def part(self, begin, end):
        """A piece of the value; its column is right where the value stands on one line and without doubled quotes."""
        return Value(self.text[begin:end], self.file, self.line, self.column + begin)


class Layout:
    """How tables are to be read: what stands between values, the quote (None: there is none), the encoding, and names of columns."""

    def __init__(self, delimiter=None, quote='"', encoding=None, columns=None):
        self.delimiter, self.quote, self.encoding = delimiter, quote, encoding
        self.columns = columns or {}  # (table or None, key): the column's name

    def column(self, table, key):
        return self.columns.get((table, key)) or self.columns.get((None, key))


def read_bytes(file):
    try:
        with open(file, "rb") as opened:
            data = opened.read()
    except OSError as error:
        raise Fault(f"{file}: this file can't be read: {error.strerror}")
    for mark, says in NO_TEXT.items():
        if data.startswith(mark):
            raise Fault(f"{file}: {says}")
    return data


def text_of(data, file, encoding, hint=""):
    """The text of bytes, as it is; where they are not of the encoding, the place of the first that isn't."""
    try:
        return data.decode(encoding).removeprefix("\ufeff")
    except UnicodeDecodeError as error:
        line = data[: error.start].count(b"\n") + 1
        column = error.start - (data.rfind(b"\n", 0, error.start) + 1) + 1
        called = "UTF-8" if encoding.startswith("utf-8") else encoding
        raise Fault(f"{file}:{line}:{column}: these bytes are not {called}{hint}")


def is_utf8(data):
    """Whether bytes are UTF-8 beyond doubt: some are no ASCII, and all are UTF-8, as text of other encodings hardly ever is."""
    try:
        data.decode()
    except UnicodeDecodeError:
        return False
    return not data.isascii()


def decoded(data, file, encoding):
    """The text of the bytes, by the mark at their front, as UTF-8 where they are that, or else in the encoding that was named."""
    marked = data.startswith((codecs.BOM_UTF16_LE, codecs.BOM_UTF16_BE))
    if b"\0" in data[:256] and not marked and encoding is None:
        raise Fault(f"{file}:1:1: each other byte is zero here, as in UTF-16; give --encoding utf-16-{'be' if data[:1] == bytes(1) else 'le'}")
    name = "utf-16" if marked else "utf-8-sig" if encoding is None or is_utf8(data) else encoding
    hint = "; --encoding names the one of the table, which may be another" if encoding else "; save the table as UTF-8, or give --encoding, cp1252 say for tables of Windows"
    # letters with marks are composed, so that a name is the same whichever program saved it
    return unicodedata.normalize("NFC", text_of(data, file, name, hint))


class Reader:
    """Reads values one after the other. A value in quotes may have delimiters, line ends and doubled quotes."""

    def __init__(self, text, file, delimiter, quote, line=1):
        self.text, self.file, self.delimiter, self.quote = text, file, delimiter, quote
        self.at, self.line, self.begins = 0, line, 0  # `begins` is where the line begins
        self.ends = re.compile(f"[{re.escape(delimiter)}\n]")

    def here(self, text=""):
        return Value(text, self.file, self.line, self.at - self.begins + 1)

    def next_letter(self):
        return self.text[self.at : self.at + 1]

    def quoted(self):
        value, out = self.here(), []
        self.at += 1
        while True:
            letter = self.next_letter()
            if not letter:
                raise value.fault("this quote is not closed; a quote within a value is written twice, or give --quote none if no value is quoted")
            self.at += 1
            if letter == self.quote:
                if self.next_letter() != self.quote:
                    break
                self.at += 1
            out.append(letter)
            if letter == "\n":
                self.line, self.begins = self.line + 1, self.at
        if self.next_letter() not in ("", self.delimiter, "\r", "\n"):
            raise self.here().fault("a quoted value ends here; a quote within one is written twice, or give --quote none if no value is quoted")
        value.text = "".join(out)
        return value

    def bare(self):
        value, found = self.here(), self.ends.search(self.text, self.at)
        end = found.start() if found else len(self.text)
        value.text, self.at = self.text[self.at : end], end
        if value.text.endswith("\r") and self.next_letter() in ("\n", ""):
            value.text = value.text[:-1]
        return value

    def rows(self):
        row = []
        while self.at < len(self.text):
            row.append(self.quoted() if self.quote and self.next_letter() == self.quote else self.bare())
            if self.next_letter() == "\r":
                self.at += 1
            if self.next_letter() == self.delimiter:
                self.at += 1
                if self.at < len(self.text):
                    continue
                row.append(self.here())
            yield row
            row = []
            if self.next_letter() == "\n":
                self.at, self.line = self.at + 1, self.line + 1
                self.begins = self.at


class Row:
    """A row of a table: its number, as a spreadsheet counts, and its values by the names of the columns."""

    def __init__(self, number, values, places, blank):
        self.number, self.values, self.places, self.blank = number, values, places, blank

    def get(self, column):
        """The value in a column; an empty one where the row ends before it, or there is no such column."""
        at = self.places.get(column)
        return self.values[at] if at is not None and at < len(self.values) else self.blank


class Table:
    """The names of the columns, with the value of each, and the rows that have any value."""

    def __init__(self, head, rows, name):
        self.name, self.head, self.columns = name, head, [value.bare() for value in head]
        self.prefixes = {}  # the addresses that a mapping set gives for what stands before the colon of an id
        places = {column: k for k, column in reversed(list(enumerate(self.columns)))}
        self.rows = [Row(number, values, places, end_of(values)) for number, values in rows if any(value.bare() for value in values)]

    def has(self, column):
        return column in self.columns

    def need(self, column, hint=""):
        if not self.has(column):
            raise self.head[0].fault(f"the first row has no column `{column}`; the columns are {', '.join(self.columns)}{hint}")
        if self.columns.count(column) > 1:
            raise self.head[0].fault(f"the first row names the column `{column}` {self.columns.count(column)} times")
        return column


def end_of(values):
    last = values[-1]
    return Value("", last.file, last.line, last.column + len(last.text))


def skipped(text):
    """How many lines at the front are no rows (spreadsheets' `sep=;`, and the comments of SSSOM), and the delimiter if they say one."""
    lines, delimiter = 0, None
    for line in io.StringIO(text, newline="\n"):
        if lines == 0 and line.lower().startswith("sep=") and len(line.rstrip("\r\n")) == 5:
            delimiter = line[4]
        elif not line.startswith("#"):
            break
        lines += 1
    return lines, delimiter


def found_delimiter(line, file, wanted):
    """The delimiter by which the first row has the most of the wanted columns, and then the most columns."""

    def worth(delimiter):
        try:
            names = [name.strip() for name in next(csv.reader([line], delimiter=delimiter))]
        except (csv.Error, StopIteration):
            return (0, 0)
        return (sum(name in wanted for name in names), len(names))

    return max(GUESSED, key=worth)


def table_of(text, file, layout, wanted=()):
    """The table of a text whose first row names the columns; `wanted` are names by which its delimiter is found out."""
    lines, said = skipped(text)
    after = 0
    for _ in range(lines):
        after = text.index("\n", after) + 1 if "\n" in text[after:] else len(text)
    body = text[after:]
    first = body.split("\n", 1)[0]
    delimiter = layout.delimiter or said or found_delimiter(first.rstrip("\r"), file, wanted)
    rows = list(Reader(body, file, delimiter, layout.quote, lines + 1).rows())
    filled = next((k for k, row in enumerate(rows) if any(value.bare() for value in row)), None)
    if filled is None:
        raise Fault(f"{file}:1:1: the table is empty; its first row names the columns")
    comments = lines - (1 if said else 0)  # a spreadsheet doesn't show `sep=;` as a row
    table = Table(rows[filled], [(comments + k, row) for k, row in enumerate(rows[filled + 1 :], filled + 2)], file)
    table.prefixes = prefixes_of(text[:after].split("\n"))
    return table


def prefixes_of(comments):
    """The `curie_map` of a mapping set, from the comments before its table."""
    out, is_in = {}, False
    for line in comments:
        found = re.match(r"""#(\s*)["']?([^\s"']+?)["']?:\s*["']?([^\s"']*)["']?\s*$""", line)
        if not found:
            continue
        if found.group(2) == "curie_map":
            is_in, outer = True, len(found.group(1))
        elif is_in and len(found.group(1)) > outer:
            out[found.group(2)] = found.group(3)
        else:
            is_in = False
    return out


def read_table(file, layout, wanted=()):
    return table_of(decoded(read_bytes(file), file, layout.encoding), file, layout, wanted)
