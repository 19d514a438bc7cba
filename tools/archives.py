"""Darwin Core archives: a zip file, or a folder, with `meta.xml`, which says how its core table is written and what its columns mean."""

import codecs
import os
import xml.etree.ElementTree as xml
import zipfile
import zlib

from tables import Fault, Reader, Row, Table, Value, decoded, end_of, read_bytes, table_of

SPACE = "{http://rs.tdwg.org/dwc/text/}"
MOST_BYTES = 1 << 30  # more than any table that is read; a damaged archive may promise anything
PLAIN = ("taxon.txt", "taxon.tsv", "taxon.csv", "taxa.txt", "taxa.tsv", "taxa.csv")  # whatever the case of their letters
WORKBOOKS = {"[Content_Types].xml", "content.xml"}  # what Excel's and LibreOffice's have in them
ESCAPES = {"\\t": "\t", "\\n": "\n", "\\r": "\r"}


def is_archive(file):
    return os.path.isdir(file) or zipfile.is_zipfile(file) or file.lower().endswith(".zip")


class Archive:
    """The files of an archive by their names, whether it is zipped or a folder."""

    def __init__(self, file):
        self.file, self.zip = file, None
        try:
            if not os.path.isdir(file):
                self.zip = zipfile.ZipFile(file)
            found = self.zip.namelist() if self.zip else os.listdir(file)
        except (OSError, zipfile.BadZipFile) as error:
            why = getattr(error, "strerror", None) or f"{error}; fetch it once more, or give the table in it"
            raise Fault(f"{file}: this archive can't be read: {why}")
        self.members = {name.rsplit("/", 1)[-1]: name for name in reversed(found)}

    def names(self):
        """The names of some files, in words for a fault."""
        return ", ".join(sorted(name for name in self.members if name)[:8]) or "nothing"

    def read(self, name):
        if name not in self.members:
            raise Fault(f"{self.file}: the archive has no {name}, which meta.xml names, but {self.names()}")
        try:
            if not self.zip:
                return read_bytes(os.path.join(self.file, name))
            info = self.zip.getinfo(self.members[name])
            if info.file_size > MOST_BYTES:
                raise Fault(f"{self.file}/{name}: this table has {info.file_size} bytes; at most {MOST_BYTES} are read")
            return self.zip.read(info)
        except (OSError, RuntimeError, NotImplementedError, zipfile.BadZipFile, zlib.error) as error:
            raise Fault(f"{self.file}/{name}: this file of the archive can't be read: {error}")


def core_of(data, file):
    """The element of the core table, with the place of `meta.xml`."""
    place = f"{file}/meta.xml"
    try:
        root = xml.fromstring(data)
    except xml.ParseError as error:
        raise Fault(f"{place}:{error.position[0]}:{error.position[1] + 1}: this is not XML: {str(error).split(':')[0]}")
    except (LookupError, ValueError) as error:
        raise Fault(f"{place}:1:1: the encoding that is named here can't be read: {error}")
    core = root.find(f"{SPACE}core")
    core = root.find("core") if core is None else core
    if core is None:
        raise Fault(f"{place}: there is no core table")
    return core


def found(element, name):
    return [one for one in element.iter() if one.tag in (SPACE + name, name)]


def unescaped(text):
    for written, letter in ESCAPES.items():
        text = text.replace(written, letter)
    return text


def number(text, file, what):
    if text is None or not text.isdecimal():
        raise Fault(f"{file}/meta.xml: {what} {text!r} is no number")
    return int(text)


def columns_of(core, file):
    """For each term that a column has, the column's place, and the values that all rows have."""
    places, fixed = {}, {}
    for one in found(core, "id"):
        places["taxonID"] = number(one.get("index"), file, "the index of the id")
    for one in found(core, "field"):
        term = (one.get("term") or "").rsplit("/", 1)[-1].rsplit("#", 1)[-1]
        if one.get("index") is not None:
            places[term] = number(one.get("index"), file, f"the index of {term}")
        elif one.get("default") is not None:
            fixed[term] = one.get("default")
    return places, fixed


def read_archive(file, layout):
    """The core table of an archive; without `meta.xml`, its taxon.txt as any table."""
    archive = Archive(file)
    if "meta.xml" not in archive.members:
        lower = {name.lower(): name for name in archive.members}
        plain = next((lower[name] for name in PLAIN if name in lower), None)
        if WORKBOOKS & set(archive.members):
            raise Fault(f"{file}: this is a workbook; save each of its tables as CSV")
        if plain is None:
            raise Fault(f"{file}: the archive has neither meta.xml nor taxon.txt, but {archive.names()}; give the table of taxa itself, unpacked")
        place = f"{file}/{plain}"
        return table_of(decoded(archive.read(plain), place, layout.encoding), place, layout, ("taxonID", "scientificName"))
    core = core_of(archive.read("meta.xml"), file)
    location = next((one.text.strip() for one in found(core, "location") if one.text and one.text.strip()), None)
    if location is None:
        raise Fault(f"{file}/meta.xml: the core table has no location")
    return core_table(core, archive.read(location.rsplit("/", 1)[-1]), file, f"{file}/{location}", layout)


def encoding_of(core, file):
    name = core.get("encoding")
    try:
        return name if name and codecs.lookup(name) else None
    except LookupError:
        raise Fault(f"{file}/meta.xml: there is no encoding {name!r}")


def core_table(core, data, file, place, layout):
    delimiter = unescaped(core.get("fieldsTerminatedBy", ","))
    quote = unescaped(core.get("fieldsEnclosedBy", '"')) or None
    if len(delimiter) != 1 or (quote and len(quote) != 1):
        raise Fault(f"{file}/meta.xml: fieldsTerminatedBy and fieldsEnclosedBy are one character each")
    heads = number(core.get("ignoreHeaderLines", "0"), file, "ignoreHeaderLines")
    text = decoded(data, place, layout.encoding or encoding_of(core, file))
    if unescaped(core.get("linesTerminatedBy", "\n")) == "\r":
        text = text.replace("\r", "\n")
    rows = list(enumerate(Reader(text, place, delimiter, quote).rows(), 1))[heads:]
    places, fixed = columns_of(core, file)
    for term, at in places.items():
        short = next((row for _, row in rows if any(value.bare() for value in row) and len(row) <= at), None)
        if short and term in ("taxonID", "scientificName"):
            raise end_of(short).fault(f"the row has no column {at}, in which meta.xml puts {term}; columns are counted from 0")
    return ArchiveTable(places, fixed, rows, place)


class ArchiveTable(Table):
    """A table whose columns are named by `meta.xml`, by the last word of their terms."""

    def __init__(self, places, fixed, rows, name):
        self.name, self.prefixes, self.columns = name, {}, list(places) + list(fixed)
        self.head = [Value(column, name, 1, 1) for column in self.columns]
        self.rows = []
        for row_number, values in rows:
            if any(value.bare() for value in values):
                end = end_of(values)
                more = [Value(text, end.file, end.line, end.column) for text in fixed.values()]
                at = {**places, **{term: len(values) + k for k, term in enumerate(fixed)}}
                self.rows.append(Row(row_number, values + more, {t: k for t, k in at.items() if t in fixed or k < len(values)}, end))
