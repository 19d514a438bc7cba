"""The one way in which names of other programs are written in problem files, so that it can be undone.

A blank is written `_`. What no name of a problem file may have (tabs, control characters and `( ) [ ] { } #`), and `_` and `%` themselves,
are written `%` and two hexadecimal digits for each byte of UTF-8. So *Salix alba* (L.) is written `Salix_alba_%28L.%29`: it is how
Wikipedia writes names in its addresses. `undone` takes it back; so does whatever undoes the percent signs of addresses, once each `_` is
a blank. In the name of a taxonomy a full stop is written `%2E`, since statements cut at the first one.

A name of more than 128 bytes is cut, and `%~` and eight digits of its SHA-256 stand at the end. Only a names table undoes that.
"""

import csv
import hashlib
import re

MOST_BYTES = 128
ESCAPED = set("_%()[]{}#")
COLUMNS = ["taxonomy", "name", "text", "id"]


def is_control(letter):
    return ord(letter) < 32 or ord(letter) == 127


def piece(letter, also):
    if letter == " ":
        return "_"
    if letter in ESCAPED or letter in also or is_control(letter):
        return "".join(f"%{byte:02X}" for byte in letter.encode())
    return letter


def written(text, also=""):
    """The name for a text, whatever its length; the letters of `also` are escaped too."""
    return "".join(piece(letter, also) for letter in text)


def is_long(name):
    return len(name.encode()) > MOST_BYTES


def shortened(text):
    """The name for a text that is too long: as much of it as there is room for, and a mark of the whole."""
    mark = "%~" + hashlib.sha256(text.encode()).hexdigest()[:8]
    out, room = [], MOST_BYTES - len(mark)
    for letter in text:
        this = piece(letter, "")
        room -= len(this.encode())
        if room < 0:
            break
        out.append(this)
    return "".join(out) + mark


def undone(name):
    """The text of a name; what is no escape stays as it is, since people write names by hand too."""
    data = re.sub(rb"%([0-9A-Fa-f]{2})", lambda found: bytes([int(found.group(1), 16)]), name.replace("_", " ").encode())
    try:
        return data.decode()
    except UnicodeDecodeError:
        return name.replace("_", " ")


def fault_of(name):
    """What is wrong with a name that is taken as it is; None where nothing is."""
    if not name:
        return "a name is missing here"
    if is_long(name):
        return f"the name {name!r} has more than {MOST_BYTES} bytes; shorten it"
    for letter in name:
        if letter in " \t":
            return f"the name {name!r} has a space; write it without"
        if letter in "()[]{}#":
            return f"the name {name!r} has `{letter}`, which no name may have; leave it out"
        # other scripts' spaces are letters like any other; control characters are not
        if is_control(letter):
            return f"the name {name!r} has a control character; leave it out"
    return None


def write_table(path, rows):
    """Writes the names table: rows of a taxonomy, a name, its text and its id, or None."""
    with open(path, "w", encoding="utf-8", newline="") as file:
        table = csv.writer(file, delimiter="\t", lineterminator="\n")
        table.writerow(COLUMNS)
        for taxonomy, name, text, key in rows:
            table.writerow([taxonomy, name, text, key or ""])
