"""What the words of the command line come to: their first usage fault, as docs/FORMATS.md has it."""

from oracle.commands import DESK, KEYS, KINDS, LIMIT, MOST_PARTS, ROWS, names_in
from oracle.model import LETTERS
from oracle.texts import is_number


def fault_of(words):
    """The first usage fault of words, or None."""
    if not words:
        return "NoCommand"
    if words[0] not in ROWS:
        return "UnknownCommand"
    given = {}
    fault = operands_fault(ROWS[words[0]], words[1:], given)
    if fault:
        return fault
    if ("nodes" in given or "worlds" in given) and "token" not in given:
        return "BudgetWithoutToken"
    if is_name_twice(given) or (words[0] == "parts" and is_token_of_part(given)):
        return "SameName"
    return None


def desk_fault_of(words):
    """The first usage fault of the words of the desk's program, or None."""
    given = {}
    return operands_fault(DESK, words, given) or ("SameName" if is_name_twice(given) else None)


def operands_fault(row, words, given):
    """The first fault of words that give keys of a row, or None; the values are put into a dictionary."""
    for word in words:
        if "=" not in word:
            return "NotOperand"
        key, value = word.split("=", 1)
        if key not in row.required + row.optional:
            return "UnknownKey"
        if key in given:
            return "KeyTwice"
        kind = KEYS[key]
        if kind == "switch" and value not in ("on", "off"):
            return "BadSwitch"
        least, most, step = LIMIT if kind == "limit" else kind if isinstance(kind, tuple) else (0, 0, 0)
        if step and (not is_number(value, least, most) or int(value) % step):
            return "BadNumber"
        if kind == "letters" and (not value or any(c not in LETTERS for c in value)):
            return "BadSet"
        if kind == "limit" and value == "0":
            return "ZeroBudget"
        if kind in ("file", "files") and not all(names_in(key, value)):
            return "EmptyName"
        if kind == "reports":
            kinds = value.split(",")
            if any(k not in KINDS for k in kinds):
                return "UnknownKind"
            if len(set(kinds)) < len(kinds):
                return "KindTwice"
        given[key] = value
    return "MissingKey" if any(key not in given for key in row.required) else None


def is_name_twice(given):
    """Whether two keys name one file; a name may stand twice under one key."""
    files = [name for key, value in given.items() for name in set(names_in(key, value))]
    return len(set(files)) < len(files)


def is_token_of_part(given):
    """Whether the problem's name is that of the token of a part with a number that parts may have."""
    token, file = given["token"], given["in"]
    return file.startswith(token) and is_number(file[len(token) :], 1, MOST_PARTS)
