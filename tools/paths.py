"""Taxonomies from the paths of categories: one column with whole paths, `Office > Chairs`, or a column for each level."""

SEPARATORS = ["/", "|", "»", "→", "\\", "::", ";"]  # what often stands between the names of a path beside >


def levels(table, column):
    """The columns that the word for the column of paths means: one, or several with + between them, a level each."""
    return [column] if table.has(column) else [part.strip() for part in column.split("+")]


def looks_like_paths(table):
    """The first column most values of which have what stands between the names of a path; None where there is none."""
    for column in table.columns:
        values = [row.get(column).bare() for row in table.rows if row.get(column).bare()]
        for separator in [" > ", " / ", " » ", " → ", ">", "/", "|"]:
            such = [value for value in values if separator in value.strip(separator) and not set(value) <= set("0123456789/.:- ")]
            if 2 * len(such) > len(values) and "://" not in such[0]:
                return column
    return None


def path_of(value, separator):
    """The names of a path, from the top."""
    parts = [part.strip() for part in value.bare().split(separator)]
    if parts and not parts[0]:
        parts = parts[1:]  # as in a path that begins at the top
    if "" in parts:
        raise value.fault(f"a name of this path is missing between two {separator!r}")
    return tuple(parts)


def check_separator(values, separator, taxonomy):
    """A fault where no path has what stands between names if nothing else is said, while most have something else that often does."""
    if any(separator in value.text for value in values):
        return
    for other in SEPARATORS:
        such = [value for value in values if other in value.bare().strip(other)]
        if 2 * len(such) > len(values):
            says = f"no path of this table has {separator!r} in it, and most have {other!r}"
            raise such[0].fault(f"{says}; give --path-separator '{taxonomy.text}:{other}' (or '{taxonomy.text}:{separator}' if each is one name)")


def paths_of(rows, columns, taxonomy, options):
    """The path of each row, with the value at which it ends; None for a row that has none."""
    separator, is_said = options.separator(taxonomy.text)
    taxonomy.separator = separator
    found = [[value for value in map(row.get, columns) if value.bare()] for row in rows]
    if len(columns) == 1 and not is_said:
        check_separator([values[0] for values in found if values], separator, taxonomy)
    names = lambda values: tuple(value.bare() for value in values) if len(columns) > 1 else path_of(values[0], separator)
    return [(names(values), values[-1]) if values else None for values in found]


def from_paths(taxonomy, table, rows, columns, id_column, options):
    """Rows with a path; those above are made too, and a path may stand in many rows. If a row has an id, it is one of the path's end."""
    for column in columns:
        table.need(column)
    found, called = {}, {}
    for row, ended in zip(rows, paths_of(rows, columns, taxonomy, options)):
        if ended:
            path, value = ended
            called.setdefault(path, []).append(row.get(id_column).bare())
            for k in range(1, len(path) + 1):
                found.setdefault(path[:k], value)
    ends = {}
    for path in found:
        ends.setdefault(path[-1], []).append(path)
    twice = sorted(end for end, paths in ends.items() if len(paths) > 1)
    made = {}
    for path, value in found.items():
        whole = f" {taxonomy.separator} ".join(path)
        made[path] = taxonomy.add(whole if path[-1] in twice else path[-1], value)
        taxonomy.ids[whole], taxonomy.id_of[made[path]] = made[path], whole
        taxonomy.ids.update((key, made[path]) for key in called.get(path, []) if key)
        if len(path) > 1:
            taxonomy.put_under(made[path], made[path[:-1]], value)
    if twice:
        options.tell(f"{taxonomy.text}: these end several paths, so their names are the whole paths: {', '.join(twice)}")
