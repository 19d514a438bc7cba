"""Taxonomies from tables: rows of a child and its parent, or rows with ids as in Darwin Core; of paths paths.py tells."""

import difflib

import names
import paths
from tables import Fault, counted

# the columns that are looked for, by the key that --columns may give another name
CHILD_COLUMNS = {"child": "child", "parent": "parent"}
PATH_COLUMNS = {"path": "path"}
ID_COLUMNS = {
    "id": "taxonID",
    "parent_id": "parentNameUsageID",
    "name": "scientificName",
    "accepted": "acceptedNameUsageID",
    "status": "taxonomicStatus",
}
RANKS = ["kingdom", "phylum", "class", "order", "family", "genus"]  # columns that Darwin Core has for them, from the top
WANTED = [*CHILD_COLUMNS.values(), *PATH_COLUMNS.values(), *ID_COLUMNS.values()]


def nearest(text, texts):
    """What is most like a name that there is not, in words for a fault."""
    found = difflib.get_close_matches(text, texts, 1, 0.7) or [one for one in texts if one.startswith(text + " ")]
    return f"; the nearest is {found[0]!r}" if found else ""


class Taxonomy:
    """Concepts by the names that problem files have for them, with their texts, ids, parents and children."""

    def __init__(self, text, ways):
        self.text, self.ways = text, ways
        self.name = ways.taxonomy_name(text)
        self.parents, self.children, self.origins = {}, {}, {}
        self.texts, self.ids, self.synonyms = {}, {}, {}  # names by text, names by id, accepted ids by what a synonym is called
        self.id_of = {}
        self.separator = None  # what stands between the names of a path, where the table has paths

    def add(self, text, value):
        """The name for a text, which becomes a concept where it is none yet."""
        name = self.ways.concept_name(text, value)
        earlier = self.origins.setdefault(name, (text, value))
        if earlier[0] != text:
            raise value.fault(f"{text!r} becomes {name!r}, as {earlier[0]!r} does at {earlier[1].place()}")
        self.children.setdefault(name, [])
        self.texts[text] = name
        return name

    def said(self, name):
        """A name in a fault, as people write it."""
        return repr(self.origins[name][0])

    def put_under(self, child, parent, value):
        if child in self.parents:
            above, at = self.parents[child]
            hint = "a name is one concept, so call two concepts by two names (or give their paths, or ids)"
            raise value.fault(f"{self.said(child)} has another parent, {self.said(above)}, at {at.place()}; {hint}")
        way = self.above(parent)
        if child in way:
            names = [self.origins[name][0] for name in [child, *way[: way.index(child) + 1]]]
            raise value.fault(f"these would stand in a circle: {' under '.join(names)}; give one of them another parent, or none")
        self.parents[child] = (parent, value)
        self.children[parent].append(child)

    def above(self, name):
        """The concept and those above it."""
        out = [name]
        while out[-1] in self.parents:
            out.append(self.parents[out[-1]][0])
        return out

    def below(self, name):
        """The concept and those below it."""
        out = [name]
        for one in out:
            out += self.children[one]
        return out

    def keep_below(self, texts, table):
        """Keeps only the concepts of these texts or ids and what is below them."""
        kept = []
        for text in texts:
            name = self.texts.get(text) or self.ids.get(text)
            if name is None:
                raise Fault(f"{table.name}: the taxonomy {self.text} has no concept {text!r} to take what is under it{self.like(text)}")
            kept += [one for one in self.below(name) if one not in kept]
        inside = set(kept)
        self.children = {name: kids for name, kids in self.children.items() if name in inside}
        self.parents = {name: above for name, above in self.parents.items() if name in inside and above[0] in inside}
        self.texts = {text: name for text, name in self.texts.items() if name in inside}
        self.ids = {key: name for key, name in self.ids.items() if name in inside}

    def like(self, text):
        """What is most like a name that there is not, in words for a fault; of a name that ends several paths these paths."""
        paths = [path for path in self.ids if self.separator and path.endswith(f" {self.separator} {text}")]
        return f"; write the whole path, {' or '.join(map(repr, paths[:3]))}" if paths else nearest(text, self.texts)

    def lines(self):
        out = [f"taxonomy {self.name}"]
        for name, kids in self.children.items():
            if kids:
                out.append(f"({' '.join([name] + kids)})")
            elif name not in self.parents:
                out.append(f"({name})")
        return out

    def named(self):
        """The rows of the names table."""
        return [(self.name, name, self.origins[name][0], self.id_of.get(name)) for name in self.children]


class Ways:
    """How texts become names: in the way that can be undone, or, with --blanks, as they are but for their blanks."""

    def __init__(self, blanks=None, may_shorten=False):
        self.blanks, self.may_shorten = blanks, may_shorten

    def as_it_is(self, text, value=None):
        name = text.replace(" ", self.blanks).replace("\t", self.blanks)
        fault = names.fault_of(name)
        if fault:
            raise value.fault(fault) if value else Fault(fault)
        return name

    def concept_name(self, text, value):
        if not text:
            raise value.fault("a name is missing here")
        if self.blanks:
            return self.as_it_is(text, value)
        name = names.written(text)
        if names.is_long(name):
            if not self.may_shorten:
                raise value.fault(f"the name {text!r} has more than {names.MOST_BYTES} bytes as it is written; shorten it, or give --names FILE")
            name = names.shortened(text)
        return name

    def taxonomy_name(self, text):
        name = self.as_it_is(text) if self.blanks else names.written(text, also=".")
        if "." in name:
            raise Fault(f"the name {name!r} of a taxonomy has a full stop; leave it out")
        if not name or names.is_long(name):
            raise Fault(f"the name {text!r} of a taxonomy is empty, or has more than {names.MOST_BYTES} bytes")
        return name


def chosen(table, layout, taxonomy, columns):
    """The names of columns by key: those that the caller gave, and else the usual ones."""
    out = {key: layout.column(taxonomy, key) or usual for key, usual in columns.items()}
    plain = {column.rsplit("/", 1)[-1].split(":")[-1].lower(): column for column in table.columns}
    return {key: column if table.has(column) else plain.get(column.lower(), column) for key, column in out.items()}


def form_of(table, layout, taxonomy):
    """How a table is to be read, with its columns: by a form that is there whole, one that the caller named first, else by the form of
    which it has the most columns, and of equals by the first."""
    forms = [(CHILD_COLUMNS, ("child", "parent")), (PATH_COLUMNS, ("path",)), (ID_COLUMNS, ("id", "parent_id", "name"))]
    found = []
    for usual, needed in forms:
        columns = chosen(table, layout, taxonomy, usual)
        is_whole = all(table.has(part) for key in needed for part in paths.levels(table, columns[key]))
        is_asked = any(layout.column(taxonomy, key) for key in usual)
        count = sum(table.has(column) for column in columns.values())
        found.append(((is_whole, is_asked, count), usual, columns))
    best = max(found, key=lambda one: one[0])  # the first of equals
    return best[1], best[2]


def taxonomy_of(text, table, layout, ways, options):
    """The taxonomy of a table, by the columns that it has."""
    taxonomy = Taxonomy(text, ways)
    form, columns = form_of(table, layout, text)
    if form is ID_COLUMNS:
        from_ids(taxonomy, table, columns, options)
        return taxonomy
    if form is PATH_COLUMNS:
        ids = chosen(table, layout, text, ID_COLUMNS)
        rows = [row for row in table.rows if not is_synonym(row, ids)]
        paths.from_paths(taxonomy, table, rows, paths.levels(table, columns["path"]), ids["id"], options)
        tell_synonyms(taxonomy, len(table.rows) - len(rows), options)
    else:
        from_parents(taxonomy, table, columns, options)
    if text in options.under:
        taxonomy.keep_below(options.under[text], table)
    return taxonomy


def need_parents(taxonomy, table, columns):
    for key in ("child", "parent"):
        if not table.has(columns[key]):
            hint = "; with other names of columns, give --columns child=NAME,parent=NAME (or path=NAME, or id=NAME,parent_id=NAME,name=NAME)"
            of_paths = paths.looks_like_paths(table)
            if of_paths:
                hint = f"; {of_paths} looks like paths: give --columns '{taxonomy.text}:path={of_paths}'"
            if len(table.columns) == 1:
                hint = "; if it is not commas that separate the values, give --delimiter"
            if key == "child" and ("relation" in table.columns or "predicate_id" in table.columns):
                hint = "; give a table of statements as statements=FILE"
            found = ", ".join(table.columns)
            raise table.head[0].fault(f"the first row has no column `{columns[key]}`; it has {found}{hint}")
        table.need(columns[key])


def from_parents(taxonomy, table, columns, options):
    """A row for each concept with its parent, also for the roots, whose parent is left empty; a row may be there several times."""
    need_parents(taxonomy, table, columns)
    roots, again = {}, 0
    for row in table.rows:
        child, parent = row.get(columns["child"]), row.get(columns["parent"])
        if not child.bare():
            raise child.fault("a name is missing here")
        if parent.bare():
            above = taxonomy.add(parent.bare(), parent)
            here = taxonomy.add(child.bare(), child)
            if here in roots:
                raise parent.fault(f"{taxonomy.said(here)} has a row without a parent already, at {roots[here].place()}")
            if taxonomy.parents.get(here, (None, None))[0] == above:
                again += 1
            else:
                taxonomy.put_under(here, above, parent)
        else:
            here = taxonomy.add(child.bare(), child)
            if here in taxonomy.parents:
                parent, at = taxonomy.parents[here]
                raise child.fault(f"{taxonomy.said(here)} has a parent already, {taxonomy.said(parent)}, at {at.place()}")
            again += here in roots
            roots.setdefault(here, child)
    if again:
        options.tell(f"{taxonomy.text}: {counted(again, 'row')} left out, of concepts that have the same row already")
    for above in taxonomy.children:
        if above not in taxonomy.parents and above not in roots:
            # most likely it is misspelled
            says = f"the parent {taxonomy.said(above)} has no row of its own; correct its spelling, or add a row in which it is the child and no parent stands"
            raise taxonomy.origins[above][1].fault(says)


def is_synonym(row, columns):
    accepted, here = row.get(columns["accepted"]).bare(), row.get(columns["id"]).bare()
    status = row.get(columns["status"]).bare().lower()
    return (accepted and accepted != here) or "synonym" in status or "misapplied" in status


def tell_synonyms(taxonomy, count, options):
    if count:
        options.tell(f"{taxonomy.text}: {counted(count, 'synonym')} left out")


def accepted_rows(taxonomy, table, columns):
    """The rows of accepted names by id; synonyms are left out, and who they are of is kept."""
    rows, synonyms = {}, {}
    for row in table.rows:
        key = row.get(columns["id"])
        if not key.bare():
            raise key.fault("an id is missing here")
        earlier = rows.get(key.bare()) or synonyms.get(key.bare())
        if earlier:
            raise key.fault(f"the id {key.bare()} has a row already, at {earlier.get(columns['id']).place()}")
        if is_synonym(row, columns):
            synonyms[key.bare()] = row
            for called in (key.bare(), row.get(columns["name"]).bare()):
                taxonomy.synonyms.setdefault(called, row.get(columns["accepted"]).bare())
        else:
            rows[key.bare()] = row
    return rows, synonyms


def text_of(row, columns):
    return row.get(columns["name"]).bare() or row.get(columns["id"]).bare()


def text_for(row, columns, twice, options):
    """What a concept is called: by its name, and its id behind that where names stand twice and the caller asked for it."""
    text = text_of(row, columns)
    if text in twice and options.apart:
        return f"{text} [{row.get(columns['id']).bare()}]"
    if text in twice and twice[text] is not row:
        name, first = row.get(columns["name"]), twice[text].get(columns["name"])
        raise name.fault(f"{text!r} is the name of two concepts, here and at {first.place()}; give --apart to put the ids behind such names")
    return text


def names_twice(rows, columns):
    """The names that several rows have, each with its first row."""
    first, twice = {}, {}
    for row in rows.values():
        text = text_of(row, columns)
        if text in first:
            twice[text] = first[text]
        first.setdefault(text, row)
    return twice


def parent_of(row, columns, synonyms):
    """The id of the parent, or of the accepted concept where the parent is a synonym; empty at a root."""
    above = row.get(columns["parent_id"]).bare()
    if above in synonyms:
        above = synonyms[above].get(columns["accepted"]).bare()
    return "" if above == row.get(columns["id"]).bare() else above


def rows_under(texts, taxonomy, table, columns, rows, synonyms):
    """The rows of the concepts of these names or ids, and of what is below them."""
    kids, kept = {}, []
    for key, row in rows.items():
        kids.setdefault(parent_of(row, columns, synonyms), []).append(key)
    for text in texts:
        tops = [key for key, row in rows.items() if text in (key, text_of(row, columns))]
        if len(tops) != 1:
            many = f"{len(tops)} concepts" if tops else "no concept"
            hint = "give the id of one" if tops else f"give its whole name, or its id{nearest(text, [text_of(row, columns) for row in rows.values()])}"
            raise Fault(f"{table.name}: the taxonomy {taxonomy.text} has {many} {text!r}; {hint}")
        kept += tops
    for key in kept:
        kept += [kid for kid in kids.get(key, []) if kid not in texts]
    return {key: rows[key] for key in dict.fromkeys(kept)}


def from_ids(taxonomy, table, columns, options):
    """Rows with an id, the id of the parent and a name, as in Darwin Core."""
    ranks = [rank for rank in RANKS if table.has(rank)]
    for key in ("id", "parent_id", "name"):
        hint = f"; if yours has another name, give --columns '{taxonomy.text}:{key}=NAME'"
        if key == "parent_id" and ranks and table.has(columns["name"]):
            hint = f"; by its columns of ranks it is read with --columns '{taxonomy.text}:path={'+'.join([*ranks, columns['name']])}'"
        table.need(columns[key], hint)
    rows, synonyms = accepted_rows(taxonomy, table, columns)
    asked = options.under.get(taxonomy.text)
    if asked:
        rows = rows_under(asked, taxonomy, table, columns, rows, synonyms)
    twice = names_twice(rows, columns)
    for key, row in rows.items():
        name = taxonomy.add(text_for(row, columns, twice, options), row.get(columns["name"]))
        taxonomy.ids[key], taxonomy.id_of[name] = name, key
    for key, row in rows.items():
        parent, above = row.get(columns["parent_id"]), parent_of(row, columns, synonyms)
        if above in rows:
            taxonomy.put_under(taxonomy.ids[key], taxonomy.ids[above], parent)
        elif above and not options.loose and not asked:
            raise parent.fault(f"no row has the id {above} of this parent; give --loose to take such concepts for roots")
    tell_synonyms(taxonomy, len(synonyms), options)
