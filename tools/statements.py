"""Statements from tables: the columns left, relation and right, or a mapping set in the form of SSSOM."""

import meanings
import names
from tables import Fault, counted
from taxonomies import chosen, nearest

PLAIN_COLUMNS = {"left": "left", "relation": "relation", "right": "right"}
SSSOM_COLUMNS = {"subject": "subject_id", "predicate": "predicate_id", "object": "object_id", "modifier": "predicate_modifier"}
AUTHOR_COLUMNS = ["author", "who", "author_label", "author_id", "creator_label", "creator_id", "according_to"]
WANTED = [*PLAIN_COLUMNS.values(), *SSSOM_COLUMNS.values()]
NO_TERM = "sssom:NoTermFound"


class Missing(Fault):
    """A concept that is in none of the taxonomies; it may be outside the part that is taken."""


class Statement:
    """What is said of two concepts, or of one and the parts of its sum; each is a taxonomy and the name of a concept."""

    def __init__(self, left, relations, right, remark):
        self.left, self.relations, self.right, self.remark = left, relations, right, remark  # `right` is a list

    def line(self):
        one = lambda concept: f"{concept[0].name}.{concept[1]}"
        if self.relations is None:
            middle = "sums"
        else:
            middle = self.relations[0] if len(self.relations) == 1 else "{" + " ".join(self.relations) + "}"
        return f"[{one(self.left)} {middle} {' '.join(one(concept) for concept in self.right)}]" + (f"  # {self.remark}" if self.remark else "")


class Concepts:
    """Finds the concepts that a table of statements speaks of."""

    def __init__(self, taxonomies, ways, sides=()):
        self.taxonomies, self.ways = taxonomies, ways
        self.by_text = {taxonomy.text: taxonomy for taxonomy in taxonomies}
        self.sides = [self.by_text[side] for side in sides]  # of which taxonomy a name is on the left, and on the right, if none is named

    def within(self, taxonomy, text, value):
        """The concept of this text or id in a taxonomy; None where there is none."""
        found = taxonomy.texts.get(text) or taxonomy.ids.get(text)
        if not found and taxonomy.separator and taxonomy.separator in text:
            found = taxonomy.ids.get(f" {taxonomy.separator} ".join(" ".join(part.split()) for part in text.split(taxonomy.separator)))
        if not found and self.ways.blanks:
            name = self.ways.concept_name(text, value)
            found = name if name in taxonomy.children else None
        return (taxonomy, found) if found else None

    def refused(self, taxonomy, text, value, hint=""):
        if text in taxonomy.synonyms:
            accepted = taxonomy.synonyms[text]
            name = taxonomy.ids.get(accepted)
            now = f" of {taxonomy.origins[name][0]!r}" if name else ""
            raise value.fault(f"{text!r} is a synonym{now} in the taxonomy {taxonomy.text}; name the accepted one")
        raise Missing(f"{value.place()}: the taxonomy {taxonomy.text} has no concept {text!r}{hint or taxonomy.like(text)}")

    def named(self, value, side, hint=""):
        """The concept of TAXONOMY.CONCEPT, or of a name alone where the caller said which taxonomy each side is of."""
        text = value.bare()
        for name, taxonomy in self.by_text.items():
            # the name of a taxonomy may have a full stop itself
            if text.startswith(name + ".") and self.within(taxonomy, text[len(name) + 1 :].strip(), value):
                return self.within(taxonomy, text[len(name) + 1 :].strip(), value)
        before, dot, rest = text.partition(".")
        if self.sides and before not in self.by_text:
            return self.within(self.sides[side], text, value) or self.refused(self.sides[side], text, value, hint)
        if not dot:
            raise value.fault(f"{text!r} is not TAXONOMY.CONCEPT; if the taxonomy is always the same, give --sides LEFT,RIGHT")
        if before not in self.by_text:
            raise value.fault(f"there is no taxonomy {before!r}; there are {', '.join(self.by_text)}")
        return self.refused(self.by_text[before], rest, value, hint)

    def unidentified(self, value, prefixes):
        """The fault of an id or name that no taxonomy has."""
        text = value.bare()
        before, colon, rest = text.partition(":")
        homes = [taxonomy.text for taxonomy in self.taxonomies if rest and self.within(taxonomy, rest, value)]
        if before in self.by_text:
            taxonomy = self.by_text[before]
            hint = f"; the taxonomy {homes[0]} has it" if homes else nearest(rest, [*taxonomy.ids, *taxonomy.texts])
            return Missing(f"{value.place()}: the taxonomy {before} has no concept with the id or name {rest!r}{hint}")
        hint = f"; is it {' or '.join(f'{home}:{rest}' for home in homes)}?" if colon and homes else ""
        hint = hint or nearest(prefixes.get(before, before + colon) + rest, [one for taxonomy in self.taxonomies for one in [*taxonomy.ids, *taxonomy.texts]])
        return Missing(f"{value.place()}: no taxonomy has a concept with the id or name {text!r}{hint}")

    def identified(self, value, prefixes):
        """The concept of an id, with the taxonomy before it (`old:17`, `old.Salix alba`) or alone; None where there is none."""
        text = value.bare()
        prefix, colon, local = text.partition(":")
        if colon and prefix in prefixes:
            whole = [concept for concept in (self.within(taxonomy, prefixes[prefix] + local, value) for taxonomy in self.taxonomies) if concept]
            if len(whole) == 1:
                return whole[0]
        for mark in (":", "."):
            before, found, rest = text.partition(mark)
            if found and before in self.by_text:
                concept = self.within(self.by_text[before], rest, value) or self.within(self.by_text[before], names.undone(rest), value)
                if concept:
                    return concept
                if rest in self.by_text[before].synonyms:
                    self.refused(self.by_text[before], rest, value)
        all_found = [concept for concept in (self.within(taxonomy, text, value) for taxonomy in self.taxonomies) if concept]
        if len(all_found) > 1:
            says = " and ".join(taxonomy.text for taxonomy, _ in all_found)
            raise value.fault(f"{text!r} is in the taxonomies {says}; put the taxonomy and a colon before it")
        for taxonomy in self.taxonomies if not all_found else []:
            if text in taxonomy.synonyms:
                self.refused(taxonomy, text, value)
        return all_found[0] if all_found else None


def parts_of(value):
    """The pieces of a list of concepts: between commas, or, where there are none, between blanks; quotes keep a name with commas whole."""
    text, pieces, at, is_open = value.text, [], 0, False
    by_comma = "," in text or '"' in text
    for k, letter in enumerate(text + ("," if by_comma else " ")):
        if letter == '"' and k < len(text):
            is_open = not is_open
        elif not is_open and (letter == "," if by_comma else letter in " \t\r\n"):
            if text[at:k].strip():
                pieces.append(value.part(at, k))
            at = k + 1
    if is_open:
        raise value.fault("a quote in this list of concepts is not closed")
    for piece in pieces:
        if piece.bare().startswith('"'):
            piece.text = piece.bare()[1:-1].replace('""', '"')
    return pieces


def sum_of(left, right, concepts, remark):
    one, parts = concepts.named(left, 0), []
    pieces = parts_of(right)
    hint = "" if len(pieces) > 1 and "," in right.text else "; the parts of a sum are separated by commas"
    for value in pieces:
        part = concepts.named(value, 1, hint)
        if part[0] is one[0]:
            raise value.fault("a part is of another taxonomy than the whole")
        if part in parts:
            raise value.fault(f"{part[0].name}.{part[1]} stands in this sum twice")
        parts.append(part)
    if len(parts) < 2:
        raise right.fault("a sum has two or more parts")
    return Statement(one, None, parts, remark)


def relations_at(value, table):
    """The relations of a cell: in the program's words, or by a predicate; an empty list where a predicate says too little."""
    text = value.bare()
    if not text:
        raise value.fault("a relation is missing here")
    if meanings.short(text) in table:
        return table[meanings.short(text)]
    try:
        return meanings.relations_of(text)
    except Fault as fault:
        raise value.fault(f"{fault}; other words get a meaning by --predicate '{text}=RELATIONS'")


def remark_of(row, table, author):
    """Where a statement comes from: table, row and author."""
    name = table.name.rsplit("/", 1)[-1]
    who = row.get(author).bare() if author else ""
    return f"{name} row {row.number}" + (f", {who}" if who else "")


def author_column(table, layout):
    asked = layout.column("statements", "author")
    if asked:
        return table.need(asked)
    return next((column for column in AUTHOR_COLUMNS if table.has(column)), None)


def plain_statement(row, columns, concepts, options, remark):
    """The statement of a row; None where its predicate says too little."""
    left, relation, right = (row.get(columns[key]) for key in ("left", "relation", "right"))
    if relation.bare().lower() == "sums":
        return sum_of(left, right, concepts, remark)
    relations = relations_at(relation, options.meanings)
    one, other = concepts.named(left, 0), concepts.named(right, 1)
    check_two(one, other, right)
    if not relations:
        options.leave_out(meanings.short(relation.bare()))
        return None
    return Statement(one, relations, [other], remark)


def check_two(one, other, value):
    if one[0] is other[0]:
        raise value.fault("a statement is on concepts of two taxonomies; both are of " + one[0].text)


def sssom_statement(row, columns, concepts, options, remark, prefixes):
    """The statement of a row of a mapping set; None where it says too little, or of nothing."""
    subject, predicate, thing = (row.get(columns[key]) for key in ("subject", "predicate", "object"))
    if NO_TERM in (meanings.short(subject.bare()), meanings.short(thing.bare())):
        options.leave_out(NO_TERM)
        return None
    word = meanings.short(predicate.bare())
    if word not in options.meanings:
        hint = f"give it one by --predicate {word or 'X'}=RELATIONS, none to leave it out"
        raise predicate.fault(f"the predicate {predicate.bare()!r} has no meaning; {hint}")
    relations = options.meanings[word]
    if relations and row.get(columns["modifier"]).bare().lower() == "not":
        relations = [relation for relation in meanings.ALL if relation not in relations]
    if not relations:
        options.leave_out(word)
        return None
    ends = []
    for value in (subject, thing):
        ends.append(concepts.identified(value, prefixes))
        if ends[-1] is None:
            raise concepts.unidentified(value, prefixes)
    check_two(ends[0], ends[1], thing)
    return Statement(ends[0], relations, [ends[1]], remark)


def each_row(table, options, read):
    """The statements of the rows. Where only a part of a taxonomy is taken, those on other concepts are left out and counted."""
    author, out, outside = author_column(table, options.layout), [], 0
    for row in table.rows:
        try:
            found = read(row, remark_of(row, table, author) if options.remarks else "")
        except Missing:
            if not options.under:
                raise
            found, outside = None, outside + 1
        if found:
            out.append(found)
    if outside:
        options.tell(f"{counted(outside, 'statement')} left out, on concepts outside the part that --under takes")
    return out


def statements_of(table, concepts, options):
    """The statements of a table, by the columns that it has."""
    layout = options.layout
    plain, sssom = (chosen(table, layout, "statements", columns) for columns in (PLAIN_COLUMNS, SSSOM_COLUMNS))
    if not table.has(plain["relation"]) and table.has(sssom["predicate"]):
        for key in ("subject", "predicate", "object"):
            table.need(sssom[key], f"; if yours has another name, give --columns {key}=NAME")
        return each_row(table, options, lambda row, remark: sssom_statement(row, sssom, concepts, options, remark, table.prefixes))
    hint = "; if yours have other names, give --columns left=NAME,relation=NAME,right=NAME"
    for key in PLAIN_COLUMNS:
        table.need(plain[key], hint)
    return each_row(table, options, lambda row, remark: plain_statement(row, plain, concepts, options, remark))


def pairs_of(statements):
    return [(statement.left, other) for statement in statements for other in statement.right]


def unstated(taxonomies, statements):
    """Statements that put apart what nothing is said of: pairs for which no statement speaks of one of them, or of something above or
    below it, together with the other, or something above or below that. Where two concepts are apart, those below them are too, so only
    the topmost pairs get a statement. The second value is how many pairs are meant."""
    out, count = [], 0
    for k, one in enumerate(taxonomies):
        for other in taxonomies[k + 1 :]:
            near = {}
            for left, right in pairs_of(statements):
                ends = {left[0]: left[1], right[0]: right[1]}
                if one in ends and other in ends:
                    lines = [taxonomy.above(ends[taxonomy]) + taxonomy.below(ends[taxonomy])[1:] for taxonomy in (one, other)]
                    for here in lines[0]:
                        near.setdefault(here, set()).update(lines[1])
            free = lambda a, b: b not in near.get(a, ())
            for a in one.children:
                for b in other.children:
                    if not free(a, b):
                        continue
                    count += 1
                    above = [taxonomy.parents[name][0] if name in taxonomy.parents else None for taxonomy, name in ((one, a), (other, b))]
                    if not (above[0] and free(above[0], b)) and not (above[1] and free(a, above[1])):
                        out.append(Statement((one, a), ["disjoint"], [(other, b)], "unstated"))
    return out, count
