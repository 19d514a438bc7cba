#!/usr/bin/env python3
"""Tests of tools/from_csv on tables of other programs: Darwin Core, mappings in the form of SSSOM, spreadsheets.

    python3 tools/test_other_tables.py
"""

import io
import os
import sys
import unittest
import zipfile

HERE = os.path.dirname(os.path.abspath(__file__))
sys.path.insert(0, os.path.join(HERE, "../tests"))
from oracle import texts  # noqa: E402
import tool_runs  # noqa: E402

WILLOWS = os.path.join(HERE, "../examples/tables/willows")
SHOP = os.path.join(HERE, "../examples/tables/office")
TAXA = "taxonID\tparentNameUsageID\tacceptedNameUsageID\tscientificName\n"
META = """<archive xmlns="http://rs.tdwg.org/dwc/text/">
<core encoding="UTF-8" fieldsTerminatedBy="," fieldsEnclosedBy='"' ignoreHeaderLines="0"><files><location>t.csv</location></files>
<id index="0"/><field index="1" term="http://rs.tdwg.org/dwc/terms/parentNameUsageID"/>
<field index="2" term="http://rs.tdwg.org/dwc/terms/scientificName"/></core></archive>"""
PLAIN = "child,parent\nA,\nB,A\n"


def zipped(**files):
    out = io.BytesIO()
    with zipfile.ZipFile(out, "w", zipfile.ZIP_DEFLATED) as archive:
        for name, text in files.items():
            archive.writestr(name.replace("__", "."), text)
    return out.getvalue()


def from_folder(folder):
    files = {}
    for name in os.listdir(folder):
        with open(os.path.join(folder, name), encoding="utf-8", newline="") as file:
            files[name.replace(".", "__")] = file.read()
    return zipped(**files)


class Case(unittest.TestCase):
    def setUp(self):
        self.folder = tool_runs.Folder(self)

    def make(self, *words, **files):
        self.folder.write(files)
        return self.folder.run("from_csv", *words)

    def made(self, *words, **files):
        code, out, err = self.make(*words, **files)
        self.assertEqual(code, 0, err)
        texts.read_problem(out.encode(), (True, True, True))
        return out, err

    def refused(self, says, *words, **files):
        code, out, err = self.make(*words, **files)
        self.assertEqual((code, out, err), (1, "", f"from_csv: {says}\n"))


class DarwinCore(Case):
    def test_the_willows(self):
        words = [f"1988={WILLOWS}/flora1988.txt", f"2019={WILLOWS}/flora2019", f"statements={WILLOWS}/mappings.sssom.tsv", "--names", "names"]
        out, err = self.made(*words)
        self.assertIn("(Salix_repens_L. Salix_repens_subsp._repens Salix_repens_subsp._rosmarinifolia_%28L.%29_Hartm.)\n", out)
        self.assertIn("[1988.Salix_fragilis_L. includes 2019.Salix_euxina_I.V.Belyaeva]  # mappings.sssom.tsv row 7, Ben Okoro\n", out)
        self.assertIn("1988: 1 synonym was left out", err)
        self.assertIn("2019: 2 synonyms were left out", err)
        self.assertIn("1 statement was left out for skos:closeMatch; --predicate gives it a meaning", err)
        self.assertIn("2019\tSalix_×fragilis_L.\tSalix ×fragilis L.\t103\n", self.folder.read("names"))
        # the same from an archive that is zipped, and with a meaning for what was left out
        self.folder.write({"flora.zip": from_folder(f"{WILLOWS}/flora2019")})
        words[1] = "2019=flora.zip"
        self.assertEqual(self.made(*words)[0], out)
        more, _ = self.made(*words, "--predicate", "skos:closeMatch=includes overlaps")
        self.assertIn("[1988.Salix_fragilis_L. {includes overlaps} 2019.Salix_×fragilis_L.]  # mappings.sssom.tsv row 8, a program\n", more)

    def test_rows_in_any_order_and_parents_that_are_synonyms(self):
        old = TAXA + "3\t2\t\tc\n2\t1\t9\tb\n1\t\t\ta\n9\t1\t9\td\n"
        out, err = self.made("x=old", "y=new", old=old, new=TAXA + "1\t\t\tA\n")
        self.assertIn("taxonomy x\n(a d)\n(d c)\n", out)
        self.assertIn("1 synonym was left out", err)

    def test_what_is_damaged(self):
        new = TAXA + "1\t\t\tA\n"
        for rows, says in [
            ("1\t\t\ta\n1\t\t\tb\n", "old:3:1: the id 1 has a row already, at old:2:1"),
            ("1\t\t\ta\n2\t7\t\tb\n", "old:3:3: no row has the id 7 of this parent; give --loose to take such concepts for roots"),
            ("1\t\t\ta\n2\t1\t\ta\n", "old:3:6: 'a' is the name of two concepts, here and at old:2:5; give --apart to put the ids behind such names"),
            ("1\t2\t\ta\n2\t1\t\tb\n", "old:3:3: these would stand in a circle: b under a under b; give one of them another parent, or none"),
            ("\t\t\ta\n", "old:2:1: an id is missing here"),
            ('1\t\t\ta\n2\t1\t\t"b" c\n', "old:3:9: a quoted value ends here; a quote within one is written twice, or give --quote none if no value is quoted"),
        ]:
            self.refused(says, "x=old", "y=new", old=TAXA + rows, new=new)
        out, _ = self.made("x=old", "y=new", "--apart", old=TAXA + "1\t\t\ta\n2\t1\t\ta\n", new=new)
        self.assertIn("(a_%5B1%5D a_%5B2%5D)\n", out)
        out, _ = self.made("x=old", "y=new", "--loose", "--quote", "none", old=TAXA + '1\t8\t\t"a" b\n', new=new)
        self.assertIn('("a"_b)\n', out)

    def test_archives_that_are_damaged(self):
        for data, says in [
            (b"PK\x03\x04 no more", "o.zip: this archive can't be read: File is not a zip file; fetch it once more, or give the table in it"),
            (zipped(a="b", c="d"), "o.zip: the archive has neither meta.xml nor taxon.txt, but a, c; give the table of taxa itself, unpacked"),
            (zipped(meta__xml="<archive>\n <core"), "o.zip/meta.xml:2:2: this is not XML: unclosed token"),
            (zipped(meta__xml="<archive/>"), "o.zip/meta.xml: there is no core table"),
            (zipped(meta__xml=META), "o.zip: the archive has no t.csv, which meta.xml names, but meta.xml"),
            (zipped(meta__xml=META.replace('index="2"', 'index="x"'), t__csv="1,,a\n"), "o.zip/meta.xml: the index of scientificName 'x' is no number"),
            (zipped(meta__xml=META, t__csv="1,,a\n2,1\n"), "o.zip/t.csv:2:4: the row has no column 2, in which meta.xml puts scientificName; columns are counted from 0"),
            (zipped(meta__xml=META, t__csv=b"1,,a\n2,1,\xff\n"), "o.zip/t.csv:2:5: these bytes are not UTF-8; --encoding names the one of the table, which may be another"),
            (zipped(meta__xml=META, t__csv='1,,a\n2,1,"b\n'), "o.zip/t.csv:2:5: this quote is not closed; a quote within a value is written twice, or give --quote none if no value is quoted"),
        ]:
            self.refused(says, "x=o.zip", "y=new", **{"o.zip": data, "new": PLAIN})
        out, _ = self.made("x=o.zip", "y=new", **{"o.zip": zipped(Taxon__CSV=TAXA.replace("\t", ",") + "1,,,a\n2,1,,b\n")})
        self.assertIn("taxonomy x\n(a b)\n", out)

    def test_columns_that_are_missing(self):
        says = "old:1:1: the first row has no column `parentNameUsageID`; the columns are taxonID, parentID, scientificName; if yours has another name, "
        says += "give --columns 'x:parent_id=NAME'"
        self.refused(says, "x=old", "y=new", old="taxonID\tparentID\tscientificName\n1\t\ta\n", new=PLAIN)

    def test_a_thousand_concepts(self):
        rows = "".join(f"t{k}\t{'' if k == 0 else f't{(k - 1) // 3}'}\t\tName no. {k} (L.)\n" for k in range(512))
        more = "".join(f"s{k}\t\tt{k}\tSynonym {k}\n" for k in range(2000))
        links = "subject_id\tpredicate_id\tobject_id\n" + "".join(f"x:t{k}\tskos:exactMatch\ty:t{k}\n" for k in range(512))
        out, err = self.made("x=old", "y=old", "statements=links", old=TAXA + rows + more, links=links)
        self.assertIn("x: 2000 synonyms were left out", err)
        problem = texts.read_problem(out.encode(), (True, True, True))
        self.assertEqual((len(problem.names), len(problem.articulations)), (1024, 512))
        broken = TAXA + rows.replace("t300\tt99\t", "t300\tt9999\t")
        self.refused("old:302:6: no row has the id t9999 of this parent; give --loose to take such concepts for roots", "x=old", "y=old", old=broken)


class Sssom(Case):
    def refused_row(self, row, says, *words):
        head = "# a comment\nsubject_id\tpredicate_id\tobject_id\tpredicate_modifier\n"
        self.refused(f"links:3:{says}", "x=old", "y=new", "statements=links", *words, old=PLAIN, new=PLAIN, links=head + row + "\n")

    def test_faults_have_their_place(self):
        self.refused_row("x:A\tskos:matches\ty:A", "5: the predicate 'skos:matches' has no meaning; give it one by --predicate skos:matches=RELATIONS, none to leave it out")
        self.refused_row("x:C\tskos:exactMatch\ty:A", "1: the taxonomy x has no concept with the id or name 'C'")
        self.refused_row("y:A\tskos:exactMatch\tz:A", "21: no taxonomy has a concept with the id or name 'z:A'; is it x:A or y:A?")
        self.refused_row("x:AA\tskos:exactMatch\ty:A", "1: the taxonomy x has no concept with the id or name 'AA'")
        one = {"old": PLAIN + "Alba,B\n", "new": PLAIN, "links": "subject_id,predicate_id,object_id\ny:Alba,skos:exactMatch,x:A\n"}
        self.refused("links:2:1: the taxonomy y has no concept with the id or name 'Alba'; the taxonomy x has it", "x=old", "y=new", "statements=links", **one)
        one["links"] = "subject_id,predicate_id,object_id\nx:Albo,skos:exactMatch,y:A\n"
        self.refused("links:2:1: the taxonomy x has no concept with the id or name 'Albo'; the nearest is 'Alba'", "x=old", "y=new", "statements=links", **one)
        self.refused_row("A\tskos:exactMatch\ty:A", "1: 'A' is in the taxonomies x and y; put the taxonomy and a colon before it")
        self.refused_row("x:A\tskos:exactMatch\tx:B", "21: a statement is on concepts of two taxonomies; both are of x")

    def test_addresses_modifiers_and_terms_that_are_none(self):
        links = (
            "#curie_map:\n#  p: https://e.org/p/\n#other: x\nsubject_id\tpredicate_id\tobject_id\tpredicate_modifier\n"
            "p:1\thttp://www.w3.org/2004/02/skos/core#exactMatch\ty:A\tNot\nx:A\towl:disjointWith\ty:B\t\nx:A\tskos:exactMatch\tsssom:NoTermFound\t\n"
        )
        old = "taxonID\tparentNameUsageID\tscientificName\nhttps://e.org/p/1\t\tA\n"
        out, err = self.made("x=old", "y=new", "statements=links", old=old, new=PLAIN, links=links)
        self.assertIn("[x.A {includes is_included_in overlaps disjoint} y.A]  # links row 5\n[x.A disjoint y.B]  # links row 6\n", out)
        self.assertIn("1 statement was left out for sssom:NoTermFound", err)

    def test_synonyms_are_told(self):
        old = TAXA + "1\t\t\ta\n2\t\t1\tb\n"
        head = "subject_id,predicate_id,object_id\n"
        says = "links:2:1: 'b' is a synonym of 'a' in the taxonomy x; name the accepted one"
        self.refused(says, "x=old", "y=new", "statements=links", old=old, new=PLAIN, links=head + "x:b,skos:exactMatch,y:A\n")

    def test_meanings_that_are_none(self):
        for change, says in [
            ("skos:closeMatch", "'skos:closeMatch' is not PREDICATE=RELATIONS"),
            ("a=same", "'same' is no relation; write equals, includes, is_included_in, overlaps, disjoint or sums"),
        ]:
            self.refused(says, "x=old", "y=new", "--predicate", change, old=PLAIN, new=PLAIN)


class Spreadsheets(Case):
    def test_the_office(self):
        out, err = self.made(
            f"alt={SHOP}/katalog2023.csv", f"neu={SHOP}/katalog2024.csv", f"statements={SHOP}/zuordnung.csv",
            "--columns", "alt:child=Kategorie,alt:parent=Übergeordnet", "--columns", "neu:path=Pfad",
            "--columns", "left=Alt,relation=Beziehung,right=Neu,author=Wer", "--root", "Sortiment", "--sides", "alt,neu",
        )
        self.assertIn("(Sortiment Büro Licht)\n", out)
        self.assertNotIn("(Sortiment Büro)\n", out)
        self.assertIn("(Büro Möbel Papier,_Stifte_%28lose%29 Zubehör)\n", out)
        self.assertIn("[neu.Schreibwaren sums alt.Papier,_Stifte_%28lose%29 alt.Ordner]  # zuordnung.csv row 5, Dana\n", out)
        self.assertIn("neu: these end several paths, so their names are the whole paths: Zubehör", err)
        self.assertIn("Büro_>_Möbel_>_Zubehör", out)

    def test_columns_by_what_a_table_has(self):
        words = ["--columns", "child=Kategorie,parent=Über,path=Pfad,id=Nr,parent_id=Über Nr,name=Titel"]
        files = {"a": "Kategorie,Über\nA,\nB,A\n", "b": "Pfad\nC > D\n", "c": "Nr,Über Nr,Titel\n1,,E\n2,1,F\n"}
        out, _ = self.made("a=a", "b=b", "c=c", *words, **files)
        self.assertEqual(out, "taxonomy a\n(A B)\ntaxonomy b\n(C D)\ntaxonomy c\n(E F)\narticulation\n")
        code, _, err = self.make("a=a", "b=b", "--columns", "child=Kategorie,parent=Oben")
        self.assertEqual(code, 1)
        self.assertIn("a:1:1: the first row has no column `Oben`; it has Kategorie, Über; ", err)

    def test_blanks_within_names(self):
        links = "left,relation,right\nx.Salix\u00a0 alba,equals,y.A\n"
        out, _ = self.made("x=old", "y=new", "statements=links", "--no-comments", old='child,parent\n"Salix\n  alba ",\n', new=PLAIN, links=links)
        self.assertIn("[x.Salix_alba equals y.A]", out)

    def test_letters_with_marks(self):
        links = "left,relation,right\nx.Bu\u0308ro,equals,y.A\n"
        out, _ = self.made("x=old", "y=new", "statements=links", "--no-comments", old="child,parent\nB\u00fcro,\n", new=PLAIN, links=links)
        self.assertIn("[x.B\u00fcro equals y.A]", out)

    def test_encodings(self):
        text = "Kategorie;Übergeordnet\r\nBüro;\r\nStühle;Büro\r\n"
        columns = ["--columns", "child=Kategorie,parent=Übergeordnet"]
        for encoding, words in [("cp1252", ["--encoding", "cp1252"]), ("utf-16", []), ("utf-8-sig", []), ("utf-8", ["--encoding", "utf-8"])]:
            out, _ = self.made("x=old", "y=old", *columns, *words, old=text.encode(encoding))
            self.assertIn("(Büro Stühle)\n", out)
        # a table that is UTF-8 is read so beside one that isn't
        out, _ = self.made("x=old", "y=new", *columns, "--encoding", "cp1252", old=text.encode(), new=text.encode("cp1252"))
        self.assertEqual(out.count("(Büro Stühle)\n"), 2)
        says = "old:1:11: these bytes are not UTF-8; save the table as UTF-8, or give --encoding, cp1252 say for tables of Windows"
        self.refused(says, "x=old", "y=old", *columns, old=text.encode("cp1252"))
        for encoding in ("utf-16-le", "utf-16-be"):  # without the mark at the front
            data = text.encode(encoding)
            self.refused(f"old:1:1: each other byte is zero here, as in UTF-16; give --encoding {encoding}", "x=old", "y=old", *columns, old=data)
            self.assertIn("(Büro Stühle)\n", self.made("x=old", "y=old", *columns, "--encoding", encoding, old=data)[0])
        code, _, err = self.make("x=old", "y=old", "--encoding", "klingon", old=text)
        self.assertEqual(code, 2)
        self.assertIn("there is no encoding 'klingon'", err)

    def test_what_stands_between_values_is_found_out(self):
        for text in [
            "sep=;\r\nchild;parent\r\nA;\r\nB, or C;A\r\n",
            "child;parent\nA;\nB, or C;A\n",
            "child\tparent\nA\t\nB, or C\tA\n",
            "sep=|\nchild|parent\nA|\nB, or C|A\n",
        ]:
            self.assertIn("(A B,_or_C)\n", self.made("x=old", "y=new", old=text, new=PLAIN)[0])
        says = "old:4:3: the parent 'Z' has no row of its own; correct its spelling, or add a row in which it is the child and no parent stands"
        self.refused(says, "x=old", "y=new", old="sep=;\nchild;parent\nA;\nB;Z\n", new=PLAIN)

    def test_paths(self):
        old = "path,price\nBüro > Stühle,1\nBüro > Stühle,2\nBüro>Tische,3\n"
        out, _ = self.made("x=old", "y=new", "statements=links", old=old, new="path\nA > B\n", links="left,relation,right\nx.Büro > Stühle,equals,y.B\n")
        self.assertIn("(Büro Stühle Tische)\n", out)
        self.assertIn("[x.Stühle equals y.B]", out)
        out, _ = self.made("x=old", "y=new", "--path-separator", "/", old="path\n/a/b/c\na/d\n", new="path\nz\n")
        self.assertIn("(a b d)\n(b c)\n", out)
        self.refused("old:3:1: a name of this path is missing between two '>'", "x=old", "y=new", old="path\na > b\na > > c\n", new=PLAIN)

    def test_paths_with_other_separators(self):
        old, new = "path\nA > B\n", "Gruppe;Preis\nC/D;1,99\nC/E;2,49\n"
        columns = ["--columns", "new:path=Gruppe"]
        says = "new:2:1: no path of this table has '>' in it, and most have '/'; give --path-separator 'new:/' (or 'new:>' if each is one name)"
        self.refused(says, "old=old", "new=new", *columns, old=old, new=new)
        links = "left,relation,right\nold.A > B,equals,new.C/E\n"
        out, _ = self.made("old=old", "new=new", "statements=links", *columns, "--path-separator", "new:/", "--no-comments", links=links)
        self.assertTrue(out.endswith("taxonomy new\n(C D E)\narticulation\n[old.B equals new.E]\n"), out)
        self.assertIn("(C/D)\n(C/E)\n", self.made("old=old", "new=new", *columns, "--path-separator", "new:>")[0])
        says = "new:1:1: the first row has no column `child`; it has Gruppe, Preis; Gruppe looks like paths: give --columns 'new:path=Gruppe'"
        self.refused(says, "old=old", "new=new")
        self.refused("--path-separator: something must stand between the names of a path", "old=old", "new=new", "--path-separator", "")

    def test_a_column_for_each_level(self):
        old = "Nr;Ebene 1;Ebene 2;Ebene 3\n1;A;B;C\n2;A;B;\n3;A;D;C\n4;E;;\n"
        out, err = self.made("x=old", "y=new", "statements=links", "--columns", "x:path=Ebene 1+Ebene 2+Ebene 3", "--no-comments", old=old, new=PLAIN,
                             links="left,relation,right\nx.A > D > C,equals,y.A\n")
        self.assertIn("taxonomy x\n(A B D)\n(B A_>_B_>_C)\n(D A_>_D_>_C)\n(E)\n", out)
        self.assertIn("[x.A_>_D_>_C equals y.A]\n", out)
        self.refused("old:1:1: the first row has no column `Ebene 4`; the columns are Nr, Ebene 1, Ebene 2, Ebene 3", "x=old", "y=new", "--columns", "x:path=Ebene 1+Ebene 4")
        says = "links:2:1: the taxonomy x has no concept 'C'; write the whole path, 'A > B > C' or 'A > D > C'"
        self.refused(says, "x=old", "y=new", "statements=links", "--columns", "x:path=Ebene 1+Ebene 2+Ebene 3", links="left,relation,right\nx.C,equals,y.A\n")

    def test_a_column_for_each_rank(self):
        old = "taxonID,genus,scientificName,taxonomicStatus\n1,Parus,Parus major L.,accepted\n2,Poecile,Poecile montanus (C.),accepted\n3,Poecile,Poecile borealis S.,synonym\n"
        links = "subject_id,predicate_id,object_id\nx:2,skos:exactMatch,y:A\n"
        out, err = self.made("x=old", "y=new", "statements=links", "--columns", "x:path=genus+scientificName", "--no-comments", old=old, new=PLAIN, links=links)
        self.assertIn("taxonomy x\n(Parus Parus_major_L.)\n(Poecile Poecile_montanus_%28C.%29)\n", out)
        self.assertIn("[x.Poecile_montanus_%28C.%29 equals y.A]\n", out)
        self.assertIn("note: x: 1 synonym was left out\n", err)
        says = "old:1:1: the first row has no column `parentNameUsageID`; the columns are taxonID, genus, scientificName, taxonomicStatus; by its columns of "
        self.refused(says + "ranks it is read with --columns 'x:path=genus+scientificName'", "x=old", "y=new")

    def test_statements_in_several_tables(self):
        links, more = "left,relation,right\nx.A,equals,y.A\n", "subject_id\tpredicate_id\tobject_id\nx:B\tskos:exactMatch\ty:B\n"
        out, _ = self.made("x=old", "y=new", "statements=links", "statements=more", old=PLAIN, new=PLAIN, links=links, more=more)
        self.assertTrue(out.endswith("[x.A equals y.A]  # links row 2\n[x.B equals y.B]  # more row 2\n"), out)
        says = "links:1:1: the first row has no column `left`; the columns are a, b, c; if yours have other names, give --columns left=NAME,relation=NAME,right=NAME"
        self.refused(says, "x=old", "y=new", "statements=more", "statements=links", links="a,b,c\n")
        says = "more:1:1: the first row has no column `object_id`; the columns are subject_id, predicate_id, obj; if yours has another name, give --columns object=NAME"
        self.refused(says, "x=old", "y=new", "statements=more", more=more.replace("object_id", "obj"))
        self.assertIn("[x.B equals y.B]", self.made("x=old", "y=new", "statements=more", "--columns", "object=obj")[0])

    def test_sums_with_commas_in_names(self):
        old = 'child,parent\nr,\n"a, b",r\nc (d),r\n'
        links = 'left,relation,right\ny.A,sums,"""x.a, b"", x.c (d)"\n'
        self.assertIn("[y.A sums x.a,_b x.c_%28d%29]", self.made("x=old", "y=new", "statements=links", old=old, new=PLAIN, links=links)[0])
        links = "left\trelation\tright\ny.A\tsums\tx.a, b, x.c (d)\n"
        self.refused("links:2:10: the taxonomy x has no concept 'a'", "x=old", "y=new", "statements=links", "--delimiter", "tab", "--quote", "none",
                     old=old.replace(",", "\t").replace('"a\t b"', "a, b"), new=PLAIN.replace(",", "\t"), links=links)

    def test_words_of_relations(self):
        for words, shown in [
            ("is included in", "is_included_in"),
            ("equals or is included in", "{equals is_included_in}"),
            ("{equals includes}", "{equals includes}"),
            ("skos:narrowMatch", "includes"),
            ("is congruent to", "equals"),
            ("Excludes or overlaps", "{disjoint overlaps}"),
            ("= >", "{equals includes}"),
        ]:
            links = f"Left;Relation;Right\nx.A;{words};y.A\n"
            out, _ = self.made("x=old", "y=new", "statements=links", "--no-comments", old=PLAIN, new=PLAIN, links=links)
            self.assertIn(f"[x.A {shown} y.A]\n", out)
        for words, shown in [("gleich", "equals"), ("= oder <", "{equals is_included_in}"), ("a==b", "disjoint")]:
            meanings = ["gleich===", "= oder <=equals is_included_in", "a==b=!"]
            out, _ = self.made("x=old", "y=new", "statements=links", *(word for one in meanings for word in ("--predicate", one)), "--no-comments",
                               old=PLAIN, new=PLAIN, links=f"left,relation,right\nx.A,{words},y.A\n")
            self.assertIn(f"[x.A {shown} y.A]\n", out)

    def test_what_is_unstated(self):
        old, new = "child,parent\nA,\na1,A\na2,A\nB,\n", "child,parent\nP,\np1,P\nQ,\nq1,Q\n"
        links = "left,relation,right\nx.a1,equals,y.p1\n"
        out, err = self.made("x=old", "y=new", "statements=links", "--unstated", "disjoint", old=old, new=new, links=links)
        added = [line for line in out.split("\n") if line.endswith("# unstated")]
        # of A and P something below is said; of a2 and of B nothing that speaks of what is above or below, but for A with P
        self.assertEqual(added, [f"[{pair.replace(' ', ' disjoint ')}]  # unstated" for pair in ["x.A y.Q", "x.a2 y.P", "x.B y.P", "x.B y.Q"]])
        self.assertIn("4 statements were added for what nothing is said of; 12 pairs are put apart by that", err)

    def test_sides(self):
        old, new = "child,parent\nA L.,\nb,A L.\n", "child,parent\nA L.,\nc,A L.\n"
        links = "left;relation;right\nA L.;=;A L.\nb;equals;c\nnew.c;sums;\"old.b, old.A L.\"\n".replace("=", "==")
        out, _ = self.made("old=old", "new=new", "statements=links", "--sides", "old,new", "--no-comments", old=old, new=new, links=links)
        self.assertTrue(out.endswith("articulation\n[old.A_L. equals new.A_L.]\n[old.b equals new.c]\n[new.c sums old.b old.A_L.]\n"), out)
        self.refused("links:2:1: the taxonomy old has no concept 'A'; the nearest is 'A L.'", "old=old", "new=new", "statements=links", "--sides", "old,new",
                     links="left,relation,right\nA,equals,c\n")
        self.assertEqual(self.make("old=old", "new=new", "--sides", "old,other")[0], 2)

    def test_a_part_of_a_table(self):
        rows = "child,parent\nroot,\n" + "".join(f"c{k},root\nd{k},c{k}\n" for k in range(2000))
        out, _ = self.made("x=old", "y=new", "--under", "x:c7", "--under", "x:c9", old=rows, new=PLAIN)
        self.assertIn("taxonomy x\n(c7 d7)\n(c9 d9)\ntaxonomy y\n", out)
        self.refused("old: the taxonomy x has no concept 'e' to take what is under it", "x=old", "y=new", "--under", "x:e")
        self.refused("--under: 'c7' is not NAME:CONCEPT with one of the taxonomies x, y", "x=old", "y=new", "--under", "c7")
        # what is elsewhere in a greater table doesn't matter
        taxa = TAXA + "1\t99\t\tSalix\n2\t1\t\tSalix alba\n3\t1\t\tSalix\n4\t98\t\tRosa\n5\t4\t\tRosa\n6\t3\t\tSalix repens\n"
        out, _ = self.made("x=taxa", "y=new", "--under", "x:3", taxa=taxa, new=PLAIN)
        self.assertIn("taxonomy x\n(Salix Salix_repens)\ntaxonomy y\n", out)
        links = "subject_id,predicate_id,object_id\nx:6,skos:exactMatch,y:B\nx:2,skos:exactMatch,y:A\n"
        out, err = self.made("x=taxa", "y=new", "--under", "x:3", "statements=links", links=links)
        self.assertTrue(out.endswith("articulation\n[x.Salix_repens equals y.B]  # links row 2\n"), out)
        self.assertIn("1 statement was left out, on concepts outside the part that --under takes", err)
        says = "taxa: the taxonomy x has no concept 'Salix repen'; give its whole name, or its id; the nearest is 'Salix repens'"
        self.refused(says, "x=taxa", "y=new", "--under", "x:Salix repen")
        self.refused("taxa: the taxonomy x has 2 concepts 'Salix'; give the id of one", "x=taxa", "y=new", "--under", "x:Salix")

    def test_files_that_are_no_tables(self):
        for data, says in [
            (b"PK\x03\x04 and more", "this is a workbook or a zip file; save each of its tables as CSV, or unpack it"),
            (b"\xd0\xcf\x11\xe0 and more", "this is a workbook; save each of its tables as CSV"),
            (b"\x1f\x8b and more", "this file is packed by gzip; unpack it"),
            (b"%PDF-1.7", "this is a PDF; the table itself is wanted"),
        ]:
            self.refused(f"links: {says}", "x=old", "y=new", "statements=links", old=PLAIN, new=PLAIN, links=data)
        # statements may be called mappings
        links = "left,relation,right\nx.A,equals,y.A\n"
        self.assertIn("[x.A equals y.A]", self.made("x=old", "y=new", "mappings=links", links=links)[0])

    def test_workbooks(self):
        self.refused("w.xlsx: this is a workbook; save each of its tables as CSV", "x=w.xlsx", "y=new", **{"w.xlsx": zipped(**{"[Content_Types]__xml": "x"}), "new": PLAIN})

    def test_columns_that_are_none(self):
        for word in ["child", "kid=Kategorie", "child="]:
            code, _, err = self.make("x=old", "y=new", "--columns", word, old=PLAIN, new=PLAIN)
            self.assertEqual(code, 1)
            self.assertIn("is not KEY=COLUMN or TABLE:KEY=COLUMN", err)


if __name__ == "__main__":
    unittest.main()
