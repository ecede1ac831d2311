#!/usr/bin/env python3
"""A plain script beside which `dbrdf` is timed: write_graph.py (direct|map) BASE FOLDER

It writes the graph of a database of make_database.py to standard output, the same bytes as `dbrdf`: csv and f-strings, no
test of keys, no escape (the values have no character that needs one).
"""
import csv
import os
import sys

RDF = "http://www.w3.org/1999/02/22-rdf-syntax-ns#"
RDFS = "http://www.w3.org/2000/01/rdf-schema#"
OWL = "http://www.w3.org/2002/07/owl#"
XSD = "http://www.w3.org/2001/XMLSchema#"
NULL = "\\N"

# Table, columns with their kinds, primary key, foreign keys (columns, target, target's columns), binary relation
TABLES = [
    ("Dept", [("id", "integer"), ("name", "string")], ["id"], [], False),
    ("Person", [("id", "integer"), ("name", "string"), ("dept", "integer"), ("boss", "integer")], ["id"],
     [("dept", "Dept", "id"), ("boss", "Person", "id")], False),
    ("Member", [("person", "integer"), ("dept", "integer")], ["person", "dept"],
     [("person", "Person", "id"), ("dept", "Dept", "id")], True),
    ("Note", [("text", "string"), ("size", "integer")], [], [], False),
]


def ontology(write, base):
    for table, columns, _, references, is_relation in TABLES:
        if is_relation:
            (a, left, c), (b, right, d) = references
            relation = f"<{base}{table}#rel-{a}={c};{b}={d}>"
            write(f"{relation} <{RDF}type> <{OWL}ObjectProperty> .\n{relation} <{RDFS}domain> <{base}{left}> .\n"
                  f"{relation} <{RDFS}range> <{base}{right}> .\n")
            continue
        write(f"<{base}{table}> <{RDF}type> <{OWL}Class> .\n")
        for column, kind in columns:
            name = f"<{base}{table}#{column}>"
            write(f"{name} <{RDF}type> <{OWL}DatatypeProperty> .\n{name} <{RDFS}domain> <{base}{table}> .\n"
                  f"{name} <{RDFS}range> <{XSD}{kind}> .\n")
        for column, target, _ in references:
            name = f"<{base}{table}#ref-{column}>"
            write(f"{name} <{RDF}type> <{OWL}ObjectProperty> .\n{name} <{RDFS}domain> <{base}{table}> .\n"
                  f"{name} <{RDFS}range> <{base}{target}> .\n")


def rows(write, base, folder, as_relations):
    for number, (table, columns, key, references, is_relation) in enumerate(TABLES, 1):
        names = [column for column, _ in columns]
        ends = ['" .\n' if kind == "string" else f'"^^<{XSD}{kind}> .\n' for _, kind in columns]
        heads = [f' <{base}{table}#{column}> "' for column in names]
        keys = [names.index(column) for column in key]
        links = [(names.index(column), f" <{base}{table}#ref-{column}> <{base}{target}/{place}=") for column, target, place in references]
        with open(os.path.join(folder, table + ".csv"), encoding="utf-8", newline="") as file:
            reader = csv.reader(file)
            next(reader)
            for i, row in enumerate(reader, 1):
                if is_relation and as_relations:
                    (a, left, c), (b, right, d) = references
                    write(f"<{base}{left}/{c}={row[0]}> <{base}{table}#rel-{a}={c};{b}={d}> <{base}{right}/{d}={row[1]}> .\n")
                    continue
                node = f"<{base}{table}/" + ";".join(f"{names[k]}={row[k]}" for k in keys) + ">" if keys else f"_:t{number}r{i}"
                write(f"{node} <{RDF}type> <{base}{table}> .\n")
                for head, value, end in zip(heads, row, ends):
                    if value != NULL:
                        write(f"{node}{head}{value}{end}")
                for place, link in links:
                    if row[place] != NULL:
                        write(f"{node}{link}{row[place]}> .\n")


def main():
    graph, base, folder = sys.argv[1:4]
    write = sys.stdout.write
    if graph == "map":
        ontology(write, base)
    rows(write, base, folder, graph == "map")


main()
