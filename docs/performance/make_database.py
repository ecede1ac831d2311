#!/usr/bin/env python3
"""Writes a database of n persons into a folder: make_database.py N FOLDER

Departments, persons with a department and a boss, members (a person and a department, together the primary key), and
notes without a key. No key is violated.
"""
import os
import sys

SCHEMA = """CREATE TABLE Dept (id INTEGER PRIMARY KEY, name TEXT);
CREATE TABLE Person (id INTEGER PRIMARY KEY, name TEXT, dept INTEGER REFERENCES Dept(id), boss INTEGER REFERENCES Person(id));
CREATE TABLE Member (person INTEGER REFERENCES Person(id), dept INTEGER REFERENCES Dept(id), PRIMARY KEY (person, dept));
CREATE TABLE Note (text TEXT, size INTEGER);
"""
NULL = "\\N"


def tables(n):
    departments = n // 10 + 1
    yield "Dept", "id,name", ((j, f"d{j}") for j in range(1, departments + 1))
    yield "Person", "id,name,dept,boss", (
        (
            i,
            NULL if i % 7 == 0 else f"p{i}",
            NULL if i % 5 == 0 else 1 + i % departments,
            NULL if i == 1 else i // 2,
        )
        for i in range(1, n + 1)
    )
    yield "Member", "person,dept", ((i, 1 + 3 * i % departments) for i in range(1, n + 1))
    yield "Note", "text,size", ((f"n{i % 10}", NULL if i % 3 == 0 else i % 3) for i in range(1, n + 1))


def main():
    n, folder = int(sys.argv[1]), sys.argv[2]
    os.makedirs(folder, exist_ok=True)
    with open(os.path.join(folder, "schema.sql"), "w", encoding="utf-8") as file:
        file.write(SCHEMA)
    for name, header, rows in tables(n):
        with open(os.path.join(folder, name + ".csv"), "w", encoding="utf-8") as file:
            file.write(header + "\n")
            file.writelines(",".join(map(str, row)) + "\n" for row in rows)


main()
