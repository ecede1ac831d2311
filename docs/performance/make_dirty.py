#!/usr/bin/env python3
"""Writes a database that breaks keys into a folder: make_dirty.py (chain|repeated) N FOLDER

chain: n rows, each with a reference to the next, and the last with one to no row, so that each removal makes the next row dangle.
repeated: n rows, of which half share their primary key with another.
"""
import os
import sys


def main():
    form, n, folder = sys.argv[1], int(sys.argv[2]), sys.argv[3]
    os.makedirs(folder, exist_ok=True)
    with open(os.path.join(folder, "schema.sql"), "w", encoding="utf-8") as file:
        file.write("CREATE TABLE E (id INTEGER PRIMARY KEY, boss INTEGER REFERENCES E(id));\n")
    with open(os.path.join(folder, "E.csv"), "w", encoding="utf-8") as file:
        file.write("id,boss\n")
        if form == "chain":
            file.writelines(f"{i},{i + 1}\n" for i in range(1, n + 1))
        else:
            file.writelines(f"{i if i % 4 < 2 else i - i % 2},\\N\n" for i in range(1, n + 1))


main()
