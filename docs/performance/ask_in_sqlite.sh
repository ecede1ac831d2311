#!/usr/bin/env bash
# Imports the generator's database in a folder into sqlite3, in memory, and asks it: ask_in_sqlite.sh FOLDER SQL
folder=$1
sql=$2
sqlite3 -batch <<END
.read $folder/schema.sql
.mode csv
.import --skip 1 $folder/Dept.csv Dept
.import --skip 1 $folder/Person.csv Person
.import --skip 1 $folder/Member.csv Member
.import --skip 1 $folder/Note.csv Note
UPDATE Person SET name = NULL WHERE name = '\N';
UPDATE Person SET dept = NULL WHERE dept = '\N';
UPDATE Person SET boss = NULL WHERE boss = '\N';
UPDATE Note SET size = NULL WHERE size = '\N';
.mode tabs
.headers on
$sql
END
