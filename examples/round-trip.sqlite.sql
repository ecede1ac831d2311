-- Every kind, NULLs, and texts that are dear to lose.
CREATE TABLE kinds (
  id INTEGER PRIMARY KEY, t TEXT, v VARCHAR(40), i BIGINT UNIQUE, d DECIMAL(10, 5), b BOOLEAN,
  day DATE, hour TIME, moment DATETIME, bytes BLOB
);
INSERT INTO kinds VALUES
  (1, 'plain', 'short', 9223372036854775807, 1.5, 1, '2024-02-29', '23:59:59.5', '2024-01-02 03:04:05.25', x'deadbeef'),
  (2, '', '', -9223372036854775808, -0.00001, 0, '0001-01-01', '00:00:00', '9999-12-31 23:59:59.999999', x''),
  (3, NULL, NULL, NULL, NULL, NULL, NULL, NULL, NULL, NULL),
  (4, 'a "quoted" text, with a comma', '''', 0, 100, 1, '1999-12-31', '12:30:00', '2000-01-01 00:00:00', x'00ff5c4e'),
  (5, 'two' || char(10) || 'lines', 'carriage' || char(13) || 'return', 5, 1e20, NULL, NULL, NULL, NULL, NULL),
  (6, 'end' || char(13, 10), char(9) || 'tab' || char(9), 6, 0.1, NULL, NULL, NULL, NULL, NULL),
  (7, '\N', '\', 7, 7, NULL, NULL, NULL, NULL, NULL),
  (8, '\\N', '\\', 8, 8, NULL, NULL, NULL, NULL, NULL),
  (9, '\.', 'back\slash\', 9, 9, NULL, NULL, NULL, NULL, NULL),
  (10, 'Grüße, 東京, Ελλάδα, 😀', 'é', 10, 10, NULL, NULL, NULL, NULL, NULL),
  (11, ' leading and trailing ', char(0xFEFF) || 'mark', 11, 11, NULL, NULL, NULL, NULL, NULL);

-- A text alone, with an empty one, and no key: rows may stand twice.
CREATE TABLE "a log/of lines" ("the 'text'" TEXT);
INSERT INTO "a log/of lines" VALUES ('hi'), ('hi'), (''), (NULL), ('\N'), ('');

-- A composite key, and one that references it; a self reference.
CREATE TABLE room (building TEXT, number INTEGER, seats INTEGER NOT NULL, PRIMARY KEY (building, number));
INSERT INTO room VALUES ('x;number=1', 1, 10), ('x', 1, 20), ('Süd', 2, 30);
CREATE TABLE person (
  id INTEGER PRIMARY KEY, name TEXT NOT NULL, boss INTEGER REFERENCES person, building TEXT, number INTEGER,
  FOREIGN KEY (building, number) REFERENCES room
);
INSERT INTO person VALUES
  (1, 'Ada', NULL, 'x', 1), (2, 'Bob', 1, 'x;number=1', 1), (3, 'Cy', 3, NULL, 1), (4, 'Di', 2, 'Süd', 2);

-- A binary relation.
CREATE TABLE course (code TEXT PRIMARY KEY, title TEXT);
INSERT INTO course VALUES ('RDF', 'Graphs'), ('SQL/1', NULL);
CREATE TABLE enrolled (person INTEGER REFERENCES person, course TEXT REFERENCES course, PRIMARY KEY (person, course));
INSERT INTO enrolled VALUES (1, 'RDF'), (1, 'SQL/1'), (4, 'RDF');

CREATE TABLE "no rows" (a DATE, b TEXT);
