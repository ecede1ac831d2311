-- Every kind, NULLs, and texts that are dear to lose.
CREATE TABLE kinds (
  id integer PRIMARY KEY, t text, v varchar(40), s smallint, i bigint UNIQUE, d numeric(38, 10), n numeric, b boolean,
  day date, hour time, moment timestamp, bytes bytea
);
INSERT INTO kinds VALUES
  (1, 'plain', 'short', 1, 9223372036854775807, 1.5000000000, 12345678901234567890123456789012345678, true, '2024-02-29', '23:59:59.5', '2024-01-02 03:04:05.25', '\xdeadbeef'),
  (2, '', '', -32768, -9223372036854775808, -0.0000000001, 0, false, '0001-01-01', '00:00:00', '9999-12-31 23:59:59.999999', '\x'),
  (3, NULL, NULL, NULL, NULL, NULL, NULL, NULL, NULL, NULL, NULL, NULL),
  (4, 'a "quoted" text, with a comma', '''', 0, 0, 100, 0.00001, true, '1999-12-31', '12:30:00', '2000-01-01 00:00:00', '\x00ff5c4e'),
  (5, E'two\nlines', E'carriage\rreturn', 5, 5, 5, 5.50, NULL, NULL, NULL, NULL, NULL),
  (6, E'end\r\n', E'\ttab\t', 6, 6, 6, 6, NULL, NULL, NULL, NULL, NULL),
  (7, '\N', '\', 7, 7, 7, 7, NULL, NULL, NULL, NULL, NULL),
  (8, '\\N', '\\', 8, 8, 8, 8, NULL, NULL, NULL, NULL, NULL),
  (9, '\.', 'back\slash\', 9, 9, 9, 9, NULL, NULL, NULL, NULL, NULL),
  (10, 'Grüße, 東京, Ελλάδα, 😀', 'é', 10, 10, 10, 10, NULL, NULL, NULL, NULL, NULL),
  (11, ' leading and trailing ', U&'\FEFFmark', 11, 11, 11, 11, NULL, NULL, NULL, NULL, NULL);

-- A text alone, with an empty one, and no key: rows may stand twice.
CREATE TABLE "a log/of lines" ("the ""text""" text);
INSERT INTO "a log/of lines" VALUES ('hi'), ('hi'), (''), (NULL), ('\N'), ('');

-- A composite key, and one that references it; a self reference.
CREATE TABLE room (building text, number integer, seats integer NOT NULL, PRIMARY KEY (building, number));
INSERT INTO room VALUES ('x;number=1', 1, 10), ('x', 1, 20), ('Süd', 2, 30);
CREATE TABLE person (
  id integer PRIMARY KEY, name text NOT NULL, boss integer REFERENCES person, building text, number integer,
  FOREIGN KEY (building, number) REFERENCES room
);
INSERT INTO person VALUES
  (1, 'Ada', NULL, 'x', 1), (2, 'Bob', 1, 'x;number=1', 1), (3, 'Cy', 3, NULL, 1), (4, 'Di', 2, 'Süd', 2);

-- A binary relation.
CREATE TABLE course (code text PRIMARY KEY, title text);
INSERT INTO course VALUES ('RDF', 'Graphs'), ('SQL/1', NULL);
CREATE TABLE enrolled (person integer REFERENCES person, course text REFERENCES course, PRIMARY KEY (person, course));
INSERT INTO enrolled VALUES (1, 'RDF'), (1, 'SQL/1'), (4, 'RDF');

CREATE TABLE "no rows" (a date, b text);
