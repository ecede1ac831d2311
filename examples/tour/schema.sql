CREATE TABLE Room (building TEXT, number INT, seats INT NOT NULL, PRIMARY KEY (building, number));
CREATE TABLE Course (code TEXT PRIMARY KEY, title TEXT, building TEXT, number INT, FOREIGN KEY (building, number) REFERENCES Room);
CREATE TABLE Student (id INT PRIMARY KEY, name TEXT, born DATE);
CREATE TABLE Enrolled (student INT REFERENCES Student, course TEXT REFERENCES Course, PRIMARY KEY (student, course));
