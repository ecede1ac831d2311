#!/usr/bin/env python3
"""Joins two patterns over a graph of 2 N triples in rdflib: join_in_rdflib.py N [minus]

The graph has `<http://a/i> <http://a/p> "x"` and `<http://a/i> <http://a/q> "z"` for each i from 1 to N. It looks each subject's first
triple up and joins both patterns on the subject; with the word `minus` it takes their difference too. It prints the processor time
since its beginning after each part, and the peak memory.
"""
import resource
import sys

from rdflib import Graph, Literal, URIRef

P, Q = URIRef("http://a/p"), URIRef("http://a/q")
BOTH = "SELECT DISTINCT ?s ?v ?w WHERE { { ?s <http://a/p> ?v . } { ?s <http://a/q> ?w . } }"
LESS = "SELECT DISTINCT ?s ?v WHERE { { ?s <http://a/p> ?v . } MINUS { ?s <http://a/q> ?w . } }"


def subject(i):
    return URIRef(f"http://a/{i}")


def tell(part, answer):
    used = resource.getrusage(resource.RUSAGE_SELF)
    print(f"{part}: {answer}, {used.ru_utime + used.ru_stime:.1f} s, {used.ru_maxrss // 1024} MiB", flush=True)


def main():
    n = int(sys.argv[1])
    graph = Graph()
    for i in range(1, n + 1):
        graph.add((subject(i), P, Literal("x")))
        graph.add((subject(i), Q, Literal("z")))
    tell("graph", len(graph))
    tell("find", sum(len(list(graph.triples((subject(i), P, None)))) == 1 for i in range(1, n + 1)))
    tell("and", len(graph.query(BOTH)))
    if sys.argv[2:] == ["minus"]:
        tell("minus", len(graph.query(LESS)))


main()
