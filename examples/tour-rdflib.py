import sys
import rdflib
graph = rdflib.Graph()
graph.parse(sys.argv[1], format="nt")
print(len(graph), "triples")
for row in graph.query(open(sys.argv[2], encoding="utf-8").read()):
    print(*row)
