"""NetworkX's weighted betweenness on the graphs that the benchmark wrote: the least of three runs, in microseconds."""
import sys
import time

import networkx


def graph_of(path):
    with open(path) as lines:
        graph = networkx.DiGraph()
        graph.add_nodes_from(range(int(lines.readline())))
        for line in lines:
            u, v, cost = map(int, line.split())
            graph.add_edge(u, v, weight=cost)
    return graph


for path in sys.argv[1:]:
    graph = graph_of(path)
    best = float("inf")
    for _ in range(3):
        start = time.perf_counter()
        networkx.betweenness_centrality(graph, normalized=False, weight="weight")
        best = min(best, time.perf_counter() - start)
    print(f"NetworkX, {graph.number_of_edges()} links: {best * 1e6:.0f} us")
