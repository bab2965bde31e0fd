"""Series of models that grow in one measure alone."""

from classes import long_lists, random

NODES = [(f"{nodes:,} nodes", 41, random(nodes, 5 * nodes)) for nodes in (250, 500, 1000, 2000)]
ARCS = [(f"{arcs:,} arcs", 42, random(500, arcs)) for arcs in (1250, 2500, 5000, 10000)]
PIECES = [(f"{pieces:,} pieces an arc", 43, long_lists(pieces, 200, 1000)) for pieces in (1, 4, 16, 64, 256)]
AMOUNTS = [(f"supplies to {most:,}", 44, random(500, 2500, most)) for most in (10, 100, 1000, 10000)]

SERIES = [
    ("With nodes and arcs, five arcs a node:", NODES),
    ("With arcs, on 500 nodes:", ARCS),
    ("With pieces, on 200 nodes and 1,000 arcs:", PIECES),
    ("With the size of supplies and capacities, on 500 nodes and 2,500 arcs:", AMOUNTS),
]
