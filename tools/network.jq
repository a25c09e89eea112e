# Of what `show NODE vis` prints behind `vis NODE `: a graph for Graphviz, with each node in a box, an
# arrow for each neighbour with the metric, and a dotted line for each client.
"digraph network {",
(.[] | .node as $node
    | "  \"\($node)\" [shape=box];",
      (.neighbors[] | "  \"\($node)\" -> \"\(.router)\" [label=\(.metric)];"),
      (.clients[] | "  \"\(.)\" -> \"\($node)\" [style=dotted, dir=none];")),
"}"
