"""Which assertion cites which (`graph`) and which theorem rests on which axiom (`marks`), with what
follows from that alone: least cuts, parts of the graph, theorems that only wrap others.

It imports `answers` and `texts`.
"""
