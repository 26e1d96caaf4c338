#!/usr/bin/env python3
"""Small parishes by plain enumeration, apart from the definitions in crates/: for each its answer, the cost of that, and the
number of standing nodes over the bounds bare and decided. crates/cases/specs/Enumerated.antt states the same values.

A parish is (name, households, links, tolerance, ceiling); a household is its weight and its pin, A, B or -."""
from itertools import product

PARISHES = [
    ('triangle', ['1-', '1-', '1-'], [(0, 1, 5), (1, 2, 1), (0, 2, 2)], 0, 100),
    ('path', ['2-', '2-', '2-', '2-'], [(0, 1, 1), (1, 2, 3), (2, 3, 1)], 0, 100),
    ('star', ['3-', '1-', '1-', '1-'], [(0, 1, 2), (0, 2, 3), (0, 3, 4)], 0, 100),
    ('drawn', ['5A', '5B', '1-'], [(0, 2, 7), (1, 2, 3)], 0, 100),
    ('pinned', ['1A', '1B'], [(0, 1, 4)], 0, 5),
    ('crowded', ['3A', '3A'], [(0, 1, 4)], 0, 100),
    ('double', ['1-', '1-'], [(0, 1, 2), (1, 0, 3)], 0, 100),
    ('dear', ['2-', '2-', '2-', '2-'], [(0, 1, 1), (1, 2, 3), (2, 3, 1)], 0, 2),
    ('loose', ['4-', '1-', '1-'], [(0, 1, 1), (0, 2, 6)], 500, 100),
    ('tight', ['4-', '1-', '1-'], [(0, 1, 1), (0, 2, 6)], 0, 100),
    ('weightless', ['0-', '0-', '0-'], [(0, 1, 1), (1, 2, 1)], 0, 100),
    ('ring', ['1-', '1-', '1-', '1-'], [(0, 1, 1), (1, 2, 1), (2, 3, 1), (3, 0, 1)], 0, 100),
    ('mirrored', ['3B', '2-', '2-', '3-'], [(0, 1, 4), (1, 2, 1), (2, 3, 4), (0, 3, 1)], 0, 100),
    ('five', ['2-', '1A', '2-', '1B', '2-'], [(0, 1, 3), (1, 2, 2), (2, 3, 2), (3, 4, 3), (4, 0, 1), (0, 2, 4)], 250, 9),
]


def cost(links, lots):
    return sum(s for f, t, s in links if lots[f] != lots[t])


def decided(links, lots):
    return sum(s for f, t, s in links if {lots[f], lots[t]} == {'A', 'B'})


def search(households, links, tolerance, ceiling, bound):
    weights, pins = [int(h[:-1]) for h in households], [h[-1] for h in households]
    free = [k for k, pin in enumerate(pins) if pin == '-']
    cap = (1000 + tolerance) * -(-sum(weights) // 2) // 1000

    def light(lots):
        return all(sum(w for w, x in zip(weights, lots) if x == lot) <= cap for lot in 'AB')

    def lots_of(node):
        return [node[free.index(k)] if k in free[:len(node)] else pin for k, pin in enumerate(pins)]

    leaves = [''.join(p) for p in product('AB', repeat=len(free))]
    lawful = {leaf: cost(links, lots_of(leaf)) for leaf in leaves if light(lots_of(leaf))}

    def comes_before(leaf, node):
        return leaf[:len(node)] < node

    def closed(node):
        incumbent = min([ceiling] + [c for leaf, c in lawful.items() if comes_before(leaf, node)])
        return not light(lots_of(node)) or len(node) < len(free) and bound(links, lots_of(node)) >= incumbent

    nodes = [''.join(p) for n in range(len(free) + 1) for p in product('AB', repeat=n)]
    steps = sum(not any(closed(node[:k]) for k in range(len(node))) for node in nodes)
    best = min(((c, leaf) for leaf, c in lawful.items() if c < ceiling), default=None)
    return best and (' '.join(lots_of(best[1])), best[0]), steps


for name, *parish in PARISHES:
    (answer, over_bare), (_, over_decided) = (search(*parish, bound) for bound in (lambda links, lots: 0, decided))
    print(f'{name}: {"none" if answer is None else f"{answer[0]}, cost {answer[1]}"}; {over_bare} steps over bare, {over_decided} over decided')
