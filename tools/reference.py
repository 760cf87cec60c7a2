#!/usr/bin/env python3
"""A second reading of the scope document, independent of the proved crates: file, plan, runs pair by pair, value by states, sheet.
It wrote the expected output of the programs in crates/; the gate does not need it.

    tools/reference.py sheet FILE          the printed sheet
    tools/reference.py plan LOWER FILE     number, place, cells, pairs
    tools/reference.py damage              what the program `damage` prints
    tools/reference.py slots               what the program `slots` prints
"""
import sys
from itertools import product
from math import factorial, prod

LIMIT = 2 ** 64


class Refused(Exception):
    def __init__(self, number, place):
        self.number, self.place = number, place


def read(file):
    """The model of a file: windows, loads by (centre, chain), tree as nested pairs of centre numbers."""
    at, centres, chains, windows, loads, stack, seen, first = 0, 0, 0, [], {}, [], set(), None
    lengths = {1: 2, 2: 2, 3: 4, 4: 1, 5: 0, 6: 0}
    while True:
        if at >= len(file):
            raise Refused(1, len(file))
        kind = file[at]
        if centres == 0:
            due = {1}
        elif len(windows) < chains:
            due = {2}
        elif first is None:
            due = {3, 4}
        else:
            due = {4, 5, 6}
        if kind not in due:
            raise Refused(2, at)
        body = file[at + 1:at + 1 + lengths[kind]]
        if len(body) < lengths[kind]:
            raise Refused(1, len(file))
        if kind == 1:
            if not 1 <= body[0] <= 16:
                raise Refused(3, at + 1)
            if not 1 <= body[1] <= 8:
                raise Refused(3, at + 2)
            centres, chains = body
        elif kind == 2:
            if body[0] != len(windows) + 1:
                raise Refused(3, at + 1)
            if body[1] > 15:
                raise Refused(3, at + 2)
            windows.append(body[1])
        elif kind == 3:
            if not 1 <= body[0] <= centres:
                raise Refused(3, at + 1)
            if not 1 <= body[1] <= chains:
                raise Refused(3, at + 2)
            load = body[2] * 256 + body[3]
            if load == 0:
                raise Refused(3, at + 3)
            if loads and (body[0], body[1]) <= max(loads):
                raise Refused(4, at)
            loads[body[0], body[1]] = load
        elif kind == 4:
            if not 1 <= body[0] <= centres:
                raise Refused(3, at + 1)
            if first is None and {k for _, k in loads} != set(range(1, chains + 1)):
                raise Refused(5, at)
            if body[0] in seen:
                raise Refused(6, at + 1)
            first = at if first is None else first
            seen.add(body[0])
            stack.append(body[0])
        elif kind == 5:
            if len(stack) < 2:
                raise Refused(7, at)
            right = stack.pop()
            stack.append((stack.pop(), right))
        else:
            if len(stack) != 1 or len(seen) != centres:
                raise Refused(8, at)
            if at + 1 < len(file):
                raise Refused(9, at + 1)
            return dict(centres=centres, chains=chains, windows=windows, loads=loads, tree=stack[0])
        at += 1 + lengths[kind]


def lowered(model, lower):
    windows = list(model['windows'])
    if lower > model['chains']:
        raise Refused(10, 0)
    if lower:
        if windows[lower - 1] == 0:
            raise Refused(11, 0)
        windows[lower - 1] -= 1
    return windows


def under(tree):
    return {tree} if isinstance(tree, int) else under(tree[0]) | under(tree[1])


def coverage(model, tree):
    inside, found = under(tree), []
    for k in range(1, model['chains'] + 1):
        route = {c for c, j in model['loads'] if j == k}
        found.append('finished' if route <= inside else 'absent' if not route & inside else 'partial')
    return found


def index_values(cover, windows):
    return [range(n + 1) if c == 'partial' else [n] if c == 'finished' else [0] for c, n in zip(cover, windows)]


def nodes(tree):
    return [tree] if isinstance(tree, int) else nodes(tree[0]) + nodes(tree[1]) + [tree]


def cells(model, windows):
    return sum(prod(len(v) for v in index_values(coverage(model, t), windows)) for t in nodes(model['tree']))


def pairs(model, windows):
    total = 0
    for t in nodes(model['tree']):
        if isinstance(t, int):
            continue
        many = 1
        for l, r, j, n in zip(coverage(model, t[0]), coverage(model, t[1]), coverage(model, t), windows):
            if l == r == 'partial':
                many *= (n + 1) * (n + 2) // 2 if j == 'partial' else n + 1
            elif 'partial' in (l, r):
                many *= n + 1
        total += many
    return total


def weight(model, centre, ns):
    value = factorial(sum(ns)) // prod(factorial(n) for n in ns)
    for k, n in enumerate(ns, 1):
        value *= model['loads'].get((centre, k), 0) ** n
    return value


def value(model, windows):
    """The sum over all states, chain after chain placed on its centres; no coverage, tree or pair."""
    def placings(total, places):
        if places == 1:
            return [(total,)]
        return [(first,) + rest for first in range(total + 1) for rest in placings(total - first, places - 1)]
    routes = [sorted(c for c, j in model['loads'] if j == k) for k in range(1, model['chains'] + 1)]
    total = 0
    for state in product(*[placings(n, len(route)) for n, route in zip(windows, routes)]):
        at = {c: [0] * model['chains'] for c in range(1, model['centres'] + 1)}
        for k, (route, numbers) in enumerate(zip(routes, state)):
            for c, n in zip(route, numbers):
                at[c][k] = n
        total += prod(weight(model, c, at[c]) for c in at)
    return total


def plan(file, lower):
    try:
        model = read(file)
        windows = lowered(model, lower)
    except Refused as r:
        return [r.number, r.place, 0, 0]
    return [0, 0, cells(model, windows), pairs(model, windows)]


def sheet(file, room=8192):
    try:
        model = read(file)
    except Refused as r:
        return [f'refused {r.number} at {r.place}']
    windows = model['windows']
    if cells(model, windows) > min(8192, room):
        return ['refused 12 at 0']
    full = value(model, windows)
    if full >= LIMIT:
        return ['refused 14 at 0']
    lines = [f'value {full}', f'pairs {pairs(model, windows)} cells {cells(model, windows)}']
    for k in range(1, model['chains'] + 1):
        part = value(model, lowered(model, k)) if windows[k - 1] else 0
        lines.append(f'chain {k} {part}/{full}')
    sums = [sum(l for (c, _), l in model['loads'].items() if c == centre) for centre in range(1, model['centres'] + 1)]
    lines.append(f'busiest {sums.index(max(sums)) + 1}')
    return lines


def index_pairs(left, right, index):
    """The pairs of a result index: (left index, right index), the last shared chain fastest. `left` and `right` hold the coverage and the
    sole index value, where there is one, of each chain."""
    def chain_pairs(l, r, i):
        if l[0] == r[0] == 'partial':
            return [(j, i - j) for j in range(i + 1)]
        return [(i if l[0] == 'partial' else l[1], i if r[0] == 'partial' else r[1])]
    return [tuple(zip(*chosen)) for chosen in product(*map(chain_pairs, left, right, index))]


def layout(model, windows):
    """Node by node in postorder: the node, and its cell of each index."""
    base = 0
    for t in nodes(model['tree']):
        indices = list(product(*index_values(coverage(model, t), windows)))
        yield t, {index: base + place for place, index in enumerate(indices)}
        base += len(indices)


def listed(model, windows):
    """The pairs in order: left cell, right cell, result cell."""
    def sides(t):
        cover = coverage(model, t)
        return [(c, v[0]) for c, v in zip(cover, index_values(cover, windows))]
    places = dict(layout(model, windows))
    return [(places[t[0]][l], places[t[1]][r], result)
            for t, at in places.items() if not isinstance(t, int)
            for index, result in at.items()
            for l, r in index_pairs(sides(t[0]), sides(t[1]), index)]


def run_in(file, lower, area):
    """The model and the windows of a run in an area."""
    model = read(file)
    windows = lowered(model, lower)
    if cells(model, windows) > min(8192, len(area)):
        raise Refused(12, 0)
    return model, windows


def start(file, lower, area):
    """Writes the area; what is told of the answer."""
    try:
        model, windows = run_in(file, lower, area)
        filled = [weight(model, t, index) if isinstance(t, int) else 0 for t, at in layout(model, windows) for index in at]
        if max(filled) >= LIMIT:
            raise Refused(14, 0)
    except Refused as r:
        return f'refused {r.number} {r.place}'
    area[:len(filled)] = filled
    return 'started'


def advance(file, lower, done, budget, area):
    """Writes the area; the number done, and what is told of the answer."""
    try:
        model, windows = run_in(file, lower, area)
        order = listed(model, windows)
        assert len(order) == pairs(model, windows)
        if done > len(order):
            raise Refused(13, 0)
    except Refused as r:
        return 0, f'refused {r.number} {r.place}'
    for left, right, result in order[done:done + budget]:
        total = area[result] + area[left] * area[right]
        if total >= LIMIT:
            return done, f'stopped {done}'
        area[result] = total
        done += 1
    return done, f'{done} {area[cells(model, windows) - 1] if done == len(order) else 0}'


B = bytes.fromhex('0103020201010202010301010001030102000203020100030303020001040104020504030506')
VALUES = [0, 1, 2, 3, 4, 5, 6, 7, 8, 16, 17, 255]


def damage():
    """The lines of the program crates/damage: B lowered, B's front parts, B with a byte set, B with a byte put in."""
    def line(name, at, value, file, lower=0):
        answer = plan(file, lower)
        return f'{name} {at} {value}: ' + ' '.join(map(str, answer[:2] if answer[0] else answer))
    yield from (line('l', 0, 0, B, lower) for lower in range(5))
    for at in range(39):
        if at <= 38:
            yield line('f', at, 0, B[:at])
        for i, value in enumerate(VALUES):
            yield line('s', at, i, B[:at] + bytes([value]) + B[at + 1:] if at < 38 else B)
        for value in (3, 4, 5, 6):
            yield line('p', at, 0, B[:at] + bytes([value]) + B[at:])


def single(window, load):
    return bytes([1, 1, 1, 2, 1, window, 3, 1, 1, load // 256, load % 256, 4, 1, 6])


def couple(window, *loads):
    return bytes([1, 2, 1, 2, 1, window] + [x for c in (1, 2) for x in (3, c, 1, loads[c - 1] // 256, loads[c - 1] % 256)] + [4, 1, 4, 2, 5, 6])


MODELS = {
    'B': B,
    'other': B[:29] + bytes([4, 2, 4, 3, 5, 4, 1, 5, 6]),
    'once': bytes([1, 2, 1, 2, 1, 3, 3, 1, 1, 0, 5, 4, 1, 4, 2, 5, 6]),
    'two': couple(2, 1, 2),
    'wide': couple(4, 65535, 1),
    'wider': couple(4, 65535, 65535),
    'both': bytes([1, 1, 2, 2, 1, 2, 2, 2, 1, 3, 1, 1, 0, 2, 3, 1, 2, 0, 3, 4, 1, 6]),
    'idle': single(0, 9),
    'large, window 4': single(4, 65535),
    'large, window 5': single(5, 65535),
    'exact': single(8, 256),
    'below': single(8, 255),
    'empty': b'',
}
MOST = LIMIT - 1
SPLITS = [[n] * 8 for n in (0, 1, 2, 3, 7, MOST)] + [
    [1, 0, 0, 0, 0, 0, 0, 0], [1, 2, 0, 0, 0, 0, 0, 0], [2, 0, 3, 1, 2, 0, 3, 1], [0, 1, 0, MOST, 0, 7, MOST, 0]]


def slots():
    """The lines of the program crates/slots: each model, each chain lowered; split budgets, each number done, each length of the area."""
    def line(file, lower, done, budgets, room):
        area = [7] * room
        text = f'lowered {lower} from {done}: {start(file, lower, area)}'
        for budget in budgets:
            done, told = advance(file, lower, done, budget, area)
            text += f', +{budget} {told}'
        return ' '.join([text + '; cells'] + [str(n) for n in area])
    for name, file in MODELS.items():
        yield name
        for lower in range(3):
            yield from (line(file, lower, 0, budgets, 14) for budgets in SPLITS)
            yield from (line(file, lower, done, [0, MOST], 14) for done in [*range(1, 10), MOST])
            yield from (line(file, lower, 0, [MOST], room) for room in range(14))


if __name__ == '__main__':
    if sys.argv[1:2] == ['sheet']:
        print('\n'.join(sheet(open(sys.argv[2], 'rb').read())))
    elif sys.argv[1:2] == ['plan']:
        print(*plan(open(sys.argv[3], 'rb').read(), int(sys.argv[2])))
    elif sys.argv[1:2] == ['damage']:
        print('\n'.join(damage()))
    elif sys.argv[1:2] == ['slots']:
        print('\n'.join(slots()))
    else:
        sys.exit(__doc__)
