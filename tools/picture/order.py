"""The order of what stands on each row, with few crossings, and where each of it stands from left to right.

An arrow that passes rows has a place on each of them. Arrows to the same crate share these places: they run together.
A node is (crate, row); it is the crate itself on the crate's own row, and a place of the arrows to it on the rows above.
"""

import random

TRIES = 60
ROUNDS = 60


def layers(arrows, row):
    """The nodes of each row, lowest first, and the links (upper, lower) between neighbouring rows."""
    nodes = {(name, row[name]) for name in row}
    links = set()
    for name, needs in arrows.items():
        for need in needs:
            upper = (name, row[name])
            for at in range(row[name] - 1, row[need] - 1, -1):
                nodes.add((need, at))
                links.add((upper, (need, at)))
                upper = (need, at)
    most = max(row.values())
    return [sorted(node for node in nodes if node[1] == at) for at in range(most + 1)], sorted(links)


def neighbours(links):
    up, down = {}, {}
    for upper, lower in links:
        up.setdefault(lower, []).append(upper)
        down.setdefault(upper, []).append(lower)
    return up, down


def crossings(layer, place, near):
    """How often the links of neighbouring nodes of a layer cross, as a sum over all pairs of the layer."""
    count = 0
    for at, left in enumerate(layer):
        for right in layer[at + 1 :]:
            count += sum(place[a] > place[b] for a in near.get(left, ()) for b in near.get(right, ()))
    return count


def all_crossings(order, place, up):
    return sum(crossings(layer, place, up) for layer in order[:-1])


def sweep(order, place, near, rising):
    """Each layer sorted by the middle of its neighbours on the layer before it, and then by swaps that save crossings."""
    steps = range(1, len(order)) if rising else range(len(order) - 2, -1, -1)
    for at in steps:
        layer = order[at]
        middle = {node: sum(place[other] for other in near[node]) / len(near[node]) if near.get(node) else place[node] for node in layer}
        layer.sort(key=lambda node: middle[node])
        better = True
        while better:
            better = False
            for left in range(len(layer) - 1):
                pair = layer[left : left + 2]
                if crossings(pair[::-1], place, near) < crossings(pair, place, near):
                    layer[left : left + 2] = pair[::-1]
                    better = True
        renumber(layer, place)


def renumber(layer, place):
    for at, node in enumerate(layer):
        place[node] = (at + 0.5) / len(layer)


def ordered(start, links):
    """The best order of many, each from another beginning; the same at every run."""
    up, down = neighbours(links)
    chance = random.Random(17)
    best = None
    for _ in range(TRIES):
        order = [sorted(layer, key=lambda node: chance.random()) for layer in start]
        place = {}
        for layer in order:
            renumber(layer, place)
        for _ in range(8):
            sweep(order, place, down, True)
            sweep(order, place, up, False)
            cost = all_crossings(order, place, up)
            if best is None or cost < best[0]:
                best = cost, [list(layer) for layer in order]
    return best[1]


def spread(layer, wish, width, gap, left, right):
    """Places of middles, near those wished for, in order, apart by the gap, between left and right."""
    at = dict(wish)
    for _ in range(200):
        for first, second in zip(layer, layer[1:]):
            lack = (width[first] + width[second]) / 2 + gap - (at[second] - at[first])
            if lack > 0:
                at[first] -= lack / 2
                at[second] += lack / 2
        for node in layer:
            at[node] = min(max(at[node], left + width[node] / 2), right - width[node] / 2)
    return at


def pull(node, other, real):
    """How strongly a link draws: arrows that pass rows are to run straight."""
    return 8 if node not in real and other not in real else 2 if node not in real or other not in real else 1


def across(order, links, width, real, gap, left, right):
    """The middle of each node: near the middle of its neighbours, over many rounds up and down."""
    up, down = neighbours(links)
    at = {}
    for layer in order:
        step = (right - left) / len(layer)
        at.update(spread(layer, {node: left + step * (n + 0.5) for n, node in enumerate(layer)}, width, gap, left, right))
    for turn in range(ROUNDS):
        for layer in order if turn % 2 else order[::-1]:
            wish = {}
            for node in layer:
                pulls = [(pull(node, other, real), at[other]) for other in up.get(node, []) + down.get(node, [])]
                wish[node] = sum(force * x for force, x in pulls) / sum(force for force, _ in pulls)
            at.update(spread(layer, wish, width, gap, left, right))
    return stretched(at, width, left, right)


def stretched(at, width, left, right):
    """The same, drawn apart until both edges are reached."""
    first, last = min(at, key=lambda node: at[node] - width[node] / 2), max(at, key=lambda node: at[node] + width[node] / 2)
    begin, end = left + width[first] / 2, right - width[last] / 2
    scale = max(1, (end - begin) / (at[last] - at[first]))
    moved = {node: begin + (x - at[first]) * scale for node, x in at.items()}
    return {node: min(max(x, left + width[node] / 2), right - width[node] / 2) for node, x in moved.items()}
