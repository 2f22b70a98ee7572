"""The crates as a graph: what crates.txt says, what each crate is, and on which row it stands."""

import os
import re

# Libraries of the kit, which crates.txt may name too.
KIT = {"arrayvec"}


def read(path="crates.txt"):
    """For each crate those that it names, the kit's left out."""
    graph = {}
    with open(path, encoding="utf-8") as file:
        for line in file:
            words = line.partition("#")[0]
            if words.strip():
                name, _, needs = words.partition(":")
                graph[name.split()[0]] = [need for need in needs.split() if need not in KIT]
    unknown = sorted({need for needs in graph.values() for need in needs} - set(graph))
    if unknown:
        raise ValueError(f"{path} names crates that it does not have: {' '.join(unknown)}")
    return graph


def below(graph):
    """For each crate all that it stands on, near and far."""
    found = {}

    def of(name):
        if name not in found:
            found[name] = set().union(*({need} | of(need) for need in graph[name]))
        return found[name]

    for name in graph:
        of(name)
    return found


def reduced(graph):
    """The arrows without those that others imply."""
    far = below(graph)
    return {name: [need for need in needs if not any(need in far[other] for other in needs)] for name, needs in graph.items()}


def kind(name):
    """A program has a main.rt; theory has no function in any file of its src; all else is a library."""
    folder = os.path.join("crates", name, "src")
    files = os.listdir(folder)
    if "main.rt" in files:
        return "program"
    for file in files:
        with open(os.path.join(folder, file), encoding="utf-8") as source:
            if re.search(r"^\s*(pub\b.*)?\bfn\b", source.read(), re.M):
                return "library"
    return "theory"


def rows(graph):
    """The row of each crate, 0 the lowest: as near below the lowest crate that uses it as can be. What stands on nothing is at the
    bottom, what nothing uses at the top."""
    users = {name: [user for user in graph if name in graph[user]] for name in graph}
    height = {}

    def high(name):
        if name not in height:
            height[name] = 1 + max((high(need) for need in graph[name]), default=-1)
        return height[name]

    top = max(high(name) for name in graph)
    row = {}

    def place(name):
        if name not in row:
            row[name] = 0 if not graph[name] else min((place(user) - 1 for user in users[name]), default=top)
        return row[name]

    for name in graph:
        place(name)
    return row
