"""Counts the functions on the way of a write and of a scan, from what callgrind saw of two runs each.

usage: ways.py WITHOUT WITH

WITHOUT and WITH are files that callgrind wrote (with --compress-strings=no) of a script, and of the same script with one line
more. A call of one function by another is on that line's way if the second run does it more often. Printed are the functions
that are called on the way, a generic one once, without the C library's and the drops that the compiler wrote; and how many stand
on the longest way down, a circle counted as its members together; of both how many are the repository's own (`tab..`).
"""
import re
import sys
from collections import defaultdict

sys.setrecursionlimit(10000)


def plain(name):
    """Returns the function's name without the types that it was made for."""
    return re.sub(r"::<.*", "", name)


def edges_of(path):
    """Returns how often each function calls each other one."""
    caller, callee, edges = None, None, defaultdict(int)
    with open(path, encoding="utf-8", errors="replace") as it:
        for line in it:
            name, _, value = line.rstrip("\n").partition("=")
            if name == "fn":
                caller = plain(value)
            elif name == "cfn":
                callee = plain(value)
            elif name == "calls":
                edges[caller, callee] += int(value.split()[0])
    return edges


def without_circles(graph, start):
    """Returns the components that the start reaches, callees first, by Tarjan's way."""
    index, low, stack, found = {}, {}, [], []

    def visit(node):
        index[node] = low[node] = len(index)
        stack.append(node)
        for below in graph[node]:
            if below not in index:
                visit(below)
            if below in stack:
                low[node] = min(low[node], low[below])
        if low[node] == index[node]:
            part = []
            while not part or part[-1] != node:
                part.append(stack.pop())
            found.append(part)

    visit(start)
    return found


def longest(graph, start, weight):
    """Returns the greatest sum of weights on a way from the start, each circle counted as its members together."""
    depth, part_of = {}, {}
    for number, part in enumerate(without_circles(graph, start)):
        part_of.update({node: number for node in part})
        below = [depth[part_of[to]] for node in part for to in graph[node] if part_of.get(to) != number]
        depth[number] = sum(weight(node) for node in part) + max(below, default=0)
    return depth[part_of[start]]


def is_counted(name):
    """Returns whether the name is of a function that someone wrote in Rattle: none of the C library's, and no drop of fields."""
    return "::" in name and not name.endswith("Destruct::drop")


def main(before, after):
    old, new = edges_of(before), edges_of(after)
    graph = defaultdict(set)
    for (caller, callee), count in new.items():
        if count > old[caller, callee] and is_counted(caller) and is_counted(callee):
            graph[caller].add(callee)
    called = {it for below in graph.values() for it in below}
    graph[""] = {it for it in [*graph] if it not in called}
    is_own = lambda name: int(bool(re.match(r"tab\w*::", name)))
    reached = {name for part in without_circles(graph, "") for name in part} - {""}
    own = sum(map(is_own, reached))
    deep = longest(graph, "", lambda name: int(name != ""))
    print(f"{len(reached)} functions, {deep} deep; of them {own} of the repository, {longest(graph, '', is_own)} deep")


main(*sys.argv[1:])
