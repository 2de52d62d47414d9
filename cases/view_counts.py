#!/usr/bin/env python3
"""Writes the lines that view_tables is to print for the cases of its stdin: it makes the same draws, with dictionaries in
place of snapshots, and counts what is compared."""
import sys

M = (1 << 64) - 1


class Draws:
    def __init__(self, graph):
        self.count = (graph << 32) & M

    def below(self, end):
        self.count = (self.count + 1) & M
        a = (self.count + 0x9E3779B97F4A7C15) & M
        b = ((a ^ (a >> 30)) * 0xBF58476D1CE4E5B9) & M
        c = ((b ^ (b >> 27)) * 0x94D049BB133111EB) & M
        return (c ^ (c >> 31)) % max(end, 1)


class Graph:
    def __init__(self):
        self.labels = {}
        self.near = {}

    def step(self, update):
        kind, rest = update[0], update[1:]
        if kind == "+v":
            v, label = rest
            if v in self.labels:
                return False
            self.labels[v], self.near[v] = label, {}
        elif kind == "-v":
            (v,) = rest
            if v not in self.labels:
                return False
            for w in self.near[v]:
                del self.near[w][v]
            del self.labels[v], self.near[v]
        elif kind == "~v":
            v, label = rest
            if v not in self.labels:
                return False
            self.labels[v] = label
        else:
            v, w = rest[0], rest[1]
            if v == w or v not in self.labels or w not in self.labels:
                return False
            if (w in self.near[v]) != (kind != "+e"):
                return False
            if kind == "-e":
                del self.near[v][w], self.near[w][v]
            else:
                self.near[v][w] = self.near[w][v] = rest[2]
        return True

    def neighbours(self):
        return {v: frozenset(near) for v, near in self.near.items()}


def draw_graph(draws, vertices, edges, labels, hub):
    updates = []
    for v in range(vertices):
        if draws.below(16) > 0:
            updates.append(("+v", v, draws.below(labels)))
    if hub:
        for v in range(vertices):
            updates.append(("+e", 0, v, draws.below(labels)))
    for _ in range(edges):
        v = draws.below(vertices)
        w = draws.below(vertices)
        updates.append(("+e", v, w, draws.below(labels)))
    return updates


def draw_vertex(draws, vertices):
    return 0 if draws.below(4) == 0 else draws.below(vertices)


def draw_update(draws, graph, vertices, labels):
    v = draw_vertex(draws, vertices)
    w = draw_vertex(draws, vertices)
    label = draws.below(labels)
    kind = draws.below(20)
    if v not in graph.labels:
        return ("+v", v, label)
    if kind < 2:
        return ("-v", v) if kind == 0 else ("~v", v, label)
    if w not in graph.labels:
        return ("+v", w, label)
    if w not in graph.near[v]:
        return ("+e", v, w, label)
    return ("~e", v, w, label) if kind < 10 else ("-e", v, w)


def states(number, vertices, edges, labels, most_updates, groups):
    draws = Draws(number)
    graph = Graph()
    yield graph.neighbours()
    yield graph.neighbours()
    count = 0
    for update in draw_graph(draws, vertices, edges, labels, number % 2 == 1):
        if count < 1024:
            count += graph.step(update)
    yield graph.neighbours()
    for _ in range(groups):
        count = 0
        for _ in range(draws.below(most_updates + 1)):
            update = draw_update(draws, graph, vertices, labels)
            if count < 1024:
                count += graph.step(update)
        yield graph.neighbours()


def spans(groups):
    half, most = groups // 2, max(groups - 1, 0)
    return [(0, half), (half // 2, half), (half // 2, most), (most, most), (most, groups), (most, groups)]


def answer(words):
    if len(words) != 8 or not all(word.isdigit() for word in words):
        return "no case"
    first, graphs, vertices, edges, labels, most_updates, more, shards = map(int, words)
    if shards == 0:
        return "no shards"
    groups = views = visited = near = most = 0
    for number in range(first, first + graphs):
        told = list(states(number, vertices, edges, labels, most_updates, more))
        groups += len(told) - 1
        for low, high in spans(len(told) - 1):
            for group in range(low, high):
                views += 1
                for v in range(vertices):
                    both = told[group].get(v, frozenset()) | told[group + 1].get(v, frozenset())
                    visited += 1
                    near += len(both)
                    most = max(most, len(both))
    return f"{groups} groups, {views} views, {visited} vertices, {near} neighbours, {most} at the most"


for line in sys.stdin.read().splitlines():
    if line == "" or line.startswith("#"):
        print(line)
    else:
        print(f"{line} -> {answer(line.split(' '))}")
