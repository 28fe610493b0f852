#!/usr/bin/env python3
"""Prints what the program `cases` must print: each name, then the account of its text or the line of its first fault.

    tools/expected.py crates/cases/data $(cat crates/cases/args) > crates/cases/stdout

It shares nothing with the crates: a line is held to a pattern of items, read from the left."""
import re
import sys

NODES, ARCS, STOCK, MOST, COST, TEXT = 200, 1000, 1_000_000, 1000, 1000, 65_536


class Fault(Exception):
    """A refusal: its number, and its place where it has one."""


def number(line, at, low, high):
    """The number that begins at `at`, and where it ends."""
    digits = re.compile(rb"-?([0-9]*)").match(line, at)
    if not digits[1]:
        raise Fault(10, digits.end())
    if digits[0] == b"-0" or (digits[1][0] == ord("0") and len(digits[1]) > 1):
        raise Fault(10, at)
    if len(digits[1]) > 7 or not low <= int(digits[0]) <= high:
        raise Fault(11, at)
    return int(digits[0]), digits.end()


def form(line, items):
    """The numbers of a line that is made of these items: a text, or the range of a number."""
    at, numbers = 0, []
    for item in items:
        if isinstance(item, bytes):
            for byte in item:
                if line[at] != byte:
                    raise Fault(10, at)
                at += 1
        else:
            value, at = number(line, at, *item)
            numbers.append(value)
    return numbers


def begins(line, words):
    """The one of these words that the line begins with."""
    fits = [0]
    for word in words:
        if line.startswith(word):
            return word
        fits.append(next(i for i in range(len(word)) if line[i] != word[i]))
    raise Fault(10, max(fits))


def lines(text):
    """The lines with their places, each with its byte 10, which no item holds before the end."""
    at = 0
    while at < len(text):
        end = text.find(b"\n", at)
        if end < 0:
            raise Fault(10, len(text))
        yield at, text[at : end + 1]
        at = end + 1


def read(text):
    if len(text) > TEXT:
        raise Fault(9)
    stocks, roads, named = None, [], set()
    for place, line in lines(text):
        try:
            if stocks is None:
                n, m = form(line, [b"(net ", (1, NODES), b" ", (0, ARCS), b")\n"])
                stocks = [0] * n
                continue
            node = (0, n - 1)
            words = [b"(stock "] * (not roads) + [b"(arc "] * (len(roads) < m)
            if begins(line, words) == b"(stock ":
                i, amount = form(line, [b"(stock ", node, b" ", (-STOCK, STOCK), b")\n"])
                if i in named:
                    raise Fault(13, 0)
                named.add(i)
                stocks[i] = amount
            else:
                pair = [b"(arc (", node, b" ", node, b") (", (0, MOST), b" ", (0, MOST), b") ("]
                road = form(line, pair + [(-COST, COST), b" ", (-COST, COST), b"))\n"])
                if road[0] == road[1] or road[2] > road[3]:
                    raise Fault(12, 0)
                roads.append(road)
        except Fault as fault:
            raise Fault(fault.args[0], place + fault.args[1])
    if stocks is None or len(roads) < m:
        raise Fault(10, len(text))
    return stocks, roads


def answer(text):
    try:
        stocks, roads = read(text)
    except Fault as fault:
        return "(refused %s)\n" % " ".join(map(str, fault.args))
    offers, wants = [b for b in stocks if b > 0], [-b for b in stocks if b < 0]
    reach = [sum(road[3] * abs(road[k]) for road in roads) for k in (4, 5)]
    return (
        f"(nodes {len(stocks)})\n(arcs {len(roads)})\n"
        f"(offered {sum(offers)} {len(offers)})\n(wanted {sum(wants)} {len(wants)})\n"
        f"(balanced {'yes' if sum(offers) == sum(wants) else 'no'})\n(reach {reach[0]} {reach[1]})\n"
    )


if __name__ == "__main__":
    for name in sys.argv[2:]:
        with open(f"{sys.argv[1]}/{name}.txt", "rb") as file:
            print(f"{name}\n{answer(file.read())}", end="")
