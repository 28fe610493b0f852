#!/usr/bin/env python3
"""piles.py: what crates/piles must print. Networks, layers and accounts written anew, sharing nothing with the crates."""

ROADS = [(0, 2, 0, 2, 2, 9), (0, 1, 0, 4, 1, 4), (1, 2, 0, 4, 3, 0), (0, 2, 1, 2, 9, 1)]
TABLE = ([3, 0, -3], ROADS, (0, 0))
BLANK = ([0], [], (0, 0))


def exchange(n):
    stocks, roads, (f, g) = n
    return stocks, [(t, h, l, u, d, c) for t, h, l, u, c, d in roads], (g, f)


def floor(n):
    stocks, roads, (f, g) = n
    left = list(stocks)
    for t, h, l, u, c, d in roads:
        left[t] -= l
        left[h] += l
        f += l * c
        g += l * d
    return left, [(t, h, 0, u - l, c, d) for t, h, l, u, c, d in roads], (f, g)


def cap(n, caps):
    stocks, roads, fixed = n
    lowered = []
    for i, (t, h, l, u, c, d) in enumerate(roads):
        m = caps.get(i, u)
        lowered.append((t, h, l, m if l <= m <= u else u, c, d))
    return stocks, lowered, fixed


def grid(rows, columns, chests):
    def road(r, c, v, w):
        return (v, w, 0, 1 + (r + 2 * c) % 5, (3 * r + c) % 7, (5 * r + 2 * c) % 7 - 3)

    roads = [road(r, c, r * columns + c, r * columns + c + 1) for r in range(rows) for c in range(columns - 1)]
    roads += [road(r, c, r * columns + c, (r + 1) * columns + c) for r in range(rows - 1) for c in range(columns)]
    stocks = [0] * (rows * columns)
    stocks[0] += chests
    stocks[-1] -= chests
    return stocks, roads, (0, 0)


def show(name, n):
    stocks, roads, (f, g) = n
    offered, wanted = [b for b in stocks if b > 0], [-b for b in stocks if b < 0]
    print(f"{name}: fixed {f} {g}")
    print(f"(nodes {len(stocks)})\n(arcs {len(roads)})")
    print(f"(offered {sum(offered)} {len(offered)})\n(wanted {sum(wanted)} {len(wanted)})")
    print(f"(balanced {'yes' if sum(offered) == sum(wanted) else 'no'})")
    print(f"(reach {sum(r[3] * abs(r[4]) for r in roads)} {sum(r[3] * abs(r[5]) for r in roads)})")


show("table", TABLE)
show("exchange of table", exchange(TABLE))
show("exchange twice", TABLE)
show("floor of table", floor(TABLE))
show("floor of floor", floor(TABLE))
show("cap of cap", cap(cap(TABLE, {1: 1}), {9: 0, 0: 3}))
show("exchange of floor of cap", exchange(floor(cap(TABLE, {1: 1}))))
show("table at fault", BLANK)
show("floor of grid", grid(3, 3, 2))
show("counted pile", exchange(floor(cap(exchange(floor(cap(TABLE, {1: 1}))), {9: 0, 0: 3}))))
print("10 questions")
