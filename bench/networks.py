"""Networks and pairs, each from its seed: railway-shaped and random ones, as the DIMACS texts that the console reads."""
from dataclasses import dataclass
from math import hypot
from pathlib import Path
from random import Random

SIDE = 1_000_000  # the greatest coordinate


@dataclass(frozen=True)
class Network:
    shape: str
    n: int
    arcs: list[tuple[int, int, int]]  # tail, head, weight
    places: list[tuple[int, int]]
    pairs: list[tuple[int, int]]

    @property
    def name(self) -> str:
        return f"{self.shape} {self.n}/{len(self.arcs):,}"

    def write(self, folder: Path) -> Path:
        """Writes the network's three files; what is returned with .gr, .co or .pairs behind it is one of them."""
        stem = folder / f"{self.shape}-{self.n}-{len(self.arcs)}"
        texts = {
            "gr": [("p", "sp", self.n, len(self.arcs)), *(("a", *arc) for arc in self.arcs)],
            "co": [("p", "aux", "sp", "co", self.n), *(("v", v, x, y) for v, (x, y) in enumerate(self.places, 1))],
            "pairs": self.pairs,
        }
        for kind, lines in texts.items():
            stem.with_suffix("." + kind).write_text("".join(" ".join(map(str, line)) + "\n" for line in lines))
        return stem


def railway(n: int, m: int, seed: int, pairs: int) -> Network:
    """Stations in clusters, joined by the least tree and by links between neighbours; each link is an arc each way, its
    weight by the distance. An arc may have doubles, so that there are m."""
    dice = Random(seed)
    places: list[tuple[int, int]] = []
    while len(places) < n:
        if places and dice.random() < 0.5:
            x, y = (round(dice.gauss(middle, 30_000)) for middle in dice.choice(places))
        else:
            x, y = anywhere(dice)
        if max(abs(x), abs(y)) <= SIDE:
            places.append((x, y))

    def far(u: int, v: int) -> float:
        return hypot(places[u][0] - places[v][0], places[u][1] - places[v][1])

    links: set[tuple[int, int]] = set()
    nearest = {v: (far(0, v), 0) for v in range(1, n)}  # of each node outside the tree: the nearest within
    while nearest:
        v = min(nearest, key=nearest.__getitem__)
        _, u = nearest.pop(v)
        links.add((min(u, v), max(u, v)))
        for u in nearest:
            nearest[u] = min(nearest[u], (far(u, v), v))
    for _, u, v in sorted((far(u, v), u, v) for v in range(n) for u in range(v)):
        if 2 * len(links) + 2 > m:
            break
        if dice.random() < 0.5:
            links.add((u, v))
    arcs = [
        (tail + 1, head + 1, max(1, round(far(u, v) / 100 * dice.uniform(0.8, 1.25))))
        for u, v in sorted(links)
        for tail, head in ((u, v), (v, u))
    ]
    arcs += dice.choices(arcs, k=m - len(arcs))
    dice.shuffle(arcs)
    return Network("railway", n, arcs, places, any_pairs(dice, n, pairs))


def scattered(n: int, m: int, seed: int, pairs: int) -> Network:
    """A round trip through all nodes in random order, and random arcs; the weights have nothing to do with the places."""
    dice = Random(seed)
    order = dice.sample(range(1, n + 1), n)
    ends = [*zip(order, order[1:] + order[:1]), *any_pairs(dice, n, m - n)]
    arcs = [(tail, head, dice.randint(1, 10_000)) for tail, head in ends]
    dice.shuffle(arcs)
    return Network("random", n, arcs, [anywhere(dice) for _ in range(n)], any_pairs(dice, n, pairs))


def anywhere(dice: Random) -> tuple[int, int]:
    return dice.randint(-SIDE, SIDE), dice.randint(-SIDE, SIDE)


def any_pairs(dice: Random, n: int, count: int) -> list[tuple[int, int]]:
    return [(dice.randint(1, n), dice.randint(1, n)) for _ in range(count)]
