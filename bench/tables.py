"""The tables that bench/run prints, as Markdown, and the bars that the numbers are held to."""
from dataclasses import dataclass
from math import log

from measuring import REST, Measured


@dataclass(frozen=True)
class Ratio:
    """A cost of the box over a peer's, and the most that it may be, by the network's shape."""

    ours: str
    theirs: str
    bars: dict[str, float]

    def of(self, one: Measured) -> float:
        return one.costs[self.ours] / one.costs[self.theirs]

    def missed(self, one: Measured) -> bool:
        return self.of(one) > self.bars.get(one.net.shape, self.of(one))

    def judged(self, one: Measured) -> str:
        bar = f", at most {self.bars[one.net.shape]}" if one.net.shape in self.bars else ""
        return f"{self.of(one):.2f}{bar}{': **not met**' if self.missed(one) else ''}"


RATIOS = [
    Ratio("search", "LEMON", {"railway": 2.0, "random": 1.5}),
    Ratio("search", "LEMON at -O3", {}),
    Ratio("search", "Boost", {}),
    Ratio("search", "plain C++", {}),
    Ratio("search with boxes", "LEMON", {"railway": 1.2}),
    Ratio("search with boxes", "C++ with boxes", {}),
    Ratio("build", "C++ build", {"railway": 1.0}),
]
STEEPEST_BUILD = 2.1  # the greatest exponent of n
LINKING = "linking the arcs"
FOLLOWED = ["search", "LEMON", "search with boxes", "C++ with boxes", "build", "C++ build"]  # as networks grow


def table(head: list[str], rows: list[list[str]]) -> str:
    lines = [head, ["---"] + ["---:"] * (len(head) - 1), *rows]
    return "".join("| " + " | ".join(line) + " |\n" for line in lines)


def count(number: float) -> str:
    """Instructions, in thousands from 10,000 on and in millions from 1,000,000 on."""
    if number >= 1_000_000:
        return f"{number / 1_000_000:.{2 if number < 10_000_000 else 1}f} M"
    return f"{number / 1_000:.1f} k" if number >= 10_000 else f"{number:,.0f}"


def names(seen: list[Measured]) -> list[str]:
    return [one.net.name for one in seen]


def calls(seen: list[Measured]) -> str:
    return table(
        ["instructions a call", *names(seen)],
        [[name, *(count(one.costs[name]) for one in seen)] for name in seen[0].costs],
    )


def ratios(seen: list[Measured]) -> str:
    return table(
        ["ratio, and its bar", *names(seen)],
        [[f"{ratio.ours} / {ratio.theirs}", *(ratio.judged(one) for one in seen)] for ratio in RATIOS],
    )


def steepness(seen: list[Measured], name: str) -> float:
    """The exponent of n that fits a cost best, by least squares of the logarithms."""
    xs, ys = [log(one.net.n) for one in seen], [log(one.costs[name]) for one in seen]
    x, y = sum(xs) / len(xs), sum(ys) / len(ys)
    return sum((a - x) * (b - y) for a, b in zip(xs, ys)) / sum((a - x) ** 2 for a in xs)


def too_steep(seen: list[Measured]) -> bool:
    return steepness(seen, "build") > STEEPEST_BUILD


def growth(seen: list[Measured], last: str, fitted: dict[str, str]) -> str:
    return table(
        ["instructions a call", *names(seen), last],
        [[name, *(count(one.costs[name]) for one in seen), fitted[name]] for name in FOLLOWED],
    )


def growth_with_n(seen: list[Measured]) -> str:
    fitted = {name: f"n^{steepness(seen, name):.2f}" for name in FOLLOWED}
    fitted["build"] += f", at most n^{STEEPEST_BUILD}" + (": **not met**" if too_steep(seen) else "")
    return growth(seen, "grows as", fitted)


def growth_with_m(seen: list[Measured]) -> str:
    first, last = seen[0], seen[-1]
    arcs = len(last.net.arcs) - len(first.net.arcs)
    return growth(seen, "for each arc", {name: count((last.costs[name] - first.costs[name]) / arcs) for name in FOLLOWED})


def spent(one: Measured) -> str:
    """What stands apart in the program is told by its functions; the rest by calls that go further and further: a line
    alone, a refusal after all rows are judged, a source that is its own target, and a search. The rest of a build stands
    with the linking of the arcs."""
    columns: list[dict[str, float]] = []
    for word in ("search", "boxed"):
        upto = [one.box[call].parts[REST] for call in ("line", word + " refused", word + " at once", word)]
        further = zip(("reading the line", "judging the rows", LINKING, "tracing the route"), upto, [0.0, *upto])
        columns.append({part: more - less for part, more, less in further} | one.box[word].parts)
    columns.append({LINKING: one.box["build"].parts[REST]} | one.box["build"].parts)
    for column in columns:
        del column[REST]
    parts = sorted(set().union(*columns), key=lambda part: [-column.get(part, 0.0) for column in columns])
    rows = [[part, *(count(column.get(part, 0.0)) for column in columns)] for part in parts]
    rows.append(["all", *(count(sum(column.values())) for column in columns)])
    turns = [one.box[call].turns for call in ("search", "boxed", "build")]
    rows.append(["turns of repeated instructions, not in it", *map(count, turns)])
    return table([f"{one.net.name}, instructions a call", "search", "search with boxes", "build"], rows)


def steps(seen: list[Measured]) -> str:
    rows = []
    for word, name in (("search", "search"), ("boxed", "search with boxes")):
        for one in seen:
            cost, ready = one.box[word], one.box[word + " at once"]
            settled, arcs = cost.mean(3), cost.mean(2)
            each = (cost.each - ready.each) / (settled - 1)
            rows.append([f"{name}, {one.net.name}", f"{settled:.1f}", f"{arcs:.1f}", count(ready.each), count(each)])
    return table(["means", "settled nodes", "arcs of the route", "up to the first node", "for each node after it"], rows)
