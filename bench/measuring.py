"""What each call of the console costs on a network, and what the peers' searches cost there; all by differences of runs."""
from collections import Counter
from dataclasses import dataclass
from pathlib import Path

from counting import Failed, Run, Tools, by_function
from networks import Network

# The parts of a call that stand apart in the built program, by the beginnings of their functions' names.
APART = {
    "settling::": "settling nodes",
    "drawing::grow": "growing boxes",
    "replies::": "the reply",
    "libc.": "copying and clearing rows (C library)",
}
REST = "the rest"


@dataclass(frozen=True)
class Cost:
    """Of one kind of call: instructions a call, by parts, turns of repeated instructions, and what was replied."""

    parts: dict[str, float]
    turns: float
    replies: list[list[str]]

    @property
    def each(self) -> float:
        return sum(self.parts.values())

    def mean(self, place: int) -> float:
        """The mean of a number of the replies."""
        return sum(int(words[place]) for words in self.replies) / len(self.replies)


@dataclass(frozen=True)
class Console:
    tools: Tools
    program: Path
    functions: str  # as `nm` lists them

    def cost(self, before: list[str], calls: list[str], reply: str = "ok") -> Cost:
        """The cost of the calls, made after those that stand before. Each must be replied as expected."""
        less, more = self.said(before), self.said(before + calls)
        replies = [line.split() for line in more.said[len(before):]]
        if len(replies) != len(calls):
            raise Failed(f"the console replied to {len(replies)} of {len(calls)} lines")
        expected = reply.split()
        for call, words in zip(calls, replies):
            if words[: len(expected)] != expected:
                raise Failed(f"the console replies to `{call}` `{' '.join(words)}`, and not `{reply}`")
        parts: Counter[str] = Counter()
        for run, sign in ((more, 1), (less, -1)):
            for name, count in by_function(run, self.program, self.functions).items():
                parts[next((part for start, part in APART.items() if name.startswith(start)), REST)] += sign * count
        each = {part: count / len(calls) for part, count in parts.items()}
        return Cost(each, (more.turns - less.turns) / len(calls), replies)

    def not_apart(self) -> list[str]:
        """The parts that have no function of their own in this program."""
        return [part for start, part in APART.items() if "::" in start and f" {start}" not in self.functions]

    def said(self, lines: list[str]) -> Run:
        return self.tools.run(self.program, [], "".join(line + "\n" for line in lines))


def console_costs(console: Console, net: Network, stem: Path) -> dict[str, Cost]:
    gr, co = f"gr {stem.name}.gr", f"co {stem.name}.co"
    built = [gr, co, "build"]
    costs = {
        "read_gr": console.cost([gr], [gr]),
        "read_co": console.cost([gr, co], [co]),
        "build": console.cost(built, ["build"]),
        "check": console.cost(built, ["check"]),
        "update": console.cost(built, [f"update 1 {net.arcs[0][2]} 0"]),
        "boxes": console.cost(built, [f"show boxes {4 * len(net.arcs)}"], "boxes"),
        "line": console.cost(built, [f"n {net.n}"] * 100),
    }
    for word in ("search", "boxed"):
        costs[word] = console.cost(built, [f"{word} {s} {t}" for s, t in net.pairs])
        # all rows are judged and a refusal is replied; all is made ready, and the source is found at once
        costs[word + " refused"] = console.cost(built, [f"{word} 0 0"] * 100, "refused 11")
        costs[word + " at once"] = console.cost(built, [f"{word} {s} {s}" for s, _ in net.pairs])
    return costs


@dataclass(frozen=True)
class Peer:
    """Of one way of searching: instructions a pair, what it takes before the first pair, and its totals."""

    each: float
    before: int
    lengths: int
    settled: int
    sides: int


def peer(tools: Tools, program: Path, net: Network, stem: Path, way: str) -> Peer:
    less, more = (tools.run(program, [stem.name, way, str(count)]) for count in (0, len(net.pairs)))
    return Peer((more.total - less.total) / len(net.pairs), less.total, *map(int, more.said[0].split()))


@dataclass(frozen=True)
class Measured:
    net: Network
    box: dict[str, Cost]
    peers: dict[str, Peer]

    @property
    def costs(self) -> dict[str, float]:
        """Instructions a call, of the box and of its peers. The hand-written build is what the search with boxes takes
        before its first pair beyond the search without them."""
        box = {name: cost.each for name, cost in self.box.items()}
        peer = {way: peer.each for way, peer in self.peers.items()}
        return {
            "search": box["search"],
            "LEMON": peer["lemon"],
            "LEMON at -O3": peer["lemon at -O3"],
            "Boost": peer["boost"],
            "plain C++": peer["plain"],
            "search with boxes": box["boxed"],
            "C++ with boxes": peer["boxed"],
            "build": box["build"],
            "C++ build": self.peers["boxed"].before - self.peers["plain"].before,
            "check": box["check"],
            "update": box["update"],
            "read_gr": box["read_gr"],
            "read_co": box["read_co"],
        }


def measure(console: Console, peers: Path, peers_at_o3: Path, net: Network) -> Measured:
    stem = net.write(console.tools.folder)
    by_peers = {way: peer(console.tools, peers, net, stem, way) for way in ("lemon", "boost", "plain", "boxed")}
    by_peers["lemon at -O3"] = peer(console.tools, peers_at_o3, net, stem, "lemon")
    seen = Measured(net, console_costs(console, net, stem), by_peers)
    agree(seen)
    return seen


def agree(seen: Measured) -> None:
    """Fails unless all found the same lengths, and the box and the hand-written searches settled as many nodes and drew
    the same boxes. LEMON and Boost settle nodes of equal length in another order, so their settled counts may differ."""
    lengths = {peer.lengths for peer in seen.peers.values()}
    for word, way in (("search", "plain"), ("boxed", "boxed")):
        replies, hand = seen.box[word].replies, seen.peers[way]
        lengths.add(sum(int(words[1]) for words in replies))
        settled = sum(int(words[3]) for words in replies)
        if settled != hand.settled:
            raise Failed(f"{seen.net.name}: `{word}` settled {settled} nodes in all, the hand-written search {hand.settled}")
    if len(lengths) > 1:
        raise Failed(f"{seen.net.name}: the sums of all lengths differ: {lengths}")
    sides, by_hand = sum(map(int, seen.box["boxes"].replies[0][1:])), seen.peers["boxed"].sides
    if sides != by_hand:
        raise Failed(f"{seen.net.name}: the sides of all boxes sum to {sides}, of those drawn by hand to {by_hand}")
