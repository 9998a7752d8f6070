"""Counted runs: programs under qemu-user with the plugin of counter.c, by the loader and C library of the Rattle kit."""
import subprocess
from bisect import bisect
from collections import Counter
from dataclasses import dataclass
from pathlib import Path


class Failed(Exception):
    """What stops the benchmark, in words for its user."""


@dataclass(frozen=True)
class Run:
    said: list[str]
    counts: Counter[tuple[str, int]]  # instructions by file and address within it
    turns: int  # of repeated instructions, beyond the first of each

    @property
    def total(self) -> int:
        return self.counts.total()


@dataclass(frozen=True)
class Tools:
    """What a counted run needs: the emulator and its plugin, the kit's folder of libraries, and a folder to run in."""

    emulator: Path
    plugin: Path
    library: Path
    folder: Path

    def run(self, program: Path, words: list[str], typed: str = "") -> Run:
        counts = self.folder / "counts"
        emulator = [str(self.emulator), "-cpu", "max", "-plugin", f"{self.plugin},out={counts}"]
        loader = [str(self.library / "ld-linux-x86-64.so.2"), "--library-path", str(self.library)]
        done = subprocess.run(
            [*emulator, *loader, str(program), *words], input=typed, capture_output=True, text=True, cwd=self.folder
        )
        if done.returncode != 0:
            raise Failed(f"{program.name} ended with status {done.returncode}: {done.stderr.strip()}")
        return counted(done.stdout.splitlines(), counts.read_text())


def counted(said: list[str], text: str) -> Run:
    """A run by what the plugin wrote, with each address told from the start of its file."""
    starts: dict[str, int] = {}
    ran: list[tuple[int, int, int]] = []
    for line in text.splitlines():
        kind, address, rest = line.split(" ", 2)
        if kind == "map":
            starts.setdefault(rest, int(address, 16))
        else:
            count, turns = rest.split()
            ran.append((int(address, 16), int(count), int(turns)))
    files = sorted(starts, key=starts.__getitem__)
    begins = [starts[path] for path in files]
    counts: Counter[tuple[str, int]] = Counter()
    for address, count, _ in ran:
        path = files[bisect(begins, address) - 1]
        counts[path, address - starts[path]] += count
    return Run(said, counts, sum(turns for _, _, turns in ran))


def by_function(run: Run, program: Path, listed: str) -> Counter[str]:
    """A run's instructions by the functions of the program, as `nm` listed them; those of a library by its file's name."""
    symbols = sorted((int(address, 16), name) for address, _, name in (line.split(" ", 2) for line in listed.splitlines()))
    begins = [address for address, _ in symbols]
    parts: Counter[str] = Counter()
    for (path, address), count in run.counts.items():
        inside = path == str(program)
        parts[symbols[bisect(begins, address) - 1][1] if inside else Path(path).name] += count
    return parts
