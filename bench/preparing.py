"""What must be there before anything is counted: packages, the compiled counter and peers, and the proved console."""
import os
import platform
import re
import shutil
import subprocess
import sys
from pathlib import Path

HERE = Path(__file__).resolve().parent
TOP = HERE.parent
FOLDER = TOP / "target" / "bench"

NATIVE = platform.machine() == "x86_64"
PREFIX = "" if NATIVE else "x86_64-linux-gnu-"
# What must be there beside the emulator, and the Debian package that has it.
NEEDS = {
    "gcc": "gcc",
    PREFIX + "g++": "g++" if NATIVE else "g++-x86-64-linux-gnu",
    PREFIX + "nm": "binutils" if NATIVE else "binutils-x86-64-linux-gnu",
    "/usr/include/boost/graph/dijkstra_shortest_paths.hpp": "libboost-dev",
    "/usr/include/lemon/dijkstra.h": "liblemon-dev",
}


class Unable(Exception):
    """Why the benchmark cannot run, in words for its user."""


def say(words: str) -> None:
    print(f"bench/run: {words}", file=sys.stderr)


def command(words: list[str | Path], where: Path = TOP) -> str:
    done = subprocess.run([str(word) for word in words], stdin=subprocess.DEVNULL, stdout=subprocess.PIPE, text=True, cwd=where)
    if done.returncode != 0:
        raise Unable(f"`{' '.join(map(str, words))}` ended with status {done.returncode}\n{done.stdout}")
    return done.stdout


def need_packages(emulator: Path, install: bool) -> None:
    needs = {str(emulator): "qemu-user"} | NEEDS
    missing = [package for thing, package in needs.items() if not (shutil.which(thing) or Path(thing).is_file())]
    if not missing:
        return
    line = [*(["sudo"] if os.geteuid() else []), "apt-get", "install", "--no-install-recommends", *missing]
    if not install:
        raise Unable(f"something is missing; on Debian `{' '.join(line)}` brings it, and so does `bench/run --install`")
    say(command([*line, "--yes"]))


def kit_library() -> Path:
    rt = shutil.which("rt")
    if not rt:
        raise Unable("no `rt` on the PATH: install the Rattle kit first")
    kit = Path(os.environ.get("RATTLE_HOME") or Path(rt).resolve().parent.parent)
    return kit / "toolchain" / "lib"


def compiled(name: str, source: str, compiler: list[str | Path]) -> Path:
    """Compiles a file of this folder, unless that was done since anything in the folder changed."""
    target = FOLDER / name
    changed = max(path.stat().st_mtime for path in HERE.iterdir())
    if not target.exists() or target.stat().st_mtime < changed:
        command([*compiler, "-o", target, HERE / source])
    return target


def plugin(emulator: Path) -> Path:
    if "-plugin" not in command([emulator, "--help"]):
        raise Unable(f"{emulator} takes no plugins (that of Debian 12 does, of Debian 13 not): name one by --emulator")
    version = re.search(r"version (\d+)", command([emulator, "--version"]))
    interface = 1 if version and int(version[1]) < 9 else 2
    options = ["-O2", "-shared", "-fPIC", f"-DPLUGIN_VERSION={interface}"]
    return compiled(f"counter-{interface}.so", "counter.c", ["gcc", *options])


def peers(level: str) -> Path:
    headers = FOLDER / "include"  # the two libraries alone, apart from the other headers of this machine
    headers.mkdir(exist_ok=True)
    for library in ("boost", "lemon"):
        (headers / library).unlink(missing_ok=True)
        (headers / library).symlink_to(f"/usr/include/{library}")
    options = ["-std=c++17", level, "-static-libstdc++", "-static-libgcc", "-isystem", headers]
    return compiled("peers" + level, "peers.cpp", [PREFIX + "g++", *options])


def proved_console() -> Path:
    say("proving and building the console first, where that is not done")
    folder = TOP / "crates" / "console"
    command(["rt", "run"], folder)
    return folder / "out" / "console"


def functions(program: Path) -> str:
    """The program's functions, as `nm` lists them."""
    if not program.is_file():
        raise Unable(f"there is no program {program}")
    return command([PREFIX + "nm", "--defined-only", program])
