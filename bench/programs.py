"""Programs in C over the static library, and what bench/timers.c measures."""
import os
import pathlib
import shutil
import subprocess
import sys

TOP = pathlib.Path(__file__).resolve().parent.parent
ARCHIVE = TOP / "crates/ert_c/out/libert_c.a"
TIMERS = TOP / "bench/timers.c"
FLAGS = "-std=c11 -O2 -Wall -Wextra -Wpedantic -Wshadow -Wconversion -Werror".split()
# The status of a program for a service that the library can't have.
TOO_LARGE = 3
# The operations of bench/timers.c by calls that an older library may not have.
NEEDS = {"restart": "ert_world_restart"}
# How many calls a pass of bench/timers.c makes where they aren't as many as the timers.
CALLS = {"monotonic_time": 1_000_000, "start_cancel": 100_000, "restart": 100_000, "idle_turn": 100_000, "next_due": 100_000}


def compiler():
    return os.environ.get("CC", "cc")


def heap():
    """The archive of the toolchain by which the library calls malloc; it lies beside rt. None without rt."""
    rt = shutil.which("rt")
    return rt and pathlib.Path(rt).resolve().parent.parent / "c/liblibc_c.a"


def must_exist(archive):
    if not heap():
        sys.exit("rt isn't in the path")
    if not archive.is_file():
        sys.exit(f"{archive} is missing: `.ci/build_archive` makes it")


def lacking(archive):
    """The operations that an archive has no call for."""
    told = subprocess.run(["nm", "-g", "--defined-only", archive], check=True, stdout=subprocess.PIPE, stderr=subprocess.DEVNULL, text=True)
    names = {line.split()[-1] for line in told.stdout.splitlines() if line}
    return {operation for operation, call in NEEDS.items() if call not in names}


def build_timers(archive, program):
    """Builds bench/timers.c over an archive, without the operations that this has no call for, and returns those."""
    lacks = lacking(archive)
    without = [f"-DLACKS_{it.upper()}" for it in lacks]
    words = [compiler(), *FLAGS, *without, f"-I{TOP}/include", TIMERS, archive, heap(), "-o", program]
    subprocess.run(words, check=True)
    return lacks


def passes(timers):
    """How many passes take a second at most, or two of a million timers, with the starts before them."""
    return 60 if timers < 100_000 else 15 if timers < 250_000 else 6 if timers < 1_000_000 else 2


def least(program, operation, timers, count=None):
    """The least nanoseconds of an operation, or its bytes, of so many passes; None if the library can't do it."""
    words = [operation, timers, CALLS.get(operation, 0), count or passes(timers)]
    done = subprocess.run([program, *map(str, words)], capture_output=True, text=True)
    if done.returncode == TOO_LARGE:
        return None
    if done.returncode != 0:
        sys.exit(f"{operation} {timers}: status {done.returncode}\n{done.stderr}".rstrip())
    return float(done.stdout.split()[0 if operation == "bytes" else 1])
