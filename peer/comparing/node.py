"""A live node: what it needs, how it is built, and a scenario run on it."""
import os
import pathlib
import shutil
import subprocess
import sys
import tempfile

HERE = pathlib.Path(__file__).resolve().parent.parent
MODULES = ("ertime_peer_clock", "ertime_peer_process", "ertime_peer_ops", "ertime_peer", "ertime_peer_boot")
MODES = {"no": "no_time_warp", "single": "single_time_warp", "multi": "multi_time_warp"}
# OS monotonic time of the node for 0 of the scenario.
OS_START = 1_000_000_000_000


class Missing(Exception):
    """Something that has to be installed isn't."""


class NodeFault(Exception):
    """The node didn't come to its end."""


class Atom(str):
    """A word that Erlang gets as an atom."""


def encoded(term):
    """A term in the external term format of Erlang, without the byte of its version."""
    if isinstance(term, bool):
        return encoded(Atom("true" if term else "false"))
    if isinstance(term, Atom):
        name = term.encode()
        return bytes([119, len(name)]) + name
    if isinstance(term, int):
        digits = abs(term)
        size = (digits.bit_length() + 7) // 8
        return bytes([110, size, term < 0]) + digits.to_bytes(size, "little")
    if isinstance(term, tuple):
        return b"i" + len(term).to_bytes(4, "big") + b"".join(map(encoded, term))
    return b"l" + len(term).to_bytes(4, "big") + b"".join(map(encoded, term)) + b"j"


def of_op(op):
    """An op of a scenario as a tuple: its words are atoms."""
    return tuple(Atom(part) if isinstance(part, str) else part for part in op)


class Build:
    """The shared object, the modules and the boot file, in a folder that is removed by whoever made it."""

    def __init__(self, folder):
        self.folder = pathlib.Path(folder)
        if not sys.platform.startswith("linux"):
            raise Missing("Linux, with a C library that is loaded dynamically")
        self.erl = _program("erl", "Erlang/OTP (Debian: erlang-base)")
        root = subprocess.run(
            [self.erl, "-noinput", "-boot", "start_clean", "-eval", "io:put_chars(code:root_dir()), halt()."],
            capture_output=True, text=True, check=True).stdout
        include = pathlib.Path(root) / "usr/include"
        if not (include / "erl_nif.h").exists():
            raise Missing("erl_nif.h (Debian: erlang-dev)")
        self._compile_object(include)
        self._compile_modules()

    def _compile_object(self, include):
        compiler = os.environ.get("CC") or _program("cc", "a C compiler")
        # Undefined behaviour ends the node. The other sanitizers can't be preloaded into it: peer/tests has them.
        subprocess.run(
            [compiler, "-std=c11", "-Wall", "-Wextra", "-Werror", "-O2", "-fPIC", "-shared", "-fvisibility=hidden",
             "-fsanitize=undefined", "-fsanitize-undefined-trap-on-error", f"-I{include}",
             str(HERE / "ertime_peer_clock.c"), "-o", str(self.folder / "ertime_peer_clock.so")], check=True)

    def _compile_modules(self):
        erlc = _program("erlc", "erlc (Debian: erlang-base)")
        sources = [str(HERE / f"{module}.erl") for module in MODULES]
        subprocess.run([erlc, "-Werror", "+warn_missing_spec", "-o", str(self.folder), *sources], check=True)
        subprocess.run([self.erl, "-noinput", "-boot", "start_clean", "-pa", str(self.folder), "-run",
                        "ertime_peer_boot", "main", "-extra", str(self.folder)], check=True)

    def run(self, settings, ops):
        """The rows of the driver: mark, op and line."""
        with tempfile.TemporaryDirectory(dir=self.folder) as folder:
            return self._run(settings, ops, pathlib.Path(folder))

    def _run(self, settings, ops, folder):
        given, told = folder / "given", folder / "told"
        waits = settings["correction"] and settings["mode"] == "multi"
        term = (settings["start"], tuple(settings["first"]), settings["processes"], OS_START, waits,
                [of_op(op) for op in ops])
        given.write_bytes(b"\x83" + encoded(term))
        monotonic, system = settings["first"]
        shared = self.folder / "ertime_peer_clock"
        words = [self.erl, "+S", "1", "+SDcpu", "1", "+SDio", "1", "+A", "1",
                 "+c", "true" if settings["correction"] else "false", "+C", MODES[settings["mode"]],
                 "-noinput", "-boot", str(self.folder / "ertime_peer"), "-extra", str(given), str(told), str(shared)]
        environment = {name: value for name, value in os.environ.items() if not name.startswith("ERL_")}
        environment.update(ERTIME_PEER_CLOCK=f"{OS_START + monotonic} {system}", LD_PRELOAD=f"{shared}.so",
                           ERL_CRASH_DUMP_BYTES="0")
        try:
            ended = subprocess.run(words, env=environment, cwd=folder, capture_output=True, text=True, timeout=300)
        except subprocess.TimeoutExpired as late:
            raise NodeFault("the node didn't end within 300 s") from late
        if ended.returncode != 0 or not told.exists():
            raise NodeFault(f"the node ended with {ended.returncode}: {(ended.stdout + ended.stderr).strip()[:2000]}")
        return [_row(line) for line in told.read_text().splitlines()]


def _row(text):
    op, line = text.split("\t")
    return op[0], op[2:], line


def _program(name, what):
    found = shutil.which(name)
    if found is None:
        raise Missing(what)
    return found
