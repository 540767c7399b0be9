"""The command line of the checker for a crate, over the libraries that `rt ci` has left in the out/ of each crate."""
import pathlib
import shutil

TOP = pathlib.Path(__file__).resolve().parent.parent
KIT = pathlib.Path(shutil.which("rt")).resolve().parent.parent


def uses():
    """The libraries that each crate of the repository names."""
    found = {}
    for line in (TOP / "crates.txt").read_text().splitlines():
        head, _, names = line.split("#")[0].partition(":")
        if head.split():
            found[head.split()[0]] = names.split()
    return found


def below(name, found, seen):
    """The repository's crates below one, each once."""
    for it in found[name]:
        if it in found and it not in seen:
            seen.append(it)
            below(it, found, seen)
    return seen


def built(name):
    """The library of a crate as it was proved."""
    return TOP / f"crates/{name}/out/rlib/{name}.rlib"


def command(verb, name, kept):
    """The checker on a crate in its folder; it keeps what it has checked in the folder `kept`."""
    found = uses()
    root = "src/main.rt" if (TOP / f"crates/{name}/src/main.rt").is_file() else "src/lib.rt"
    words = [str(KIT / "bin/rattle"), verb, "--crate-name", name, root]
    words += ["--extern", f"std={KIT}/rlibs/std.rlib", "-L", f"dependency={KIT}/rlibs"]
    for it in found[name]:
        place = built(it) if it in found else KIT / f"rlibs/{it}.rlib"
        words += ["--extern", f"{it}={place}"]
    for it in below(name, found, []):
        words += ["-L", f"dependency={built(it).parent}"]
    words += ["--antt-project", f"{KIT}/rattle/logic/antt-project.json", "--logic-built", f"{KIT}/logic_built"]
    return [*words, "--incremental", str(kept)]
