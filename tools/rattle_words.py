#!/usr/bin/env python3
"""The words of rattle for a crate, over the libraries that rt has left in crates/*/out.

usage: tools/rattle_words.py --static CRATE     proves a static library, and builds it as crates/CRATE/out/libCRATE.a

rt ci proves all libraries, and does not keep its work for other commands of rt, which would prove them again.
"""
import functools
import os
import subprocess
import sys

TOP = os.path.dirname(os.path.dirname(os.path.abspath(__file__)))


def run(words, folder):
    """Runs a command in a folder, and returns all that it printed."""
    streams = {"stdin": subprocess.DEVNULL, "stdout": subprocess.PIPE, "stderr": subprocess.STDOUT}
    return subprocess.run(words, cwd=folder, text=True, errors="replace", check=False, **streams).stdout


@functools.cache
def kit():
    """The folder of the kit."""
    return os.path.dirname(run(["rt", "doc"], TOP).strip().splitlines()[-1])


def listed_crates(top):
    """By crate, what crates.txt lists for it, where each crate comes after those that it depends on."""
    with open(f"{top}/crates.txt", encoding="utf-8") as file:
        lines = [it.partition("#")[0].replace(":", " : ").split() for it in file]
    return {it[0]: [word for word in it[1:] if word != ":"] for it in lines if ":" in it}


def all_below(listed, name):
    own = [it for it in listed[name] if it in listed]
    return own + [it for one in own for it in all_below(listed, one)]


def rattle_words(verb, top, name):
    listed = listed_crates(top)
    is_static, is_program = "staticlib" in listed[name], os.path.exists(f"{top}/crates/{name}/src/main.rt")
    own = [it for it in listed[name] if it in listed]
    others = ["std", *(it for it in listed[name] if it not in listed and it not in ("staticlib", "std"))]
    places = {it: f"{top}/crates/{it}/out/rlib" for it in dict.fromkeys(all_below(listed, name))}
    words = [f"{kit()}/bin/rattle", verb, "--crate-name", name, "src/main.rt" if is_program else "src/lib.rt"]
    words += [f"--extern={it}={kit()}/rlibs/{it}.rlib" for it in others]
    words += [f"--extern={it}={places[it]}/{it}.rlib" for it in own]
    words += [f"-Ldependency={it}" for it in [f"{kit()}/rlibs", *places.values()]]
    words += ["--antt-project", f"{kit()}/rattle/logic/antt-project.json", "--logic-built", f"{kit()}/logic_built"]
    words += ["--links", f"{name}="]
    return words + (["--crate-type", "staticlib"] if is_static else [])


def build_static(name):
    """Proves and builds a static library, and returns the status."""
    folder = f"{TOP}/crates/{name}"
    os.makedirs(f"{folder}/out", exist_ok=True)
    words = [*rattle_words("build", TOP, name), "--jobs", "2", "--toolchain", f"{kit()}/toolchain", "--backend", "llvm"]
    return subprocess.run([*words, "-o", f"out/lib{name}.a"], cwd=folder, check=False).returncode


if __name__ == "__main__":
    if sys.argv[1:2] != ["--static"] or len(sys.argv) != 3:
        sys.exit(__doc__.strip())
    sys.exit(build_static(sys.argv[2]))
