"""Builds the static library of the crate `weirbowl` over the libraries that the gate or `rt lib` left in crates/NAME/out/rlib.

For tests/embedding.py and tools/build/wasm.py. Standard library alone.
"""
import os
import subprocess

import build

TOP, CRATE = build.TOP, "weirbowl"
FOLDER = f"{TOP}/crates/{CRATE}"


def kit():
    """Returns the folder of the toolchain."""
    return os.path.dirname(subprocess.run(["rt", "doc"], capture_output=True, text=True, check=True).stdout.strip())


def libraries():
    """Returns the proved library of each crate below, by name, where the gate leaves it."""
    below = build.crates_below(build.Program(CRATE))
    return {it: f"{TOP}/crates/{it}/out/rlib/{it}.rlib" for it in below if it != CRATE}


def missing():
    """Returns the crates below whose library is not there."""
    return [name for name, path in libraries().items() if not os.path.exists(path)]


def build_archive(to, toolchain, *more):
    """Proves the crate over these libraries and builds its archive, as `rt` does. Returns what failed, or ""."""
    rlib, place = libraries(), kit()
    words = [f"{place}/bin/rattle", "build", "--crate-name", CRATE, "src/lib.rt", "-L", f"dependency={place}/rlibs"]
    for it in ("std", *build.lines_of(build.Program(CRATE))[CRATE][1]):
        words += ["--extern", f"{it}={rlib.get(it, f'{place}/rlibs/{it}.rlib')}"]
    for path in rlib.values():
        words += ["-L", f"dependency={os.path.dirname(path)}"]
    words += ["--antt-project", f"{place}/rattle/logic/antt-project.json", "--logic-built", f"{place}/logic_built"]
    words += ["--jobs", "2", "--links", f"{CRATE}=", "--crate-type", "staticlib", "--toolchain", toolchain, "-o", to, *more]
    os.makedirs(os.path.dirname(to), exist_ok=True)
    done = subprocess.run(words, cwd=FOLDER, capture_output=True, text=True, errors="replace", check=False)
    said = done.stdout + done.stderr
    return "" if done.returncode == 0 and "logic=proved" in said else said[-3000:] or "nothing was printed"
