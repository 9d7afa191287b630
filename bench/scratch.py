"""Programs of `bench/programs` in scratch copies of the repository: what the scripts beside this file share."""

import os
import shutil
import subprocess
import tempfile

from measure import TOP


def crates_below(used):
    """Returns the lines of crates.txt of these crates and of all below them, by name."""
    with open(f"{TOP}/crates.txt", encoding="ascii") as file:
        lines = {line.split(":")[0]: line for line in file if line.startswith("iris")}
    found, left = {}, list(used)
    while left:
        name = left.pop()
        if name not in found:
            found[name] = lines[name]
            left += [it for it in lines[name].split(":")[1].split() if it in lines]
    return {name: line for name, line in lines.items() if name in found}


def put(text, folder):
    """Puts a text, or all texts of a folder, into the folder of a crate's source files."""
    os.makedirs(folder)
    if not os.path.isdir(text):
        shutil.copy(text, f"{folder}/main.rt")
        return
    for name in os.listdir(text):
        shutil.copy(f"{text}/{name}", f"{folder}/{name.removesuffix('.rattle')}.rt")


def run(text, used, more, command):
    """Runs a command in the crate of `bench/programs/TEXT`, over these crates of the repository and more of the kit.

    The crate stands in a scratch repository, with copies of the crates below it. Returns how the command ended,
    with what it wrote.
    """
    name = text.removesuffix(".rattle")
    with tempfile.TemporaryDirectory(prefix="bench-") as top:
        shutil.copy(f"{TOP}/HANDLES", top)
        parts = shutil.ignore_patterns("out", "must-fail", "wrong")
        crates = crates_below(used)
        for crate in crates:
            shutil.copytree(f"{TOP}/crates/{crate}", f"{top}/crates/{crate}", ignore=parts)
        put(f"{TOP}/bench/programs/{text}", f"{top}/crates/{name}/src")
        with open(f"{top}/crates.txt", "w", encoding="ascii") as file:
            file.writelines(crates.values())
            file.write(f"{name}: {' '.join([*used, *more])}\n")
        return subprocess.run(command, cwd=f"{top}/crates/{name}", capture_output=True, text=True)
