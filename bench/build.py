"""Builds a small program over crates of this repository, in a folder of its own."""
import os
import shutil
import subprocess

HERE = os.path.dirname(os.path.abspath(__file__))
TOP = os.path.join(HERE, "..")


def built(folder, name, libraries, stands_on, sample):
    """The program of the source NAME.rt.txt, proved and built over copies of the libraries; `sample` is an input that it takes."""
    with open(os.path.join(TOP, "crates.txt")) as listed:
        lines = [line for line in listed if line.split(":")[0] in libraries]
    with open(os.path.join(folder, "crates.txt"), "w") as out:
        out.writelines(lines + [f"{name}_bench: {stands_on}\n"])
    for library in libraries:
        shutil.copytree(os.path.join(TOP, "crates", library), os.path.join(folder, "crates", library))
    where = os.path.join(folder, "crates", f"{name}_bench")
    os.makedirs(os.path.join(where, "src"))
    shutil.copy(os.path.join(HERE, f"{name}.rt.txt"), os.path.join(where, "src", "main.rt"))
    subprocess.run(["git", "init", "-q", folder], check=True)
    subprocess.run(["rt", "run"], cwd=where, check=True, input=sample, stdout=subprocess.DEVNULL)
    return os.path.join(where, "out", f"{name}_bench")
