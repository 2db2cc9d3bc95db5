"""What the commands of the test bench share: where programs stand, how they are built and how they are run."""
import os
import pathlib
import shutil
import subprocess
import sys

ROOT = pathlib.Path(__file__).resolve().parent.parent
HOST = ROOT / "host"
RECORDED = ROOT / "traces" / "recorded"


def cargo_build(*arguments, folder=HOST, **environment):
    """Builds in a cargo workspace, offline; ends the command where that fails."""
    if not shutil.which("cargo"):
        sys.exit("cargo isn't here: the host's programs can't be built")
    command = ["cargo", "build", "--offline", "--quiet", *arguments]
    everything = {**os.environ, **environment}
    if "STUN_PROTO_SRC" in everything:  # as the caller means it, not as seen from a package's folder
        everything["STUN_PROTO_SRC"] = os.path.abspath(everything["STUN_PROTO_SRC"])
    if subprocess.run(command, cwd=folder, env=everything).returncode:
        sys.exit(f"{' '.join(command)} failed")


def host_program(name, *arguments):
    """The path of one of the host's programs, built afresh where something changed."""
    cargo_build("--release", "--package", name, *arguments)
    return HOST / "target" / "release" / name


def port_library():
    """Proves and builds the port's static library, unless it is younger than every file and folder in the crates."""
    library = ROOT / "target" / "staticlib" / "libreplay.a"
    # A crate's own folder changes with each check, and so does out/ in it.
    inside = [it for crate in (ROOT / "crates").iterdir() if crate.is_dir() for it in crate.iterdir() if it.name != "out"]
    sources = [ROOT / "crates.txt", *inside, *(file for it in inside if it.is_dir() for file in it.rglob("*"))]
    if library.is_file() and all(source.stat().st_mtime < library.stat().st_mtime for source in sources):
        return
    if not shutil.which("rt"):
        sys.exit("the Rattle kit's rt isn't here: the port can't be built")
    done = subprocess.run(["tools/build", "library"], cwd=ROOT, stdout=subprocess.PIPE, stderr=subprocess.STDOUT, text=True)
    if done.returncode:
        sys.exit(f"{done.stdout[-2000:]}\ntools/build library failed")


def output_of(words, trace, seconds=60):
    """The bytes that a program prints, which takes a trace on standard input; None where it fails or takes too long."""
    try:
        done = subprocess.run(words, input=trace, stdout=subprocess.PIPE, timeout=seconds)
    except subprocess.TimeoutExpired:
        return None
    except OSError as error:
        sys.exit(f"{words[0]} can't be started: {error.strerror}")
    return done.stdout if done.returncode == 0 else None


def run_program(words, trace, seconds=60):
    """The lines of a program that takes a trace on standard input; None where it fails or takes too long."""
    lines = output_of(words, trace, seconds)
    return None if lines is None else lines.decode(errors="replace")


def replayed(file):
    """The lines of the replay program on a file with a trace; None where it fails. Ends the command without the program."""
    program = ROOT / "purlanchor"
    if not program.is_file():
        sys.exit("./purlanchor isn't here: name another program or file with the answers")
    return run_program([program, file], b"", seconds=600)  # it may have to be built first
