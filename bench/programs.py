"""Compiles programs of the bench over this library or others, and counts their instructions."""

import glob
import os
import subprocess
import sys
import tempfile

import page

BENCH = os.path.dirname(os.path.abspath(__file__))
TOP = os.path.dirname(BENCH)

# With this a program writes instructions in place of times (counter.h).
COUNTING = "-DCOUNT_INSTRUCTIONS"

# The programs of tasks/: the library, the file of its tasks, and the packages of pkg-config, or a crate of this library.
TASKS = [
    ("dnsm", "dnsm.c", ["crate dnsm"]),
    ("dnsm", "dnsm_parts.c", ["crate dnsm"]),
    ("Rattle", "ours.c", ["crate bench"]),
    ("Rattle", "ours_responses.c", ["crate bench_tasks"]),
    ("libknot", "knot.c", ["libknot"]),
    ("libknot", "knot_parts.c", ["libknot", "libzscanner"]),
    ("ldns", "ldns.c", ["ldns"]),
    ("ldns", "ldns_parts.c", ["ldns"]),
    ("c-ares", "cares.c", ["libcares"]),
]
OURS = ("dnsm", "Rattle")


def is_built(crate):
    """Whether a crate's static library is there, and newer than its sources and the libraries below it."""
    return subprocess.run([f"{TOP}/bindings/c/library", "--built", crate]).returncode == 0


def flags_for(package):
    """What a program is compiled and linked with for a package of pkg-config, or for a crate of this library, as `crate dnsm`. None if
    the package isn't installed."""
    if package.startswith("crate "):
        crate = package.split()[1]
        subprocess.run([f"{TOP}/bindings/c/library", crate], stdout=sys.stderr, check=True)
        kit = os.path.dirname(page.said("rt", "doc"))
        return [f"-I{TOP}/bindings/c", f"{TOP}/crates/{crate}/out/lib{crate}.a", f"{kit}/c/liblibc_c.a"]
    found = subprocess.run(["pkg-config", "--cflags", "--libs", package], stdout=subprocess.PIPE, text=True)
    return found.stdout.split() if found.returncode == 0 else None


def compile_program(program, sources, flags):
    """Compiles a program of these files, given below bench/."""
    compiler = [os.environ.get("CC", "cc"), "-std=gnu11", "-O2", "-Wall", "-Wextra"]
    subprocess.run([*compiler, *(f"{BENCH}/{it}" for it in sources), *flags, "-o", program], check=True)


def compile_tasks(room, *more, crates=None):
    """The library and the path of each program of tasks/ whose packages are installed, of these crates of this library or of all."""
    for library, source, packages in TASKS:
        if crates is not None and packages[0] not in [f"crate {it}" for it in crates]:
            continue
        flags = [flags_for(it) for it in packages]
        if None in flags:
            print(f"{source} isn't timed: no {' or no '.join(packages)}", file=sys.stderr)
            continue
        program = f"{room}/{source[:-2]}{''.join(more)}"
        compile_program(program, ["tasks/tasks.c", f"tasks/{source}"], [*sum(flags, []), *more])
        yield library, program


def compile_growing(room, *more, crates=("bench", "bench_tasks")):
    """The path of each program of growing/, over these crates."""
    for source, crate in (("messages.c", "bench"), ("texts.c", "bench_tasks")):
        if crate not in crates:
            continue
        program = f"{room}/growing_{source[:-2]}{''.join(more)}"
        sources = ["tasks/tasks.c", "growing/growing.c", f"growing/{source}"]
        compile_program(program, sources, [*flags_for(f"crate {crate}"), *more])
        yield program


def row_of(path):
    """The name of a row in a file that callgrind wrote, and its instructions. The last file has no name."""
    name, instructions = "", 0
    with open(path, encoding="utf-8", errors="replace") as it:
        for line in it:
            if line.startswith("desc: Trigger: Client Request: "):
                name = line.split("Request: ", 1)[1].strip()
            if line.startswith(("summary:", "totals:")):
                instructions = int(line.split()[1])
    return name, instructions


def instructions(words, variables=None):
    """The instructions for doing each work once, by library, work and way: the difference of those for more and for fewer times, which
    excludes what is prepared. `words` starts a program that was compiled with COUNT_INSTRUCTIONS (counter.h)."""
    counts = {}
    with tempfile.TemporaryDirectory() as room:
        counter = ["valgrind", "--tool=callgrind", f"--callgrind-out-file={room}/row"]
        ran = subprocess.run([*counter, *words], env={**os.environ, **(variables or {})}, capture_output=True, text=True)
        if ran.returncode:
            raise SystemExit(f"{' '.join(words)} failed in valgrind: {ran.stderr}")
        for path in sorted(glob.glob(f"{room}/row.*"), key=lambda it: int(it.rsplit(".", 1)[1])):
            name, counted = row_of(path)
            if name:
                *key, times = name.split("|")
                counts.setdefault(tuple(key), []).append((int(times), counted))
    return {key: (max(it)[1] - min(it)[1]) // (max(it)[0] - min(it)[0]) for key, it in counts.items()}
