"""The crates whose code is in a static library, and the toolchain that builds it."""

import functools
import os
import subprocess

from .files import Problem, read, walk

TOP = os.path.dirname(os.path.dirname(os.path.dirname(os.path.abspath(__file__))))


@functools.cache
def uses():
    """The libraries that each crate uses, by crates.txt."""
    found = {}
    for line in read(f"{TOP}/crates.txt").splitlines():
        crate, _, below = line.partition("#")[0].partition(":")
        if crate.strip():
            found[crate.split()[0]] = below.split()
    return found


def below(crate):
    """The crates of this repository whose code a crate has, each after those that it uses."""
    found = []
    for used in uses()[crate]:
        if used in uses():
            found += [it for it in [*below(used), used] if it not in found]
    return found


@functools.cache
def changed(crate):
    """When a source of a crate last changed."""
    folders = [f"{TOP}/crates/{crate}/{part}" for part in ("src", "specs", "proofs")]
    return max(os.path.getmtime(f"{folder}/{name}") for folder in folders for name in [".", *walk(folder)] if os.path.isdir(folder))


def toolchain():
    """The folder of the toolchain that is on the path."""
    try:
        page = subprocess.run(["rt", "doc"], stdout=subprocess.PIPE, text=True, check=True).stdout.strip()
    except (OSError, subprocess.CalledProcessError):
        raise Problem("there is no toolchain on the path") from None
    return os.path.dirname(page)
