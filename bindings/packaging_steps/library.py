"""The static and the shared library. Each package contains one of them, or both."""

import collections
import os
import re

from .files import Problem, copy, read, run
from .release import BINDINGS, HEADER

Built = collections.namedtuple("Built", "static shared")
MAP = f"{BINDINGS}/c/dnsm.map"
# The processors that the archive is built for. The linker notes this in each program, and the C library refuses to start one on
# an older processor ("CPU ISA level is lower than required"), where it would end in an illegal instruction.
CPU = "x86-64-v2"
HARDENED = ["-z", "defs", "-z", "relro", "-z", "now", "-z", "noexecstack", "-z", "separate-code"]


def build(release):
    """Makes both libraries of the two archives."""
    folder = release.folder("library")
    check_names()
    whole = f"{folder}/dnsm.o"
    # One object, in which only the names of dnsm.h are global.
    run("ld", "-r", "-z", CPU, "-o", whole, "--whole-archive", release.archive, release.runtime)
    run("objcopy", "--wildcard", "--keep-global-symbol=dnsm_*", "--remove-section=.comment", whole)
    static = f"{folder}/libdnsm.a"
    run("ar", "rcsD", static, whole)
    shared = f"{folder}/libdnsm.so.{release.version}"
    linker = ["-soname", f"libdnsm.so.{release.major}", "--version-script", MAP, "--build-id=sha1", "--hash-style=gnu"]
    linker += ["-z", CPU, *HARDENED]
    # The library has no constructors, so it needs none of the compiler's own start files.
    run(os.environ.get("CC", "cc"), "-shared", "-nostartfiles", "-Wl," + ",".join(linker), "-o", shared, whole)
    run("strip", "-D", "--strip-unneeded", shared)
    check_exports(shared)
    return Built(static, shared)


def calls():
    """The names that dnsm.h declares as functions."""
    return set(re.findall(r"^(?:dnsm_status|uint32_t) (dnsm_\w+)\(", read(HEADER), re.M))


def check_names():
    mapped = set(re.findall(r"^ +(dnsm_\w+);", read(MAP), re.M))
    if mapped != calls():
        raise Problem(f"c/dnsm.map and dnsm.h differ in {', '.join(sorted(mapped ^ calls()))}")


def check_exports(shared):
    exported = set(re.findall(r" T (dnsm_\w+)@@DNSM_", run("nm", "-D", "--defined-only", shared)))
    if exported != calls():
        raise Problem(f"the library and dnsm.h differ in {', '.join(sorted(exported ^ calls()))}")


def symbols(shared):
    """The names of the library with their versions, as (`dnsm_open`, `1.0`)."""
    return sorted(re.findall(r" T (dnsm_\w+)@@DNSM_([\d.]+)", run("nm", "-D", "--defined-only", shared)))


def install(release, built, include, libraries, development=True):
    """Copies the header and the libraries as they are installed, with the links between them."""
    major, whole = f"libdnsm.so.{release.major}", f"libdnsm.so.{release.version}"
    copy(built.shared, f"{libraries}/{whole}")
    os.symlink(whole, f"{libraries}/{major}")
    if development:
        os.symlink(major, f"{libraries}/libdnsm.so")
        copy(built.static, f"{libraries}/libdnsm.a")
        copy(HEADER, f"{include}/dnsm.h")
