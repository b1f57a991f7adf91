"""The archive for any Linux distribution, which works wherever it is unpacked."""

from . import library
from .files import copy, copy_tree, write
from .release import BINDINGS, copy_terms


def make(release, built):
    name = f"dnsm-{release.version}-linux-x86_64"
    folder = release.folder("tarball")
    library.install(release, built, f"{folder}/include", f"{folder}/lib")
    write(f"{folder}/lib/pkgconfig/dnsm.pc", release.filled("c/dnsm.pc.in", PREFIX="${pcfiledir}/../..", LIBRARIES="lib"))
    copy(f"{BINDINGS}/c/install", f"{folder}/install", 0o755)
    write(f"{folder}/README.md", release.filled("c/README.md.in"))
    copy_terms(folder)
    copy_tree(f"{BINDINGS}/c/examples", f"{folder}/examples")
    for file in ("messages.txt", "queries.txt"):
        copy(f"{BINDINGS}/tests/{file}", f"{folder}/examples/{file}")
    release.tar(folder, f"{release.dist}/{name}.tar.gz", name)
