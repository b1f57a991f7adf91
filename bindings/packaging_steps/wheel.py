"""The wheel for Python. It has the library inside, so it runs without a compiler and without any other package."""

import base64
import hashlib
import os

from .files import copy, copy_tree, read, read_octets, walk, write
from .release import BINDINGS, copy_terms

# The oldest glibc that the tag stands for is 2.17; the library needs 2.14 (memcpy). The library is no extension module, so one
# wheel is for each version of Python.
TAG = "py3-none-manylinux_2_17_x86_64"


def make(release, built):
    folder = release.folder("wheel")
    copy_tree(f"{BINDINGS}/python/dnsm", f"{folder}/dnsm")
    release.set_version(f"{folder}/dnsm/__init__.py")
    copy(built.shared, f"{folder}/dnsm/libdnsm.so.{release.major}", 0o755)
    about = f"{folder}/dnsm-{release.version}.dist-info"
    copy_terms(about)
    write(f"{about}/METADATA", release.filled("python/METADATA.in") + read(f"{BINDINGS}/python/README.md"))
    write(f"{about}/WHEEL", f"Wheel-Version: 1.0\nGenerator: dnsm\nRoot-Is-Purelib: false\nTag: {TAG}\n")
    write(f"{about}/RECORD", record(folder, os.path.basename(about)))
    release.zip(folder, f"{release.dist}/dnsm-{release.version}-{TAG}.whl")


def record(folder, about):
    """A line for each file, with its hash; the file itself has none."""
    lines = []
    for name in walk(folder):
        if os.path.isfile(f"{folder}/{name}"):
            octets = read_octets(f"{folder}/{name}")
            digest = base64.urlsafe_b64encode(hashlib.sha256(octets).digest()).rstrip(b"=").decode()
            lines.append(f"{name},sha256={digest},{len(octets)}\n")
    return "".join([*lines, f"{about}/RECORD,,\n"])
