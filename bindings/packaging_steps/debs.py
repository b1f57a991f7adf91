"""The packages for Debian: libdnsm2 with the shared library, and libdnsm-dev with all else."""

import gzip
import hashlib
import os
import re

from . import library
from .files import copy_tree, is_program, read, read_octets, run, walk, write
from .release import BINDINGS, LICENSE, NOTICES, TOP

TRIPLET = "x86_64-linux-gnu"
ARCHITECTURE = "amd64"


def make(release, built):
    runtime, development = f"libdnsm{release.major}", "libdnsm-dev"
    make_runtime(release, built, runtime)
    make_development(release, built, development)


def make_runtime(release, built, package):
    folder = release.folder(package)
    library.install(release, built, None, f"{folder}/usr/lib/{TRIPLET}", development=False)
    symbols = library.symbols(built.shared)
    versions = sorted({version for _, version in symbols}, key=numbers)
    listed = [f"libdnsm.so.{release.major} {package} #MINVER#"]
    listed += [f" DNSM_{version}@DNSM_{version} {version}" for version in versions]
    listed += [f" {name}@DNSM_{version} {version}" for name, version in symbols]
    write(f"{folder}/DEBIAN/symbols", "\n".join(listed) + "\n")
    write(f"{folder}/DEBIAN/shlibs", f"libdnsm {release.major} {package} (>= {versions[-1]})\n")
    write(f"{folder}/DEBIAN/triggers", "activate-noawait ldconfig\n")
    finish(release, folder, package, "debian/libdnsm.control.in", DEPENDS=depends(release, built))


def numbers(version):
    return [int(number) for number in version.split(".")]


def make_development(release, built, package):
    folder = release.folder(package)
    libraries = f"{folder}/usr/lib/{TRIPLET}"
    library.install(release, built, f"{folder}/usr/include", libraries)
    # The other package has these two.
    for name in (f"libdnsm.so.{release.version}", f"libdnsm.so.{release.major}"):
        os.remove(f"{libraries}/{name}")
    pc = release.filled("c/dnsm.pc.in", PREFIX="/usr", LIBRARIES=f"lib/{TRIPLET}")
    write(f"{libraries}/pkgconfig/dnsm.pc", pc)
    copy_tree(f"{BINDINGS}/c/examples", f"{folder}/usr/share/doc/{package}/examples")
    finish(release, folder, package, "debian/libdnsm-dev.control.in")


def depends(release, built):
    """The version of the C library that the shared library needs, as dpkg-shlibdeps finds it."""
    folder = release.folder("shlibdeps")
    write(f"{folder}/debian/control", "Source: dnsm\n\nPackage: libdnsm\nArchitecture: any\n")
    write(f"{folder}/debian/libdnsm/DEBIAN/control", "")
    library.install(release, built, None, f"{folder}/debian/libdnsm/usr/lib/{TRIPLET}", development=False)
    said = run("dpkg-shlibdeps", "-O", f"debian/libdnsm/usr/lib/{TRIPLET}/libdnsm.so.{release.version}", cwd=folder)
    return re.search(r"^shlibs:Depends=(.+)$", said, re.M).group(1)


def finish(release, folder, package, control, **names):
    """Adds the files that each package has, and packs it."""
    documents = f"{folder}/usr/share/doc/{package}"
    write(f"{documents}/copyright", copyright_text(release))
    date = release.date("%a, %d %b %Y %H:%M:%S +0000")
    write_packed(f"{documents}/changelog.gz", read(f"{TOP}/CHANGELOG.md"))
    write_packed(f"{documents}/changelog.Debian.gz", release.filled("c/debian/changelog.in", DATE=date))
    set_modes_and_times(release, folder)
    installed = [name for name in walk(folder) if not name.startswith("DEBIAN")]
    regular = [it for it in installed if os.path.isfile(f"{folder}/{it}") and not os.path.islink(f"{folder}/{it}")]
    # In KiB. A folder or a link counts as one.
    size = sum(-(-os.path.getsize(f"{folder}/{name}") // 1024) for name in regular) + len(installed) - len(regular)
    sums = "".join(f"{md5(f'{folder}/{name}')}  {name}\n" for name in regular)
    write(f"{folder}/DEBIAN/md5sums", sums)
    write(f"{folder}/DEBIAN/control", release.filled(f"c/{control}", SIZE=str(size), **names))
    file = f"{package}_{release.version}_{ARCHITECTURE}.deb"
    run("dpkg-deb", "--root-owner-group", "-Zxz", "--build", folder, f"{release.dist}/{file}")


def set_modes_and_times(release, folder):
    """Makes what is packed independent of the settings and the time of this run."""
    for name in [".", *walk(folder)]:
        path = f"{folder}/{name}"
        if not os.path.islink(path):
            os.chmod(path, 0o755 if is_program(path) else 0o644)
        os.utime(path, (release.epoch, release.epoch), follow_symlinks=False)


def copyright_text(release):
    """The licences in the form that Debian reads."""
    licence, notices = read(LICENSE), read(NOTICES)
    holders = re.findall(r"\bCopyright \(c\) (.*)$", licence + notices, re.M)
    return release.filled(
        "c/debian/copyright.in",
        HOLDERS="\n           ".join(holders),
        TERMS=indented(licence[licence.index("Redistribution and use") :]),
        NOTICES=indented(notices[notices.index("Permission is hereby") :]),
    )


def indented(text):
    """A text as part of a field: a blank line is a line with a dot."""
    return "\n".join(f" {line}" if line else " ." for line in text.rstrip("\n").split("\n"))


def write_packed(path, text):
    with open(path, "wb") as file, gzip.GzipFile("", "wb", 9, file, 0) as packed:
        packed.write(text.encode())


def md5(path):
    return hashlib.md5(read_octets(path)).hexdigest()
