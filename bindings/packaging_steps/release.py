"""What all steps share: the version, the time stamp, the two archives, and folders packed so that only their contents matter."""

import gzip
import os
import re
import shutil
import subprocess
import tarfile
import tempfile
import zipfile
from datetime import datetime, timezone

from .files import Problem, copy, is_program, read, read_octets, sha256, walk, write
from .sources import TOP, below, changed, toolchain

BINDINGS = f"{TOP}/bindings"
HEADER = f"{BINDINGS}/c/dnsm.h"
LICENSE = f"{TOP}/LICENSE"
NOTICES = f"{BINDINGS}/NOTICES"
NAMES = f"{BINDINGS}/release.txt"
# The version that the sources of the bindings have: only dnsm.h says which it is.
UNSET_VERSION = '"0.0.0"'
# The first time that a .zip file can have.
YEAR_1980 = 315532800


class Release:
    """One run. As a context it owns a folder for what isn't kept."""

    def __init__(self, archive=None, runtime=None, dist=None):
        self.archive = archive or fresh_archive()
        self.runtime = runtime or toolchain_runtime()
        for file in (self.archive, self.runtime):
            if not os.path.isfile(file):
                raise Problem(f"there is no {file}")
        self.version = re.search(r'^#define DNSM_VERSION "(\d+\.\d+\.\d+)"$', read(HEADER), re.M).group(1)
        self.major = self.version.split(".")[0]
        self.names = dict(re.findall(r"^([a-z-]+) = (.+)$", read(NAMES), re.M))
        self.epoch = int(os.environ.get("SOURCE_DATE_EPOCH") or git("log", "-1", "--format=%ct") or YEAR_1980)
        self.dist = os.path.abspath(dist or f"{BINDINGS}/dist")

    def __enter__(self):
        # What a package contains must not depend on who makes it.
        os.umask(0o022)
        os.environ.update(SOURCE_DATE_EPOCH=str(self.epoch), LC_ALL="C", TZ="UTC")
        self.empty_dist()
        self.work = tempfile.TemporaryDirectory()
        return self

    def __exit__(self, *_):
        self.work.cleanup()

    def empty_dist(self):
        """Removes what an earlier run has made, and begins with MADE_OF, by which the next run knows the folder."""
        if os.path.exists(self.dist) and os.listdir(self.dist) and not os.path.exists(f"{self.dist}/MADE_OF"):
            raise Problem(f"{self.dist} has other files than packages, and would be emptied")
        shutil.rmtree(self.dist, ignore_errors=True)
        commit = git("describe", "--always", "--abbrev=40", "--dirty", "--exclude=*") or "unknown"
        made_of = [f"{sha256(file)}  {os.path.basename(file)}\n" for file in (HEADER, self.archive, self.runtime)]
        write(f"{self.dist}/MADE_OF", "".join([f"commit {commit}\n", *made_of]))

    def folder(self, name):
        """A new folder that isn't kept."""
        made = f"{self.work.name}/{name}"
        os.makedirs(made)
        return made

    def date(self, form):
        return datetime.fromtimestamp(self.epoch, timezone.utc).strftime(form)

    def filled(self, template, **more):
        """A file of the repository in which @NAME@ is replaced."""
        names = {"VERSION": self.version, "MAJOR": self.major, "MAINTAINER": self.names["maintainer"], **more}
        return re.sub(r"@([A-Z_]+)@", lambda found: names[found.group(1)], read(f"{BINDINGS}/{template}"))

    def set_version(self, path):
        """Writes the version into a copied file."""
        text = read(path)
        if UNSET_VERSION not in text:
            file = "/".join(path.split("/")[-2:])
            raise Problem(f"{file} has to have the version {UNSET_VERSION}, in place of which that of dnsm.h is written")
        write(path, text.replace(UNSET_VERSION, f'"{self.version}"'))

    def tar(self, folder, path, top):
        """Packs a folder as a .tar.gz whose entries begin with `top`."""

        def plain(entry):
            entry.uid = entry.gid = 0
            entry.uname = entry.gname = ""
            entry.mtime = self.epoch
            return entry

        with open(path, "wb") as file, gzip.GzipFile("", "wb", 9, file, self.epoch) as packed:
            with tarfile.open(fileobj=packed, mode="w", format=tarfile.USTAR_FORMAT) as it:
                it.add(folder, top, recursive=False, filter=plain)
                for name in walk(folder):
                    it.add(f"{folder}/{name}", f"{top}/{name}", recursive=False, filter=plain)

    def zip(self, folder, path, top=""):
        """Packs the files of a folder as a .zip whose entries begin with `top`."""
        time = datetime.fromtimestamp(max(self.epoch, YEAR_1980), timezone.utc).timetuple()[:6]
        with zipfile.ZipFile(path, "w", zipfile.ZIP_DEFLATED, compresslevel=9) as it:
            for name in walk(folder):
                if os.path.isdir(f"{folder}/{name}"):
                    continue
                entry = zipfile.ZipInfo(top + name, time)
                entry.compress_type = zipfile.ZIP_DEFLATED
                entry.external_attr = (0o100755 if is_program(f"{folder}/{name}") else 0o100644) << 16
                it.writestr(entry, read_octets(f"{folder}/{name}"))

    def files(self):
        return [name for name in walk(self.dist) if os.path.isfile(f"{self.dist}/{name}")]

    def write_sums(self):
        sums = "".join(f"{sha256(f'{self.dist}/{name}')}  {name}\n" for name in self.files())
        write(f"{self.dist}/SHA256SUMS", sums)

    def listing(self):
        """A line for each file, and one for the names that have to be set."""
        lines = [f"{os.path.getsize(f'{self.dist}/{name}'):9} {name}" for name in self.files()]
        unset = [name for name, value in self.names.items() if "example.org" in value]
        return lines + ([f"release.txt has placeholders: {', '.join(unset)}"] if unset else [])


def git(*words):
    """The output of git, or nothing if these sources are no checkout."""
    try:
        done = subprocess.run(["git", "-C", TOP, *words], stdout=subprocess.PIPE, stderr=subprocess.DEVNULL, text=True)
    except FileNotFoundError:
        return ""
    return done.stdout.strip()


def copy_terms(folder):
    """Copies what each package has to say of its licences."""
    copy(LICENSE, f"{folder}/LICENSE")
    copy(NOTICES, f"{folder}/NOTICES")


def fresh_archive():
    """The archive that bindings/c/library builds, if no source of its crates is newer."""
    archive = f"{TOP}/crates/dnsm/out/libdnsm.a"
    if not os.path.exists(archive):
        raise Problem("bindings/c/library hasn't built the library")
    if max(map(changed, [*below("dnsm"), "dnsm"])) > os.path.getmtime(archive):
        raise Problem("the built library is older than its sources: run bindings/c/library")
    return archive


def toolchain_runtime():
    """The part of the toolchain that calls malloc, if the toolchain is there."""
    try:
        return f"{toolchain()}/c/liblibc_c.a"
    except Problem as problem:
        raise Problem(f"{problem}: give --runtime FILE, its c/liblibc_c.a") from None
