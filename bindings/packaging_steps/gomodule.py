"""The module for Go: as a folder, which a repository for it has to contain, and as the files of a module proxy.

Go fetches a module from a repository, with the archive in it. This repository has no built files, so each release is committed to
another one, or to a branch without the rest. The proxy is for tests and for networks without access to that repository.
"""

import json
import os
import re

from .files import copy, copy_tree, read, walk, write
from .release import BINDINGS, HEADER, copy_terms

# The module's path in the sources; release.txt has the one of the package.
UNSET_MODULE = "example.org/dnsm"


def module_of(release):
    """The path of the module, which from version 2 on ends in the major version."""
    return release.names["go-module"] + (f"/v{release.major}" if int(release.major) > 1 else "")


def make(release, built):
    folder = f"{release.dist}/go/dnsm"
    copy_tree(f"{BINDINGS}/go", folder)
    for name in walk(folder):
        if os.path.isfile(f"{folder}/{name}"):
            write(f"{folder}/{name}", read(f"{folder}/{name}").replace(UNSET_MODULE, module_of(release)))
    copy(HEADER, f"{folder}/dnsm.h")
    copy_terms(folder)
    copy(built.static, f"{folder}/libdnsm_linux_amd64.a")
    make_proxy(release, folder)


def make_proxy(release, folder):
    """GOPROXY=file://.../go/proxy finds the module in these files."""
    module, version = module_of(release), f"v{release.version}"
    # On a file system that ignores case, two modules must not share a folder.
    escaped = re.sub(r"[A-Z]", lambda found: f"!{found.group().lower()}", module)
    proxy = f"{release.dist}/go/proxy/{escaped}/@v"
    write(f"{proxy}/list", f"{version}\n")
    write(f"{proxy}/{version}.info", json.dumps({"Version": version, "Time": release.date("%Y-%m-%dT%H:%M:%SZ")}) + "\n")
    copy(f"{folder}/go.mod", f"{proxy}/{version}.mod")
    release.zip(folder, f"{proxy}/{version}.zip", f"{module}@{version}/")
