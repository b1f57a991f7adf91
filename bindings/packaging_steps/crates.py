"""The two crates for Rust, as folders for `cargo publish`: dnsm-sys with the built archive, and dnsm with a safe interface."""

from .files import copy, copy_tree
from .release import BINDINGS, HEADER, copy_terms

# As build.rs of dnsm-sys names it.
TARGET = "linux-x86_64"


def make(release, built):
    folder = f"{release.dist}/rust"
    copy_tree(f"{BINDINGS}/rust", folder)
    for crate in ("dnsm-sys", "dnsm"):
        release.set_version(f"{folder}/{crate}/Cargo.toml")
        copy_terms(f"{folder}/{crate}")
    copy(HEADER, f"{folder}/dnsm-sys/include/dnsm.h")
    copy(built.static, f"{folder}/dnsm-sys/lib/{TARGET}/libdnsm.a")
