# The crates: packed by cargo, and used by a project that has only what was packed, as `cargo vendor` leaves it.
# shellcheck shell=bash disable=SC2154

export CARGO_HOME=$room/rust/cargo

# Copies a crate as cargo packs it to a folder of vendored ones.
vendor() {
  tar xzf "crates/target/package/$1-$version.crate" -C vendor && echo '{"files":{}}' >"vendor/$1-$version/.cargo-checksum.json"
}

packed() {
  cp -r "$dist/rust" crates && mkdir vendor &&
    (cd crates && cargo package --offline --workspace --allow-dirty) && vendor dnsm-sys && vendor dnsm
}

project() {
  mkdir -p project/src/bin project/.cargo &&
    cp "vendor/dnsm-$version"/examples/*.rs project/src/bin/ && quoted rust >project/src/bin/program.rs &&
    printf '[source.crates-io]\nreplace-with = "vendored"\n[source.vendored]\ndirectory = "%s"\n' "$room/rust/vendor" \
      >project/.cargo/config.toml &&
    printf '[package]\nname = "project"\nversion = "0.1.0"\nedition = "2021"\n' >project/Cargo.toml &&
    (cd project && cargo add -q --offline dnsm)
}

used() {
  project && (cd project && cargo build -q --offline --release) && all_three project/target/release &&
    names project/target/release/program &&
    ! ldd project/target/release/show | grep libdnsm
}

# With the library of the system, here that of the archive.
system() {
  export DNSM_SYSTEM=1 PKG_CONFIG_PATH=$prefix/lib/pkgconfig LD_LIBRARY_PATH=$prefix/lib
  (cd project && cargo build -q --offline --target-dir system) && all_three project/system/debug &&
    ldd project/system/debug/show | grep libdnsm.so.2
}

tested() {
  (cd crates && cargo test -q --offline --target-dir tests)
}

warnings() {
  (cd crates && cargo clippy -q --offline --all-targets --target-dir tests -- -D warnings)
}

formatted() {
  (cd crates && cargo fmt --all --check)
}

runs() {
  cargo --version
}

# cargo packs crates of a workspace that depend on each other since 1.90.
is_new() {
  printf '1.90.0\n%s\n' "$(cargo --version | cut -d' ' -f2)" | sort -V -C
}

check rust::runs runs cargo
if ! has cargo || ! is_new; then
  for name in packed used system tested warnings formatted; do skip "rust::$name" 'cargo 1.90'; done
else
  check rust::packed packed
  check rust::used used "$cc"
  check rust::system system "$cc" pkg-config
  check rust::tested tested
  if cargo clippy --version >/dev/null 2>&1; then check rust::warnings warnings; else skip rust::warnings clippy; fi
  if cargo fmt --version >/dev/null 2>&1; then check rust::formatted formatted; else skip rust::formatted rustfmt; fi
fi
