# Makes the packages twice, in other folders and with other settings of the user, and compares them, octet for octet.
# shellcheck shell=bash disable=SC2154

twice() {
  mkdir "$room/tmp/another" && "$here/package" --dist "$room/dist" &&
    (umask 077 && cd / && TMPDIR=$room/tmp/another TZ=Asia/Tokyo LC_ALL=C.UTF-8 "$here/package" --dist "$room/another") &&
    diff -r "$room/dist" "$room/another" &&
    (cd "$room/dist" && sha256sum --quiet -c SHA256SUMS)
}

# Entries don't come in the order of the folder on the disk, which may differ on another machine.
sorted() {
  tar tzf "$room"/dist/dnsm-*.tar.gz | sed 's:/$::' | LC_ALL=C sort -c &&
    python3 -m zipfile -l "$room"/dist/dnsm-*.whl | sed 1d | cut -d' ' -f1 | LC_ALL=C sort -c &&
    (cd "$room/dist" && cut -c67- SHA256SUMS | LC_ALL=C sort -c)
}

# No file says where it was made.
without_paths() {
  mkdir "$room/unpacked" && tar xzf "$room"/dist/dnsm-*.tar.gz -C "$room/unpacked" &&
    ! grep -rlF -e "$room" -e "$(dirname "$here")" "$room/dist" "$room/unpacked"
}

# A folder with other files isn't emptied.
kept() {
  mkdir "$room/tmp/full" && touch "$room/tmp/full/a file" && ! "$here/package" --dist "$room/tmp/full" &&
    [ -e "$room/tmp/full/a file" ]
}

check reproducible twice
[ -e "$room/dist/SHA256SUMS" ] || return
check sorted sorted
check without_paths without_paths
check kept kept
