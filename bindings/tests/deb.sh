# The packages for Debian: checked by lintian, unpacked in a new root, and by root installed over a copy of this system.
# shellcheck shell=bash disable=SC2154,SC2086,SC2016

runtime=$dist/libdnsm2_${version}_amd64.deb
development=$dist/libdnsm-dev_${version}_amd64.deb
root=$room/root
libraries=/usr/lib/x86_64-linux-gnu

unpacked() {
  dpkg-deb -x "$runtime" "$root" && dpkg-deb -x "$development" "$root" || return
  local words program
  export PKG_CONFIG_SYSROOT_DIR=$root PKG_CONFIG_LIBDIR=$root$libraries/pkgconfig
  words=$(pkg-config --cflags --libs dnsm) && mkdir programs || return
  for program in $programs; do
    # pkg-config leaves out the folders of the system, which this root isn't.
    $cc -o programs/$program "-I$root/usr/include" "$root/usr/share/doc/libdnsm-dev/examples/$program.c" \
      "-L$root$libraries" $words || return
  done
  export LD_LIBRARY_PATH=$root$libraries
  all_three programs && prints_mx programs/mx
}

# The list of symbols in the package is what dpkg-gensymbols finds, and a program would depend on the right version.
symbols() {
  mkdir -p gensymbols/debian && cd gensymbols || return
  printf 'Source: dnsm\n\nPackage: libdnsm2\nArchitecture: any\n' >debian/control
  dpkg-deb -R "$runtime" debian/libdnsm2 && cp debian/libdnsm2/DEBIAN/symbols debian/libdnsm2.symbols &&
    dpkg-gensymbols -q -c4 -plibdnsm2 "-v$version" -Pdebian/libdnsm2
}

sums() {
  local package
  for package in "$runtime" "$development"; do
    rm -rf raw && dpkg-deb -R "$package" raw && (cd raw && md5sum --quiet -c DEBIAN/md5sums) || return
  done
}

checked() {
  lintian --fail-on error,warning,info --suppress-tags initial-upload-closes-no-bugs "$runtime" "$development"
}

# Mounts this system in the folder `layer/top`. What is written there is lost with the mount namespace.
layered() {
  mkdir -p layer && mount -t tmpfs none layer && mkdir layer/{upper,work,top} &&
    mount -t overlay overlay -o "lowerdir=/,upperdir=layer/upper,workdir=layer/work" layer/top
}

# Installs, uses and removes both packages.
installed_there() {
  layered && mkdir layer/top/packages && cp "$runtime" "$development" "$tests"/*.txt layer/top/packages/ &&
    mount -t proc proc layer/top/proc && mount --bind /dev layer/top/dev &&
    chroot layer/top sh -euc '
      cd /packages
      dpkg -i *.deb
      for program in $programs; do
        cc -o $program /usr/share/doc/libdnsm-dev/examples/$program.c $(pkg-config --cflags --libs dnsm)
      done
      ldconfig -p | grep libdnsm.so.2
      ./show <messages.txt | diff shown.txt -
      ./write | diff written.txt -
      ./respond <queries.txt | diff responded.txt -
      dpkg -r libdnsm-dev libdnsm2
      ! ./write'
}

installed() {
  export runtime development tests programs
  export -f installed_there layered
  unshare -m bash -c installed_there
}

can_mount() {
  export -f layered
  unshare -m bash -c layered 2>/dev/null
}

check deb::unpacked unpacked "$cc" pkg-config dpkg-deb
check deb::symbols symbols dpkg-gensymbols
check deb::sums sums dpkg-deb
check deb::lintian checked lintian
if can_mount; then
  check deb::installed installed dpkg cc pkg-config
else
  echo 'test packages::deb::installed ... skipped (mounting an overlay is refused)'
fi
