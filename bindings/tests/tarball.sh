# The archive for any distribution: unpacked in a folder with a space in its name, linked in both ways.
# shellcheck shell=bash disable=SC2154,SC2086

library=$prefix/lib/libdnsm.so.$version
strict='-std=c99 -Wall -Wextra -Wconversion -Wpedantic -Werror -O2'

# linked FOLDER OPTION..: the programs with the static library.
linked() {
  local to=$1 program
  shift
  mkdir -p "$to"
  for program in $programs; do
    $cc $strict "$@" -o "$to/$program" "-I$prefix/include" "$prefix/examples/$program.c" "$prefix/lib/libdnsm.a" || return
  done
}

# The paths from pkg-config have quotes or backslashes, which only `eval` understands.
shared() {
  local words program
  mkdir shared
  words=$(PKG_CONFIG_PATH="$prefix/lib/pkgconfig" pkg-config --cflags --libs dnsm) || return
  for program in $programs; do
    eval "$cc $strict -o shared/$program '$prefix/examples/$program.c' $words" || return
  done
  ! ldd shared/show | grep "$prefix" || return
  export LD_LIBRARY_PATH=$prefix/lib
  all_three shared && prints_mx shared/mx
}

# Installed as for a package, in another folder than where it is going to be, and used there. A path that isn't absolute is refused.
installed() {
  local root=$PWD/root words
  ! "$prefix/install" folder && [ ! -e folder ] || return
  DESTDIR=$root "$prefix/install" "/opt/a folder" && DESTDIR=$root "$prefix/install" "/opt/a folder" || return
  (cd "$root/opt/a folder" && find . -type f | sort) |
    diff <(printf '%s\n' ./include/dnsm.h ./lib/libdnsm.a "./lib/libdnsm.so.$version" ./lib/pkgconfig/dnsm.pc) - || return
  export PKG_CONFIG_SYSROOT_DIR=$root PKG_CONFIG_LIBDIR="$root/opt/a folder/lib/pkgconfig" LD_LIBRARY_PATH="$root/opt/a folder/lib"
  words=$(pkg-config --cflags --libs dnsm) && eval "$cc $strict -o installed '$prefix/examples/write.c' $words" &&
    writes ./installed && ldd installed | grep -F "libdnsm.so.2 => $root/opt/a folder/lib"
}

# Also wholly static, and position-independent.
static() {
  linked static && all_three static && linked whole -static && all_three whole && linked pie -static-pie && all_three pie
}

# The servers over sockets, asked over UDP and TCP of this machine.
servers() {
  linked servers && python3 "$tests/c/serving" servers/serve servers/forward servers/show | diff "$tests/c/serving.txt" -
}

# The same servers, asked by another program.
asked() {
  python3 "$tests/c/clients" dig servers/serve servers/forward | diff "$tests/c/clients.txt" -
}

# The program of the page.
quoted_program() {
  quoted c >program.c && $cc $strict -o program "-I$prefix/include" program.c "$prefix/lib/libdnsm.a" && names ./program
}

# The tests of single calls, and the examples of the header that was installed.
calls() {
  local program
  mkdir calls && cp "$tests"/c/{edge,servers}.c calls/ && "$tests/c/quoted" "$prefix/include/dnsm.h" >calls/quoted.c || return
  for program in edge servers quoted; do
    $cc $strict -o calls/$program "-I$prefix/include" calls/$program.c "$prefix/lib/libdnsm.a" || return
  done
  calls/edge && calls/servers && calls/quoted | diff "$tests/c/quoted.txt" -
}

cplusplus() {
  "${CXX:-c++}" -std=c++17 -Wall -Wextra -Werror -o each "-I$prefix/include" "$tests/c/each.cpp" "$prefix/lib/libdnsm.a" && ./each
}

# The static library needs little of the C library, so any will do.
musl() {
  cc=musl-gcc
  linked musl -static && all_three musl
}

# On a processor without SSE4.2 the program doesn't start, and the C library says why.
old_processor() {
  local status=0
  linked old || return
  qemu-x86_64 -cpu core2duo old/show 2>said.txt || status=$?
  [ $status != 0 ] && expect 'CPU ISA level is lower than required' || return
  shows qemu-x86_64 -cpu Nehalem old/show
}

memory() {
  local checked='valgrind -q --leak-check=full --log-file=memory/%p.said'
  linked memory && writes $checked memory/write && shows $checked memory/show && responds $checked memory/respond || return
  ! cat memory/*.said | grep .
}

expect() {
  grep -qE "$1" said.txt || { echo "no $1" && cat said.txt && return 1; }
}

hardened() {
  readelf -dlnW "$library" >said.txt || return
  expect 'SONAME.*\[libdnsm\.so\.2\]' && expect 'GNU_RELRO' && expect 'FLAGS.*BIND_NOW' && expect 'GNU_STACK .* RW ' &&
    expect 'x86 ISA needed:.*x86-64-v2' && ! grep -E 'TEXTREL|RUNPATH|RPATH|RWE' said.txt
}

# Only the calls of dnsm.h, each with a version, and of the C library nothing newer than 2.14.
symbols() {
  grep -oE '^(dnsm_status|uint32_t) dnsm_\w+\(' "$prefix/include/dnsm.h" | grep -o 'dnsm_\w*($' | tr -d '(' | sort >declared.txt
  nm -D --defined-only "$library" | sed -n 's/.* T \(.*\)@@DNSM_[0-9.]*$/\1/p' | sort | diff declared.txt - &&
    nm -g --defined-only "$prefix/lib/libdnsm.a" | sed -n 's/.* T //p' | sort | diff declared.txt - || return
  nm -D --undefined-only "$library" | sed 's/.*GLIBC_//' | sort -V | tail -1 >newest.txt
  printf '2.14\n' | sort -V - newest.txt | tail -1 | grep -qx 2.14
}

check tarball::shared shared "$cc" pkg-config
check tarball::installed installed "$cc" pkg-config
check tarball::static static "$cc"
check tarball::servers servers "$cc" python3
check tarball::asked_by_dig asked "$cc" python3 dig
check tarball::quoted quoted_program "$cc"
check tarball::calls calls "$cc" python3
check tarball::cplusplus cplusplus "${CXX:-c++}"
check tarball::hardened hardened readelf
check tarball::symbols symbols nm
check tarball::musl musl musl-gcc
check tarball::old_processor old_processor "$cc" qemu-x86_64
check tarball::memory memory "$cc" valgrind
