#!/usr/bin/env bash
# Builds the static library of crates/dnsm (library), compares dnsm.h with its exports (header.sh), and its page with the contracts
# (page), and compiles and runs these tests, the examples of bindings/c, and those of dnsm.h (quoted), in C and C++. Each compiler of
# gcc and clang, and of g++ and clang++, that is installed compiles them, with all warnings as errors, and with the address and
# undefined behaviour sanitizers if it has them, which it says. The sanitizers check the programs and what they pass to the library,
# but not the reads and writes of libdnsm.a itself, which are proved; show.c has a page after each message that can't be read. The
# packages of Debian are gcc, g++ and clang.
# serve and forward also run under valgrind, and are asked by dig, kdig and dnspython (clients), if these are installed.
# Prints 'test c::NAME ... ok' or 'test c::NAME ... FAILED' for each step, and fails if one does, or if there is no compiler for
# C or for C++.
set -u
here=$(cd "$(dirname "$0")" && pwd)
header=$here/..
archive=$here/../../../crates/dnsm/out/libdnsm.a
packages=$here/../../tests
kit=$(dirname "$(rt doc)")
build=$(mktemp -d)
trap 'rm -rf "$build"' EXIT
failed=0

# Runs a command, and prints whether it succeeded, and its output if it did not.
outcome() {
  local name=$1
  shift
  if "$@" >"$build/said" 2>&1; then
    echo "test c::$name ... ok"
  else
    cat "$build/said"
    echo "test c::$name ... FAILED"
    failed=1
  fi
}

sanitizers='-fsanitize=address,undefined -fno-sanitize-recover=all'
export ASAN_OPTIONS=exitcode=99 UBSAN_OPTIONS=exitcode=99

has_sanitizers() {
  echo 'int main(void) { return 0; }' | $1 $sanitizers -x c - -o "$build/probe" && "$build/probe"
} >/dev/null 2>&1

# compile COMPILER STANDARD SOURCE [PROGRAM]
compile() {
  local compiler=$1 standard=$2 source=$3 program=${4:-$(basename "${3%.*}")} flags="-O1 -g -Wall -Wextra -Wconversion -pedantic -Werror"
  has_sanitizers "$compiler" && flags="$flags $sanitizers"
  $compiler "-std=$standard" $flags "-I$header" "$source" "$archive" "$kit/c/liblibc_c.a" -o "$build/$program"
}

cat >"$build/expected" <<'EXPECTED'
header id=4660 opcode=0 rcode=0 z=0 flags=RD
counts 1 0 0 0
question host.example.com.	A	IN

header id=4660 opcode=0 rcode=0 z=0 flags=QR AA RD
counts 1 1 0 0
question host.example.com.	A	IN
answer host.example.com. 3600 IN A 192.0.2.1

header id=4660 opcode=0 rcode=0 z=0 flags=QR RD RA
counts 1 1 1 2
question www.example.com.	A	IN
answer www.example.com. 300 IN A 192.0.2.7
authority example.com. 3600 IN NS ns.example.com.
additional ns.example.com. 300 IN A 192.0.2.7
additional . 0 CLASS1232 OPT \# 0

EXPECTED

cat >"$build/expected_data" <<'EXPECTED'
MX 10 mail.example.com.
SRV 0 5 5222 chat.example.com.
EXPECTED

# The messages that the examples write, in hexadecimal.
messages() {
  "$build/ask" && "$build/build"
}

# A message of 65,537 octets, and one with an NSEC record of all 65,536 types, in windows of 256 (RFC 4034 section 4.1.2).
long_messages() {
  local window
  printf '%0131074d\n' 0
  printf '00008000000000010000000000''002f000100000000''2201''00'
  for ((window = 0; window < 256; window++)); do
    printf '%02x20' "$window"
    printf 'ff%.0s' {1..32}
  done
  printf '\n'
}

# Lines that are no message: an odd number of digits, other characters, a zero octet, fewer octets than a header, and random octets.
odd_lines() {
  printf '000\nxyz\n\n0102\n%024dz\n%024d\0%024d\n' 0 0 0
  head -c 300000 /dev/urandom
  printf '\n%025d' 0
}

# reads INPUT OUTPUT PROGRAM: as that of bindings/test.
reads() {
  local status=0
  "$build/$3" <"$packages/$1.txt" >"$build/output" 2>"$build/told" || status=$?
  [ $status = 1 ] && diff "$packages/$2.txt" "$build/output" && diff "$packages/$2_told.txt" "$build/told"
}

# A zone that is sent whole, at once and in pieces; and a transfer that is cut off, or that of another query.
reads_transfer() {
  local stream=$here/../../../crates/example_transfer/stdin
  "$build/transfer" 4660 example.com <"$stream" | diff "$here/transfer.txt" - &&
    { head -c 300 "$stream" && sleep 1 && tail -c +301 "$stream"; } | "$build/transfer" 4660 example.com | diff "$here/transfer.txt" - &&
    ends_with 1 "$build/transfer" 4660 example.com < <(head -c 300 "$stream") && ends_with 1 "$build/transfer" 4661 example.com <"$stream" &&
    ends_with 1 "$build/transfer" 4660 example.com 1 <"$stream" && ends_with 1 "$build/transfer" 4660 a..b <"$stream"
}

# A zone in several messages is read as it was written, but for its SOA record. One without it isn't written.
writes_transfer() {
  { grep -v '^;\|^$' "$here/zone.txt" && printf 'h%d.example.org. 300 IN TXT "text"\n' {1..4000}; } >"$build/zone" &&
    "$build/write_transfer" 4660 example.org <"$build/zone" >"$build/stream" && [ "$(wc -c <"$build/stream")" -gt 65537 ] &&
    "$build/transfer" 4660 example.org <"$build/stream" | sed -n 's/^+ //p' | diff <(tail -n +2 "$build/zone") - &&
    ends_with 1 "$build/write_transfer" 4660 example.org <<<'example.org. 300 IN A 192.0.2.1' &&
    ends_with 1 "$build/write_transfer" 4660 a..b <"$build/zone"
}

# What the programs that print messages make of long lines: the number of words of each line that they print.
prints_long() {
  long_messages | "$build/show" | awk 'NF { print $1, NF }' | diff <(printf '%s\n' 'header 6' 'counts 5' 'header 6' 'counts 5' 'answer 65542') - &&
    long_messages | "$build/show_simply" | awk 'NF { print $1, NF }' | diff <(printf '%s\n' 'id 4' 'id 4' 'answer 65542') - &&
    long_messages | "$build/respond" | diff <(printf 'ignored\n%.0s' 1 2) -
}

# Whether a command ends by itself with this status: 1 for input that it refuses. A sanitizer ends it with 99.
ends_with() {
  local wanted=$1 status=0
  shift
  "$@" >"$build/odd" || status=$?
  [ $status = "$wanted" ] || { echo "status $status of $*" && return 1; }
}

# No line stops the programs, and none that is no message is printed by `show`. A text that is no name gets no query.
reads_all() {
  local text
  odd_lines >"$build/lines"
  ends_with 0 "$build/show" <"$build/lines" && [ ! -s "$build/odd" ] && ends_with 1 "$build/show_simply" <"$build/lines" &&
    ends_with 1 "$build/respond" <"$build/lines" || return
  for text in '' a..b $'\377' '\' "$(printf 'a%.0s' {1..64})" "$(printf 'a.%.0s' {1..128})"; do
    ends_with 1 "$build/ask" "$text" || return
  done
}

# The exit statuses of the examples: 0 after good lines, and 1 after a line that is no message. `show` also ends with 1 after
# a message that is cut off. No program ends with 0 if the input, here a folder, can't be read.
statuses() {
  local program
  head -7 "$packages/messages.txt" >"$build/replies" && sed 11,17d "$packages/queries.txt" >"$build/queries" &&
    ends_with 0 "$build/show_simply" <"$build/replies" && ends_with 0 "$build/respond" <"$build/queries" &&
    ends_with 1 "$build/show_simply" < <(sed -n 16p "$packages/messages.txt") &&
    ends_with 1 "$build/show_simply" < <(sed -n 19p "$packages/messages.txt") || return
  for program in show_simply respond; do
    ends_with 1 "$build/$program" <<<zz && ends_with 1 "$build/$program" <. || return
  done
  ends_with 1 "$build/show" <. && refuse_words
}

# The servers refuse a number that is no port: 65589 has the low 16 bits of 53. `serve` also refuses a record of another class than IN.
refuse_words() {
  local port
  sed '$a a.example.org. 300 CH TXT "x"' "$here/zone.txt" >"$build/zone" && ends_with 1 timeout 60 "$build/serve" "$build/zone" 65535 || return
  for port in 65589 0; do
    ends_with 1 timeout 60 "$build/serve" "$here/zone.txt" $port && ends_with 1 timeout 60 "$build/forward" $port 127.0.0.1 &&
      ends_with 1 timeout 60 "$build/forward" 65535 127.0.0.1 $port || return
  done
}

examples() {
  local source
  has_sanitizers "$1" || echo "$1 has no sanitizers: the examples in C run without" >&3
  for source in "$here"/{ask,build,edge,servers,show}.c "$here"/../examples/{forward,mx,respond,serve,transfer,write,write_transfer}.c; do
    compile "$1" c11 "$source" || return
  done
  compile "$1" c11 "$here/../examples/show.c" show_simply || return
  "$build/edge" && "$build/servers" && quoted "$1" && "$build/mx" | diff "$build/expected_data" - && messages >"$build/messages" &&
    "$build/show" <"$build/messages" | diff "$build/expected" - && reads_transfer && writes_transfer &&
    "$build/write" | diff "$packages/written.txt" - && reads messages shown show_simply && reads queries responded respond &&
    prints_long && reads_all && statuses && serves &&
    "$build/show" prefixes <"$build/messages" && "$build/show" changes <"$build/messages"
}

# serve and forward are short.
are_short() {
  wc -l "$here"/../examples/{serve,forward}.c | awk '$2 != "total" && $1 >= 300 { print $2 ": " $1 " lines"; long = 1 } END { exit long }'
}

# serve and forward, asked over UDP and TCP of this machine. With --valgrind both run under it.
serves() {
  "$here/serving" "$@" "$build/serve" "$build/forward" "$build/show_simply" | diff "$here/serving.txt" -
}

# The same, compiled without the sanitizers, which valgrind doesn't go with.
checked() {
  local program
  for program in serve forward; do
    "$1" -std=c11 -O1 -g "-I$header" "$here/../examples/$program.c" "$archive" "$kit/c/liblibc_c.a" -o "$build/$program" || return
  done
  serves --valgrind
}

# The calls that allocate, with the first allocation refused, then with the second, and so on until none is. A smaller allocation may
# take the place of a refused one. Else the call has to tell, and each of the three calls does once.
refuses() {
  local place status refused told=0
  "$1" -O1 -shared -fPIC -o "$build/refuse.so" "$here/../../../campaigns/refuse.c" &&
    "$1" -std=c11 -O1 "-I$header" "$here/memory.c" "$archive" "$kit/c/liblibc_c.a" -o "$build/memory" || return
  for ((place = 1; ; place++)); do
    status=0
    LD_PRELOAD=$build/refuse.so REFUSE=$place "$build/memory" 2>"$build/told" || status=$?
    refused=$(grep -cx refused "$build/told")
    [ $status -le "$refused" ] || { echo "status $status" && cat "$build/told" && return 1; }
    [ "$refused" = 1 ] || break
    told=$((told + status))
  done
  [ $told -ge 3 ]
}

# The version check of dnsm.h, without the library, and that of a header of version 2.1.3.
compares_versions() {
  local folder
  mkdir "$build/later" && sed -E 's/^(#define DNSM_VERSION_NUMBER) .*/\1 20103/' "$header/dnsm.h" >"$build/later/dnsm.h" || return
  for folder in "$header" "$build/later"; do
    "$1" -std=c99 -Wall -Wextra -Werror "-I$folder" "$here/version.c" -o "$build/version" && "$build/version" || return
  done
}

# The calls that read text, in a thread with little stack.
reads_in_a_thread() {
  "$1" -std=gnu11 -O1 -pthread "-I$header" "$here/stack.c" "$archive" "$kit/c/liblibc_c.a" -o "$build/stack" && "$build/stack"
}

# asked CLIENT PYTHON: serve and forward, asked by another program.
asked() {
  "$2" "$here/clients" "$1" "$build/serve" "$build/forward" | diff "$here/clients.txt" -
}

# A Python that has dnspython, if there is one.
python_with_dns() {
  local python
  for python in python3 /usr/bin/python3; do
    "$python" -c 'import dns' 2>/dev/null && echo "$python" && return
  done
}

# ask_by CLIENT PYTHON: the outcome of that. Without a PYTHON the client isn't installed.
ask_by() {
  if [ "$2" ]; then
    outcome "$1" asked "$1" "$2"
  else
    echo "$1 is not installed: serve and forward are not asked by it"
  fi
}

# The examples of dnsm.h.
quoted() {
  "$here/quoted" >"$build/quoted.c" && compile "$1" c99 "$build/quoted.c" && "$build/quoted" | diff "$here/quoted.txt" -
}

examples_of_cpp() {
  "$here/quoted" >"$build/quoted.cpp" && compile "$1" c++17 "$here/each.cpp" && compile "$1" c++17 "$build/quoted.cpp" &&
    "$build/each" && "$build/quoted" | diff "$here/quoted.txt" -
}

# each_compiler EXAMPLES COMPILER..: the examples by each compiler that is installed; without any, they fail.
each_compiler() {
  local function=$1 compiler installed=
  shift
  for compiler; do
    command -v "$compiler" >/dev/null && installed=1 && outcome "$compiler" "$function" "$compiler"
  done
  [ "$installed" ] || { echo "no compiler: none of $*" && echo "test c::$function ... FAILED" && failed=1; }
}

exec 3>&1
outcome library "$here/../library"
outcome header "$here/header.sh"
outcome page "$here/page"
each_compiler examples gcc clang
each_compiler examples_of_cpp g++ clang++
outcome short are_short
outcome memory refuses "$(command -v gcc clang | head -1)"
outcome version compares_versions "$(command -v gcc clang | head -1)"
outcome stack reads_in_a_thread "$(command -v gcc clang | head -1)"
if command -v valgrind >/dev/null; then
  outcome valgrind checked "$(command -v gcc clang | head -1)"
else
  echo 'valgrind is not installed: serve and forward run without'
fi
ask_by dig "$(command -v dig >/dev/null && echo python3)"
ask_by kdig "$(command -v kdig >/dev/null && echo python3)"
ask_by dnspython "$(python_with_dns)"
exit $failed
