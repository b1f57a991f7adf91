#!/usr/bin/env bash
# Builds crates/bench over what `./test` has left proved. Prints times and allocations of reading and building whole
# messages, and of writing names with the four compressors. Whole messages are timed by four programs, whose code is
# shifted by 16 octets each (shift.c); the least time is the one that counts.
# ROUNDS is the number of rounds, 1 by default. count counts instructions.
#
# It needs a C compiler (CC, else cc) and python3.
set -eu
here=$(cd "$(dirname "$0")" && pwd)
crate=$here/../crates/bench
kit=$(dirname "$(rt doc)")
build=$(mktemp -d)
trap 'rm -rf "$build"' EXIT

"$here/../bindings/c/library" bench >"$build/proof" 2>&1 || { cat "$build/proof" >&2; exit 1; }

compile() {
  local to=$1
  shift
  "${CC:-cc}" -std=gnu11 -O2 -Wall -Wextra "$@" "$crate/out/libbench.a" "$kit/c/liblibc_c.a" -o "$to"
}
compile "$build/times" "$here/driver.c"
compile "$build/allocations" -DCOUNT_ALLOCATIONS "$here/count.c" "$here/driver.c"
shifts=(0 16 32 48)
for shift in "${shifts[@]}"; do
  compile "$build/messages$shift" "$here/ours.c" "$here/messages.c" -DSHIFT="$shift" "$here/shift.c"
done
compile "$build/messages_allocations" -DCOUNT_ALLOCATIONS "$here/count.c" "$here/ours.c" "$here/messages.c"
python3 "$here/inputs.py" >"$build/inputs"

workloads=(w1 w2 m40 w5a w5b w5c n10 n100 n1000 n10000 f64 h64 h64b w3 w4)
printf '%-18s  %-19s  %-6s  %12s  %12s\n' library way work 'ns, median' 'ns, least'
for _ in $(seq "${ROUNDS:-1}"); do
  for shift in "${shifts[@]}"; do
    "$build/messages$shift" "ours+$shift" "$build/inputs" "${workloads[@]}"
  done
done
echo
printf '%-18s  %-19s  %-6s  %12s  %12s\n' library way work allocations memory
"$build/messages_allocations" ours "$build/inputs" "${workloads[@]}"
echo

printf '%-14s %-9s %12s %12s\n' compressor workload 'ns, median' 'ns, least'
"$build/times"
echo
printf '%-14s %-9s %12s\n' compressor workload allocations
"$build/allocations"
