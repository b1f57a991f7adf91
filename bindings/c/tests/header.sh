#!/usr/bin/env bash
# Compares dnsm.h with the crates: each call and each struct by its C types and the names of its parameters and fields, the
# numbers of the errors, of IANA's registry and of the kinds of fields, the lengths that are always enough, and the names of the
# calls in the archive that `library` has built. Looks whether an example of dnsm.h, edge.c or servers.c, and also
# campaigns/hostile.c, make each call. Compiles the header alone. Prints the differences, and fails if there are any, or if there
# is no C compiler, no `nm` or no archive.
set -eu
here=$(cd "$(dirname "$0")" && pwd)
header=$here/../dnsm.h
top=$here/../../..
crates=$top/crates
folder=$(mktemp -d)
trap 'rm -rf "$folder"' EXIT

# converts parameters and fields of Rust to declarations in C; a slice becomes a pointer and a length
rust_as_c() {
  sed -E "s/\balloc: Global,//; s/'a //g; s/<'_>//g
    s/([a-z_]+): &\[u8\]/const uint8_t *\1, size_t \1_len/g; s/([a-z_]+): &mut \[u8\]/uint8_t *\1, size_t \1_len/g
    s/([a-z_]+): &\[u8; 4\]/const uint8_t \1[4]/g; s/([a-z_]+): \[u(8|16); ([0-9]+)\]/uint\2_t \1[\3]/g
    s/([a-z_]+): &\[([A-Z][a-z]+)([A-Z][a-z]+)\]/const dnsm_\L\2_\3\E *\1, size_t \1_len/g
    s/([a-z_]+): &mut ([A-Z][a-z]+)([A-Z][a-z]+)/dnsm_\L\2_\3\E *\1/g; s/([a-z_]+): &mut ([A-Z][a-z]+)/dnsm_\L\2\E *\1/g
    s/([a-z_]+): &([A-Z][a-z]+)([A-Z][a-z]+)/const dnsm_\L\2_\3\E *\1/g; s/([a-z_]+): &([A-Z][a-z]+)/const dnsm_\L\2\E *\1/g; s/([a-z_]+): Item\b/dnsm_item \1/g
    s/([a-z_]+): &mut usize/size_t *\1/g; s/([a-z_]+): &mut (bool|u8|u16|u32|u64)\b/\2 *\1/g
    s/\bstatus: u32\b/dnsm_status status/g; s/([a-z_]+): (u8|u16|u32|u64)\b/\2 \1/g; s/\bu(8|16|32|64) /uint\1_t /g
    s/([a-z_]+): usize\b/size_t \1/g; s/([a-z_]+): bool\b/bool \1/g
    s/\b[rq]type\b/type/g; s/\bq?class\b/class_/g; s/\brdata/data/g; s/\(\)/(void)/"
}

# one space between words, none at the ends; char becomes uint8_t
plain() {
  sed -E 's/\bchar\b/uint8_t/g; s/\s+/ /g; s/,? ?\)/)/; s/\( /(/; s/^ //; s/,? ?$//'
}

cat "$crates"/dnsm/src/*.rt | tr '\n' ' ' | grep -oE 'extern "C" fn [a-z_]+\([^)]*\) -> u32' |
  sed -E 's/extern "C" fn ([a-z_]+)/dnsm_status \1/; s/ -> u32$//; s/^dnsm_status dnsm_(opt_ttl|version)\b/uint32_t dnsm_\1/' |
  rust_as_c | plain | sort >"$folder/exports"
tr '\n' ' ' <"$header" | grep -oE '(dnsm_status|uint32_t) dnsm_[a-z_]+\([^)]*\);' | tr -d ';' | plain | sort >"$folder/prototypes"
[ -s "$folder/prototypes" ] && diff "$folder/exports" "$folder/prototypes"

# the fields of a struct, in Rust and in C
rust_fields() {
  cat "$crates"/dnsm_*/src/*.rt | sed -n "/^pub struct $1\b/,/^}/p" | grep -oE 'pub [a-z_]+: .*,' | sed 's/^pub //; s/,$//' |
    rust_as_c | sed 's/, /\n/' | plain
}

c_fields() {
  sed -n "/^typedef struct $1 /,/^}/p" "$header" | grep -oE '^    [^;]+;' | tr -d ';' | plain
}

sed -nE 's/^typedef struct (dnsm_[a-z_]+) \{$/\1/p' "$header" >"$folder/structs"
[ -s "$folder/structs" ]
while read -r struct; do
  diff <(rust_fields "$(sed -E 's/^dnsm//; s/_(.)/\U\1/g' <<<"$struct")") <(c_fields "$struct")
done <"$folder/structs"

# the numbers in number_of and code_of, and those of dnsm_status
codes=$crates/dnsm_status/specs/Codes.antt
{
  echo 'DNSM_OK 0'
  echo 'DNSM_END 1'
  sed -nE 's/^number_of faults\.([A-Za-z]+) = ([0-9]+)$/\1 \2/p' "$codes" | sed -E 's/([a-z])([A-Z])/\1_\2/g; s/^/DNSM_/; s/.*/\U&/'
} >"$folder/numbers"
grep -qx 'code_of (Ok true) = 0' "$codes" && grep -qx 'code_of (Ok false) = 1' "$codes"
sed -n '/^enum {$/,/^};$/p' "$header" | sed -n '/DNSM_OK/,/^};$/p' | sed -nE '/^};$/q; s/^ +([A-Z_]+) = ([0-9]+)\b.*/\1 \2/p' |
  diff "$folder/numbers" -

# the registered numbers and names of a table of the registry, as an enum has them
registered() {
  sed -n "/^registered_$1 =\$/,/∷ \[\]/p" "$crates/dns_iana/specs/Registry.antt" | sed -nE 's/.*\(([0-9]+), codes "(.*)"\).*/\2 \1/p' |
    sed -E ':again; s/[^A-Za-z0-9_](.* )/_\1/; t again; s/.*/'"DNSM_$2_"'\U&/'
}

# the numbers of such an enum
enumerated() {
  sed -n "/^enum {\$/,/^};\$/p" "$header" | grep -oE "\bDNSM_$1_[A-Z0-9_]+ = [0-9]+" | sed 's/ = / /'
}

while read -r table prefix; do
  registered "$table" "$prefix" >"$folder/registered"
  [ -s "$folder/registered" ] && diff "$folder/registered" <(enumerated "$prefix")
done <<'TABLES'
types TYPE
classes CLASS
opcodes OPCODE
opt_rcodes RCODE
options OPTION
extended_errors EDE
TABLES

# the kinds of fields
sed -nE 's/^Shows b field \(([A-Za-z0-9]+) .*field\.kind ≡ ([0-9]+).*/DNSM_FIELD_\U\1\E \2/p' "$crates/dnsm_read/specs/FieldValues.antt" |
  sed 's/RECORDTYPE/TYPE/' >"$folder/kinds"
[ -s "$folder/kinds" ] && diff "$folder/kinds" <(enumerated FIELD)

# what replies say
sed -nE 's/^const ([A-Z_]+): u8 = ([0-9]+);$/DNSM_REPLY_\1 \2/p' "$crates/dnsm_replies/src/saying.rt" >"$folder/sayings"
[ -s "$folder/sayings" ] && diff "$folder/sayings" <(enumerated REPLY)

# what steps do, and what was read of a transfer
for kinds in step:STEP transfer:TRANSFER; do
  sed -nE 's/^const ([A-Z_]+): u8 = ([0-9]+);$/DNSM_'"${kinds#*:}"'_\1 \2/p' "$crates/dnsm_transfers/src/${kinds%:*}.rt" >"$folder/kinds"
  [ -s "$folder/kinds" ] && diff "$folder/kinds" <(enumerated "${kinds#*:}")
done

# the length that is always enough for a call, as its clause `short` has it
bound_of() {
  cat "$crates"/dnsm/src/*.rt | sed -n "/fn $1(/,/^{/p" | tr '\n' ' ' | sed -nE 's/.*ensures short \{[^}]*length out\.old < ([^}]*) \}.*/\1/p'
}

# the comment before a call, in one line
comment_of() {
  awk -v call="dnsm_status $1(" '/^\/\*/ { text = "" } index($0, call) == 1 { print text } { sub(/^ \*/, ""); text = text $0 }' "$header"
}

while read -r call constant; do
  bound=$(bound_of "$call")
  grep -qE "\bDNSM_$constant = $bound\b" "$header" || { echo "$call: a clause says $bound"; exit 1; }
  echo "$call" >>"$folder/bounded"
done <<'BOUNDS'
dnsm_name_text NAME_TEXT
dnsm_data_name_text NAME_TEXT
dnsm_name_octets NAME_OCTETS
dnsm_name_from_text NAME_OCTETS
dnsm_data_name_octets NAME_OCTETS
dnsm_name_key NAME_KEY
dnsm_query MADE
dnsm_respond_a MADE
BOUNDS

# the other calls with such a clause say its length in their comments
sed -E 's/^[a-z0-9_]+ ([a-z_]+)\(.*/\1/' "$folder/prototypes" | sort >"$folder/declared"
while read -r call; do
  bound=$(bound_of "$call" | sed -E 's/^length options\.now \+ (.*)/\1 octets more than its options/; t; s/([0-9])([0-9]{3})$/\1,\2/; s/$/ octets/')
  comment_of "$call" | grep -q "[^0-9,]$bound are always enough\." || { echo "$call: a clause says $bound"; exit 1; }
done < <(while read -r call; do [ "$(bound_of "$call")" ] && echo "$call"; done <"$folder/declared" | grep -vxFf "$folder/bounded")

# each status has a sentence
awk '{ print $2 }' "$folder/numbers" >"$folder/statuses"
cat "$crates"/dnsm_status/src/*.rt | sed -nE 's/^        ([0-9]+) => Some\(".*"\),$/\1/p' | diff "$folder/statuses" -

# the version, as text and as a number
awk -F'[". ]' '/^#define DNSM_VERSION "/ { text = 10000 * $4 + 100 * $5 + $6 } /^#define DNSM_VERSION_NUMBER/ { number = $3 }
  END { exit !(text == number && number > 0) }' "$header"

# what the archive defines, and what the tests call
"$here/quoted" >"$folder/quoted.c"
while read -r name; do
  grep -q "\b$name(" "$folder/quoted.c" || { echo "no example of dnsm.h calls $name"; exit 1; }
  grep -q "\b$name[(,]" "$here/edge.c" "$here/servers.c" || { echo "the tests call no $name"; exit 1; }
  grep -q "\b$name[(,]" "$top/campaigns/hostile.c" || { echo "hostile.c calls no $name"; exit 1; }
done <"$folder/declared"
for file in "$crates/dnsm/out/libdnsm.a" "$(command -v nm || echo nm)"; do
  [ -e "$file" ] || { echo "no $file: the names in the archive can't be compared"; exit 1; }
done
nm --defined-only "$crates/dnsm/out/libdnsm.a" 2>/dev/null | sed -nE 's/.* T (dnsm_[a-z_]+)$/\1/p' | sort >"$folder/defined"
diff "$folder/defined" "$folder/declared"

# the header alone, by each C compiler
compilers=$(command -v gcc clang cc || true)
[ "$compilers" ] || { echo 'no C compiler: the header is not compiled'; exit 1; }
for compiler in $compilers; do
  echo '#include "dnsm.h"' | "$compiler" -std=c99 -Wall -Wextra -Wconversion -pedantic -Werror "-I$here/.." -x c -fsyntax-only -
done
