#!/usr/bin/env bash
# Runs the programs that `./test` leaves in crates/*/out, with bad or long input, with wrong arguments, and with their output to a full
# disk. Each has to end with the exit status of its page, and to print no more than that; an example says why on standard error, and
# ends with 1. dnsmsg prints its reasons. `rt ci` compares only one run of each program.
# Prints 'test programs::NAME ... ok' or 'test programs::NAME ... FAILED' for each run, and fails if one does.
set -u
cd "$(dirname "$0")/.." || exit 1
room=$(mktemp -d)
trap 'rm -r "$room"' EXIT
failed=0

# Whether standard error has a text, or is empty if that is.
tells() {
    [[ $(<"$room/told") == *"$1"* ]] && { [ "$1" ] || [ ! -s "$room/told" ]; }
}

# run NAME STATUS PRINTED TOLD PROGRAM WORD..: runs a program on standard input. It has to end with the status STATUS, to print
# PRINTED, and to say TOLD on standard error.
run() {
    local name=$1 status=$2 printed=$3 told=$4 program=crates/$5/out/$5 ended=0 outcome=FAILED
    shift 5
    : >"$room/printed"
    timeout 60 "$program" "$@" >"${to:-$room/printed}" 2>"$room/told" || ended=$?
    [ $ended = "$status" ] && [ "$(<"$room/printed")" = "$printed" ] && tells "$told" && outcome=ok
    echo "test programs::$name ... $outcome"
    [ $outcome = ok ] || { echo "status $ended" && cat "$room/printed" "$room/told" && failed=1; }
}

# full NAME STATUS TOLD PROGRAM WORD..: the same, with its output to a full disk.
full() {
    to=/dev/full run "$1" "$2" '' "${@:3}"
}

disk='No space left on device'
question=03777777076578616d706c6503636f6d00
asked=076578616d706c6503636f6d00

# Two addresses of www.example.com; the second owner points to the first one's pointer.
irregular=123481800001000200000000${question}00010001c00c0001000100000e100004c0000201c0210001000100000e100004c0000202

# A look-up of www.example.com with the type $1, A or AAAA, and a message with the flags $2, the answer count $3 and the authority
# count $4 after its question, and the records $5 (RFC 1035 section 4.1).
resolving() {
    local rtype=0001
    [ "$1" = A ] || rtype=001c
    echo "www.example.com $1"
    echo "1234${2}0001${3}${4:-0000}0000${question}${rtype}0001${5:-}"
}

# The query for a name in octets, of type A.
asks() {
    echo "123401000001000000000000${1}00010001"
}

# Frames of messages in hexadecimal digits, each after its length (RFC 1035 section 4.2.2).
frames() {
    local message
    for message in "$@"; do printf "$(printf '%04x%s' $((${#message} / 2)) "$message" | sed 's/../\\x&/g')"; done
}

# The SOA record of example.com with the serial $1, and its A record 192.0.2.$1 (RFC 1035 sections 3.3.13 and 3.4.1); their lines.
soa() {
    printf 'c00c0006000100000e100018c00cc00c%08x00001c2000000384001275000000012c' "$1"
}
host() {
    printf 'c00c0001000100000e100004c00002%02x' "$1"
}
soa_line() {
    echo "example.com. 3600 IN SOA example.com. example.com. $1 7200 900 1209600 300"
}
host_line() {
    echo "example.com. 3600 IN A 192.0.2.$1"
}

# The response to a query for an IXFR of example.com, with the records $2 in all, of which there are $1 (RFC 1995 section 4).
changes() {
    echo "123484000001000${1}00000000${asked}00fb0001${2}"
}

# The answer to the query below: its header and its question with QR set and 40 answers, which are type A, class IN, a TTL of 3600
# and 4 octets each, 192.0.2.1 to 192.0.2.40, all with their whole name (RFC 1035 sections 3.4.1 and 4.1). It has 1109 octets.
forty_addresses() {
    local host
    printf '123481000001002800000000%s00010001' "$asked"
    for host in {1..40}; do printf '%s0001000100000e100004c00002%02x' "$asked" "$host"; done
}

# The status 1 of an example, with a reason.
refuses() {
    run "$1" 1 '' "$3" "$2" "${@:4}"
}

refuses addresses_no_digits example_addresses 'Invalid character' <<<0001zz
refuses addresses_short_message example_addresses 'short message' <<<0001
refuses addresses_irregular example_addresses "isn't regular" <<<"$irregular"
full addresses_full_disk 1 "$disk" example_addresses <crates/example_addresses/stdin
refuses answer_no_digits example_answer 'Invalid character' <<<0001zz
refuses answer_short_query example_answer 'fewer than 12 octets' <<<0001
# With an OPT record, of a client that accepts 1232 octets (RFC 6891 section 6.1.2), and of one that accepts too few.
run answer_table 0 "$(forty_addresses)" '' example_answer <<<"123401000001000000000001${asked}0001000100002904d0000000000000"
run answer_truncated 0 "123483000001000000000000${asked}00010001" '' example_answer \
    <<<"123401000001000000000001${asked}000100010000290454000000000000"
# 30 questions, which alone have 522 octets.
refuses answer_many_questions example_answer 'no answer: limit exceeded' < <(printf '12340100001e000000000000'; printf "${asked}00010001%.0s" {1..30})
full answer_full_disk 1 "$disk" example_answer <crates/example_answer/stdin
zone=crates/example_response/data/zone
run response_no_words 1 '' 'usage: example_response' example_response </dev/null
run response_no_zone 1 '' 'No such file' example_response udp crates/example_response/data/none </dev/null
run response_no_digits 1 '' 'Odd number of digits' example_response udp "$zone" <<<000
# No query, so no response; FORMERR to a query without a question.
run response_short_message 0 '' '' example_response udp "$zone" <<<0001
run response_no_question 0 123481010000000000000000 '' example_response udp "$zone" <<<123401000000000000000000
run response_irregular 0 '' '' example_response udp "$zone" <<<"${irregular/8180/0100}"
full response_full_disk 1 "$disk" example_response udp "$zone" <crates/example_response/stdin
refuses rewrite_one_line example_rewrite 'two lines are wanted' <<<600
refuses rewrite_no_number example_rewrite 'invalid digit' < <(printf 'x\n00\n')
refuses rewrite_no_digits example_rewrite 'Invalid character' < <(printf '600\n0001zz\n')
refuses rewrite_short_message example_rewrite 'short message' < <(printf '600\n0001\n')
full rewrite_full_disk 1 "$disk" example_rewrite <crates/example_rewrite/stdin

transfer() {
    run "$1" "$2" "$3" "$4" example_transfer 4660 example.com "${@:5}"
}
transfer transfer_torn 1 '' 'the transfer is cut off' < <(printf '\0\15abcdefghijk')
transfer transfer_short 1 '' 'short message' < <(printf '\0\5abc')
transfer transfer_empty 1 '' 'the transfer is cut off' </dev/null
transfer transfer_half 1 "$(head -n 3 crates/example_transfer/stdout)" 'the transfer is cut off' < <(head -c 127 crates/example_transfer/stdin)
transfer transfer_other_id 1 '' 'wrong ID' < <(frames "$(changes 1 "$(soa 1)" | sed s/^1234/1235/)")
# RFC 1995 section 4: changes from version 1 to 2 and to 3, in two messages; the whole zone in place of them; no newer version.
transfer transfer_changes 0 "$(
    for line in "$(soa_line 1)" "$(host_line 1)"; do echo "- $line"; done
    soa_line 2
    host_line 2
    echo "- $(soa_line 2)"
    soa_line 3
    host_line 3
)" '' 1 < <(frames "$(changes 5 "$(soa 3)$(soa 1)$(host 1)$(soa 2)$(host 2)")" "$(changes 4 "$(soa 2)$(soa 3)$(host 3)$(soa 3)")")
transfer transfer_whole_zone 0 "$(
    echo '; the whole zone'
    soa_line 3
    host_line 3
)" '' 1 < <(frames "$(changes 3 "$(soa 3)$(host 3)$(soa 3)")")
transfer transfer_up_to_date 0 '; up to date' '' 3 < <(frames "$(changes 1 "$(soa 3)")")
transfer transfer_other_soa 1 "; the whole zone"$'\n'"$(soa_line 3)" 'wrong SOA record' 1 < <(frames "$(changes 2 "$(soa 3)$(soa 2)")")
transfer transfer_after_end 1 '; up to date' 'data after the end' 3 < <(frames "$(changes 2 "$(soa 3)$(soa 3)")")
run transfer_no_words 1 '' 'usage: example_transfer ID ZONE [SERIAL]' example_transfer </dev/null
refuses transfer_no_number example_transfer 'invalid digit' x </dev/null
full transfer_full_disk 1 "$disk" example_transfer 4660 example.com <crates/example_transfer/stdin

run resolve_default_type 0 "$(asks "$question")" '' example_resolve <<<www.example.com
run resolve_type 0 "123401000001000000000000${question}001c0001" '' example_resolve <<<'www.example.com AAAA'
refuses resolve_no_type example_resolve 'unknown record type' <<<'www.example.com NOTYPE'
refuses resolve_other_type example_resolve 'no query for addresses' <<<'www.example.com MX'
refuses resolve_no_name example_resolve 'empty label' <<<www..example.com
refuses resolve_no_digits example_resolve 'Invalid character' < <(printf 'www.example.com\n00zz\n')
refuses resolve_short_message example_resolve 'short message' < <(printf 'www.example.com\n0001\n')
refuses resolve_query example_resolve 'not a response' < <(resolving A 0100 0000)
refuses resolve_other_question example_resolve 'other question' < <(resolving A 8180 0000 | sed 's/^1234\(.*\)00010001$/1234\1000f0001/')
refuses resolve_no_data example_resolve 'no addresses' < <(resolving A 8180 0000)
refuses resolve_nxdomain example_resolve 'no such name' < <(resolving A 8183 0000)
refuses resolve_refused example_resolve 'the rcode is Refused (5)' < <(resolving AAAA 8185 0000)
run resolve_truncated 0 "$(asks "$question") over TCP" '' example_resolve < <(resolving A 8380 0000)
# NS records of example.com; an alias without its records, and DNAME records, to names of example.net (RFC 1034 sections 3.6.2 and 4.3.2,
# RFC 6672 section 2.2).
net=076578616d706c65036e657400
run resolve_referral 0 "$(asks "$question") to the servers of example.com." '' example_resolve \
    < <(resolving A 8000 0000 0001 c010000200010002a3000006036e7331c010)
run resolve_alias_and_referral 0 "$(asks "0377777703737562$asked") to the servers of sub.example.com." '' example_resolve \
    < <(resolving A 8000 0001 0001 c00c000500010000012c000a0377777703737562c010c0310002000100000e100006036e7331c031)
run resolve_alias_alone 0 "$(asks "03776562$net")" '' example_resolve < <(resolving A 8400 0001 0000 "c00c000500010000012c001103776562$net")
run resolve_alias_beside_servers 0 "$(asks "03776562$net")" '' example_resolve \
    < <(resolving A 8400 0001 0001 "c00c000500010000012c001103776562${net}c010000200010002a3000006036e7331c010")
run resolve_dname 0 "$(asks "03777777$net")" '' example_resolve < <(resolving A 8400 0001 0000 "c010002700010000012c000d$net")
refuses resolve_too_many_queries example_resolve 'too many queries' < <(
    resolving A 8380 0000
    for _ in {1..8}; do resolving A 8380 0000 | tail -n 1; done
)
refuses resolve_alias_of_itself example_resolve 'ask another server: alias loop' < <(resolving A 8180 0001 0000 c00c0005000100000e100002c00c)
refuses resolve_unreadable example_resolve 'ask another server: ' < <(resolving A 8180 0001)
refuses resolve_irregular example_resolve "the reply isn't regular" < <(printf 'www.example.com\n%s\n' "$irregular")
run resolve_irregular_truncated 0 "$(asks "$question") over TCP" '' example_resolve \
    < <(printf 'www.example.com\n%s\n' "${irregular/8180/8380}")
refuses resolve_irregular_unasked example_resolve "the reply isn't regular" < <(printf 'www.example.com\n%s\n' "${irregular/81800001/83800000}")
full resolve_full_disk 1 "$disk" example_resolve <crates/example_resolve/stdin
full resolve_query_full_disk 1 "$disk" example_resolve <<<www.example.com

# The time to read a text grows as its words do: a million types (RFC 4034 section 4.2), and service parameters in reverse order
# (RFC 9460 section 2.1), of which 64,535 take more octets than RDATA has.
run types_a_million 0 '1 cases, 1 checks, 0 failed' '' cases_rdata < <(
    printf 'case NSEC\n type NSEC\n octets 016100 000140\n reads-octets 612e 2041*1000000\n'
)
run parameters_in_reverse_order 0 '1 cases, 2 checks, 0 failed' '' cases_rdata < <(
    printf 'case SVCB\n type SVCB\n octets 000100'
    printf '%04x0000' {1000..16000}
    printf '\n reads 1 .'
    printf ' key%d' {16000..1000}
    printf '\n refuses 1 .'
    printf ' key%d' {65534..1000}
)

usage='usage: dnsmsg build TARGET | dnsmsg show'
run dnsmsg_build 0 $'ok 12\nok 29\n000000000001000000000000076578616d706c6503636f6d0000010001' '' dnsmsg build plain <examples/first-run.txt
run dnsmsg_no_digits 1 'bad hex' '' dnsmsg show <<<00zz
run dnsmsg_short_message 1 'short message' '' dnsmsg show <<<0001
run dnsmsg_bad_line 1 $'ok 12\nbad line 2' '' dnsmsg build plain < <(printf 'question\npush\n')
run dnsmsg_no_words 2 "$usage" '' dnsmsg </dev/null
run dnsmsg_other_target 2 "$usage" '' dnsmsg build paper </dev/null
run dnsmsg_no_text 2 "$usage" '' dnsmsg $'\xff' </dev/null
run dnsmsg_no_input 3 failed '' dnsmsg show <.
full dnsmsg_full_disk 3 '' dnsmsg show <examples/answer.txt

line='out.example.com. 3600 IN CNAME target.elsewhere.test.'
usage='usage: dnsview [--html | --short | --json | --dig] [FILE]'
run dnsview_file 0 "$line" '' dnsview --short examples/answer.txt </dev/null
run dnsview_input 0 "$line" '' dnsview --short <examples/answer.txt
run dnsview_dash 0 "$line" '' dnsview --short - <examples/answer.txt
run dnsview_odd 1 '' 'the number of hexadecimal digits is odd' dnsview <<<000
run dnsview_no_option 2 '' $'dnsview: unexpected argument "--long"\n'"$usage" dnsview --long </dev/null
run dnsview_no_text 2 '' $'dnsview: an argument is not UTF-8\n'"$usage" dnsview $'\xff' </dev/null
run dnsview_no_file 3 '' $'dnsview: can\'t open "examples/no file": ' dnsview 'examples/no file' <examples/answer.txt
run dnsview_no_such_name 3 '' $'dnsview: can\'t open "examples/no\\010\\027file": ' dnsview $'examples/no\n\efile' <examples/answer.txt
run dnsview_folder 3 '' 'dnsview: reading failed: ' dnsview examples <examples/answer.txt
run dnsview_empty 4 '' 'dnsview: the input is empty' dnsview </dev/null
full dnsview_full_disk 3 "dnsview: printing failed: $disk" dnsview <examples/answer.txt
exit $failed
