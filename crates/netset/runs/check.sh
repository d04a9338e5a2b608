#!/usr/bin/env bash
# check.sh [PROGRAM..]: runs each program, or else the built one as each compiler of the kit has built it, and compares the exit
# status, standard output and standard error of each run, byte by byte, with what is wanted. Prints nothing where all runs are
# as wanted.
set -euo pipefail
export LC_ALL=C
programs=()
for each; do programs+=("$(realpath -- "$each")"); done
cd "$(dirname "$0")/.."
((${#programs[@]})) || programs=(out/netset out/netset.by-rattle)

room=$(mktemp -d)
trap 'rm -rf "$room"' EXIT
differs=0

# text FILE: sets `got` to what the file has, and fails where a byte of it is 0.
text() {
    ! IFS= read -r -d '' got <"$1"
}

# has FILE TEXT: whether the file has exactly this text. A device keeps no text.
has() {
    local got
    [[ -c $1 ]] || { text "$1" && [ "$got" = "$2" ]; }
}

# run STATUS OUTPUT ERROR INPUT [ARGUMENT..]: runs the program on this input with these arguments, and says in what it
# differs.
run() {
    local wanted=$1 output=$2 error=$3 input=$4 status=0 wrong=() part
    shift 4
    # The program may end before it has read all of its input.
    cd "$room"
    timeout 60 "$program" "$@" < <(printf '%b' "$input" 2>/dev/null) >"$output_file" 2>"$error_file" || status=$?
    cd "$OLDPWD"
    ((status == wanted)) || wrong+=("exit status $status, not $wanted")
    has "$output_file" "$output" || wrong+=("standard output")
    has "$error_file" "$error" || wrong+=("standard error")
    for part in "${wrong[@]}"; do
        differs=1
        echo "$build ${*@Q}: not as wanted: $part" >&2
    done
}

# Lines in each form, each exit status, and that all files count.
rows() {
    run 0 $'10.0.0.0/8\n' '' '10.128.0.0/9\n10.0.0.0/9\n10.1.0.0/16\n' merge
    run 0 $'10.0.0.0/8\n' '' '10.128.0.0/9\r\n \t10.0.0.0/9 ; lower\r\n\r\n# nothing' merge -
    run 0 $'192.0.2.4/31\n192.0.2.7\n::1\n2001:db8::/32\n' '' \
        '2001:db8::/32\n192.0.2.7\n::1\n192.0.2.5\n192.0.2.4#x\n2001:DB8:1::/48' merge
    run 0 $'0.0.0.0/0\n::/0\n' '' '::/0\n0.0.0.0/1\n128.0.0.0/1' merge
    run 0 '' '' '' merge
    run 0 '' '' '\n \n#\n;' merge
    run 0 $'10.0.0.0/7\n' '' '11.0.0.0/8' merge ten -
    run 0 $'10.0.0.0/8\n' '' '11.0.0.0/8' merge ten ten
    run 2 '' $'-:3: 10.0.0.1/8: host bits set; the network is 10.0.0.0/8\n' '10.0.0.0/8\n\n10.0.0.1/8\nx' merge
    run 2 '' $'-:1: 010.0.0.0/8: a leading zero in an octet\n' '010.0.0.0/8' merge
    run 2 '' $'-:2: 10.0.0.1 10.0.0.2: more than a network or an address\n' '10.0.0.1\n10.0.0.1 10.0.0.2' merge
    run 2 '' $'-:1: 10.0.0.0/8 office: more than a network or an address\n' '10.0.0.0/8 office' merge
    run 2 '' $'-:1: 2001:db8::1\\x09office: more than a network or an address\n' '2001:db8::1\toffice' merge
    run 2 '' $'-:1: \\ufeff10.0.0.0/8: a byte order mark in front\n' '\xef\xbb\xbf10.0.0.0/8\n' merge
    run 2 '' $'-:1: 10.0.0.0/255.0.255.0: no contiguous mask of its family\n' '10.0.0.0/255.0.255.0' merge
    run 2 '' $'-:1: 10.0.0.1-10.0.0.2: a range of addresses\n' '10.0.0.1-10.0.0.2' check
    run 2 '' $'10.0.0.1-10.0.0.2: a range of addresses\n' '' not --in 10.0.0.1-10.0.0.2
    run 2 '' $'-:1: \\x89CID\\x01: not UTF-8, as a file of look-ups\n' '\x89CID\x01' merge
    run 2 '' $'bad:1: 10.0.0.0/x: couldn\'t parse length in network: invalid length text\n' '' merge ten bad missing
    run 2 '' $'-:1: \\xff: not UTF-8\n' '\xff' merge
    run 2 '' $'-:1: x\\u202e\\u2066\\u200b\\ufeff: couldn\'t parse address in network: invalid IP address syntax\n' \
        'x\xe2\x80\xae\xe2\x81\xa6\xe2\x80\x8b\xef\xbb\xbf' merge
    run 2 '' $'\\u202etxt: no such file\n' '' merge $'\xe2\x80\xaetxt'
    run 2 '' $'missing: no such file\n' '' merge missing
    run 2 '' $'.: is a directory\n' '' merge .
    run 2 '' $'ten/x: cannot be read\n' '' merge ten/x
    run 0 $'10.0.0.0/8\n' '' '10.128.0.0/9\n10.0.0.0/9' nets
    run 0 $'10.128.0.0/9\n::/1\n' '' '10.0.0.0/9\n8000::/1' minus both -
    run 0 $'10.128.0.0/9\n::/1\n' '' '10.0.0.0/9' minus both - eight
    run 0 '' '' '' minus ten ten
    run 0 $'10.0.0.0/9\n8000::/1\n' '' '10.0.0.0/9\n8000::/1\n' and both -
    run 0 $'10.0.0.0/9\n' '' '10.0.0.0/9\n8000::/1\n' and both - ten
    run 0 '' '' '' and ten -
    run 0 $'0.0.0.0/0\n::/0\n' '' '' not
    run 0 $'0.0.0.0/1\n192.0.0.0/2\n8000::/1\n' '' '128.0.0.0/2\n::/1' not
    run 0 '' '' '0.0.0.0/0' not - eight seven
    run 2 '' $'bad:1: 10.0.0.0/x: couldn\'t parse length in network: invalid length text\n' '' minus ten bad missing
    run 2 '' $'missing: no such file\n' '' and ten missing bad
    run 0 $'10.128.0.0/9\n' '' '10.0.0.0/9' not --in 10.0.0.0/8
    run 0 $'10.0.0.0/8\n' '' '' not --in 10.0.0.0/8 -
    run 0 $'8000::/1\n' '' '10.0.0.0/9' not --in ::/0 - seven
    run 0 '' '' '' not --in 10.0.0.0/9 ten
    run 2 '' $'10.0.0.1/8: host bits set; the network is 10.0.0.0/8\n' '' not --in 10.0.0.1/8 missing
    run 2 '' $'missing: no such file\n' '' not --in ::/0 missing
    run 2 '' $'VALUE is missing, see: netset help not\n' '' not --in
    run 0 $'::/0\n' '' '' not --in ::/0 -k
    run 2 '' $'VALUE is missing, see: netset help not\n' '' not ten --in
    run 0 $'10.0.0.1-10.0.0.6\n10.0.0.8\n::1-::2\n' '' \
        '10.0.0.1\n10.0.0.2/31\n::2\n10.0.0.4/31\n10.0.0.6\n10.0.0.8\n::1' ranges
    run 0 $'0.0.0.0-255.255.255.255\n::-ffff:ffff:ffff:ffff:ffff:ffff:ffff:ffff\n' '' \
        '0.0.0.0/1\n::/0\n128.0.0.0/1' ranges
    run 0 $'10.0.0.0-11.255.255.255\n' '' '11.0.0.0/8' ranges ten -
    run 0 '' '' '' ranges
    run 2 '' $'-:1: \\xff: not UTF-8\n' '\xff' ranges
    run 0 '' '' '' ranges - -k
    run 0 $'IPv4 0\nIPv6 0\n' '' '' count
    run 0 $'IPv4 257\nIPv6 1\n' '' '10.0.0.1\n10.0.1.0/24\n10.0.1.7\n::1' count
    run 0 $'IPv4 4294967296\nIPv6 340282366920938463463374607431768211456\n' '' '0.0.0.0/0\n::/0' count
    run 2 '' $'-:1: \\xff: not UTF-8\n' '\xff' count
    run 2 '' $'A is missing, see: netset help minus\n' '' minus
    run 2 '' $'B is missing, see: netset help minus\n' '' minus ten
    run 2 '' $'B is missing, see: netset help and\n' '' and ten
    run 2 '' $'B is missing, see: netset help and\n' '' and ten -k
    run 2 '' $'COMMAND is missing, see: netset help\n' ''
    run 2 '' $'merged: no such command, see: netset help\n' '' merged
    run 2 '' $'-x: no such option, see: netset help merge\n' '' merge -x
    run 2 '' $'ten: no such command, see: netset help\n' '' --help ten
    run 2 '' $'\\xff: not UTF-8\n' '' merge $'\xff'
    run 2 '' $'a\\x1b\\xff: not UTF-8\n' '' merge bad $'a\e\xff' $'\xfe'
    run 2 '' $'aaaaaaaaaaaaaaaaaaaaaaaaaaaaaaaaaaaaa..: not UTF-8\n' '' merge $'aaaaaaaaaaaaaaaaaaaaaaaaaaaaaaaaaaaaa\xff'
    run 0 "$version"$'\n'"$by" '' '' --version
}

# Options before, behind and between operands, joined, with their values and ended, and the pages of help.
rows_of_arguments() {
    local page long missing=$', see: netset help match\n'
    run 0 $'2\n' '' '10.0.0.1\n11.0.0.1\n::1' match -cv ten_and_eight -
    run 0 $'2\n' '' '10.0.0.1\n11.0.0.1\n::1' match ten -vc
    run 0 $'2\n' '' '10.0.0.1\n11.0.0.1\n::1' match -v ten -c -
    run 0 $'11.0.0.1\n::1\n' '' '10.0.0.1\n11.0.0.1\n::1' match -v -- ten -
    run 0 $'11.0.0.1\n' '' '10.0.0.1\n11.0.0.1' match -kv --host-bits hosts
    run 2 '' "-vx: no such option$missing" '' match -vx ten
    run 2 '' "-v-c: no such option$missing" '' match -v-c ten
    run 2 '' "-xv: no such option$missing" '' match -xv
    run 2 '' "LIST is missing$missing" '' match -v --
    run 2 '' "--ANY: no such option$missing" '' match --ANY ten
    run 2 '' "--any=: no such option$missing" '' match --any= ten
    run 0 $'10.128.0.0/9\n' '' '10.0.0.0/9' not --in=10.0.0.0/8
    run 0 $'10.128.0.0/9\n' '' '10.0.0.0/9' not - --in 10.0.0.0/8
    run 0 $'10.128.0.0/9\n' '' '10.0.0.1/9' not - -k --in=10.0.0.0/8 --host-bits
    run 0 $'10.128.0.0/9\n' '' '10.0.0.0/9' not --in=10.0.0.0/8 -- -
    run 2 '' $'x=1: couldn\'t parse address in network: invalid IP address syntax\n' '' not --in=x=1
    run 2 '' $'--: couldn\'t parse address in network: invalid IP address syntax\n' '' not --in -- ten
    run 2 '' $'::/1: one argument too many, see: netset help not\n' '' not --in ::/0 --in=::/1
    run 2 '' $'--inside: no such option, see: netset help not\n' '' not --inside ::/0
    run 2 '' $'--host-bits=1: no such option, see: netset help merge\n' '' merge --host-bits=1
    run 2 '' $'--in: no such option, see: netset help merge\n' '' merge --in ::/0
    run 0 $'11.0.0.0/8\n' '' '' merge -- -list
    run 0 $'10.0.0.0/7\n' '' '10.0.0.0/8' merge - -k -- -list
    run 2 '' $'-list: no such option, see: netset help merge\n' '' merge -list
    run 2 '' $'-k: no such file\n' '' merge -- -k
    run 2 '' $'--: no such file\n' '' merge -- --
    long=aaaaaaaaaaaaaaaaaaaaaaaaaaaaaaaaaaaaaaaa
    run 2 '' "$long: no such command, see: netset help"$'\n' '' "$long"
    run 2 '' "$long..: no such command, see: netset help"$'\n' '' "${long}a"
    run 2 '' '-\x1b[2J\x0adone: no such option, see: netset help merge'$'\n' '' merge $'-\e[2J\ndone'
    page=$'netset merge [FILE..]   the shortest list of networks that has the addresses of all the lists
netset nets [FILE..]    the same as merge
--host-bits             a bit set behind the prefix of a network in a list is taken as unset,
                        and is no error
--masks                 a network in a list may have a mask in place of its prefix length, as
                        192.0.2.0/255.255.255.0 and 192.0.2.0 0.0.0.255
-k                      each line of a list in error is told, and not only the first
--skip-bad              each line of a list in error is told, and the answer is that of the other
                        lines; the status is 2 then, or 3; it goes neither with -k nor with -o
--form NAME             how lines are read: those of lists by rir, the records in which the
                        Internet registries publish what they have delegated; the rows of the
                        tables of look, compile, same and smallest by pfx2as, an address, its
                        prefix length and the value, as CAIDA has them, or by routes or
                        routes6, as ip route prints those of IPv4 and of IPv6, and default is
                        all addresses
--format NAME           how the networks are written: plain, json, nft, ipset, iptables,
                        cisco, juniper or bird
--prefix TEXT, --suffix TEXT
                        with the format plain, what stands in front of a network and behind
-o FILE                 the answer is written to FILE, whole or not at all, and nothing to
                        standard output; FILE may be among the lists\n'
    run 0 "$page" '' '' help merge
    run 0 "$page" '' '' --help merge
    run 0 "$page" '' '' -h merge
    run 0 "$page" '' '' merge --help
    run 0 "$page" '' '' merge -h ten
    run 0 "$page" '' '' merge -kh ten
    run 0 "$page" '' '' help nets
    run 2 '' $'-x: no such option, see: netset help merge\n' '' nets -x
    page=$'netset --version        the version, and the logic in which the program is proved\n'
    run 0 "$page" '' '' help --version
    run 0 "$page" '' '' --help --version
    run 0 "$page" '' '' help -- --version
    run 0 "$page" '' '' --version -h
    page=$'netset help [COMMAND]   this page, or what it says of a command\n'
    run 0 "$page" '' '' help help
    run 0 "$page" '' '' help -h
    run 0 "$page" '' '' -h --help
    page=$("$program" help)$'\n'
    [[ $page == "netset merge [FILE..] "*" or memory."$'\n' ]] || differs=1
    run 0 "$page" '' '' help
    run 0 "$page" '' '' --help
    run 0 "$page" '' '' -h
    run 2 '' $'merged: no such command, see: netset help\n' '' help merged
    run 2 '' $'nets: one argument too many, see: netset help help\n' '' help merge nets
    run 2 '' $'-x: no such option, see: netset help help\n' '' help -x
    run 2 '' $'x: one argument too many, see: netset help --version\n' '' --version x
    run 2 '' $': no such command, see: netset help\n' '' ''
}

# Each format, of both families, of one, of none, and of all addresses.
rows_of_formats() {
    local two='2001:db8::/32\n192.0.2.1\n192.0.2.128/25' all='0.0.0.0/0\n::/0'
    local other=', see: netset help merge'$'\n'
    run 0 $'192.0.2.1\n192.0.2.128/25\n2001:db8::/32\n' '' "$two" merge --format plain
    run 0 $'deny 192.0.2.1;\ndeny 192.0.2.128/25;\ndeny 2001:db8::/32;\n' '' "$two" merge --prefix 'deny ' --suffix=';'
    run 0 $'192.0.2.1 x\n192.0.2.128/25 x\n2001:db8::/32 x\n' '' "$two" nets --suffix ' x' --format=plain
    run 0 '' '' '' merge --prefix x
    run 0 $'{"network":"192.0.2.1","first":"192.0.2.1","last":"192.0.2.1","length":32,"family":"IPv4"}
{"network":"192.0.2.128/25","first":"192.0.2.128","last":"192.0.2.255","length":25,"family":"IPv4"}
{"network":"2001:db8::/32","first":"2001:db8::","last":"2001:db8:ffff:ffff:ffff:ffff:ffff:ffff","length":32,"family":"IPv6"}\n' \
        '' "$two" merge --format json
    run 0 $'{"network":"0.0.0.0/0","first":"0.0.0.0","last":"255.255.255.255","length":0,"family":"IPv4"}
{"network":"::/0","first":"::","last":"ffff:ffff:ffff:ffff:ffff:ffff:ffff:ffff","length":0,"family":"IPv6"}\n' '' "$all" merge --format json
    run 0 '' '' '' merge --format json
    run 0 $'add table inet netset
add set inet netset netset4 { type ipv4_addr; flags interval; }
flush set inet netset netset4
add element inet netset netset4 { 192.0.2.1 }
add element inet netset netset4 { 192.0.2.128/25 }
add table inet netset
add set inet netset netset6 { type ipv6_addr; flags interval; }
flush set inet netset netset6
add element inet netset netset6 { 2001:db8::/32 }\n' '' "$two" merge --format nft
    run 0 $'add table inet netset
add set inet netset netset4 { type ipv4_addr; flags interval; }
flush set inet netset netset4
add table inet netset
add set inet netset netset6 { type ipv6_addr; flags interval; }
flush set inet netset netset6\n' '' '' merge --format nft
    run 0 $'create netset4 hash:net family inet maxelem 4294967295
flush netset4
add netset4 192.0.2.1
add netset4 192.0.2.128/25
create netset6 hash:net family inet6 maxelem 4294967295
flush netset6
add netset6 2001:db8::/32\n' '' "$two" merge --format ipset
    run 0 $'create netset4 hash:net family inet maxelem 4294967295
flush netset4
add netset4 0.0.0.0/1
add netset4 128.0.0.0/1
create netset6 hash:net family inet6 maxelem 4294967295
flush netset6
add netset6 ::/1
add netset6 8000::/1\n' '' "$all" merge --format ipset
    run 0 $'*filter
:netset - [0:0]
-4 -A netset -s 192.0.2.1 -j ACCEPT
-4 -A netset -s 192.0.2.128/25 -j ACCEPT
-6 -A netset -s 2001:db8::/32 -j ACCEPT
COMMIT\n' '' "$two" merge --format iptables
    run 0 $'*filter\n:netset - [0:0]\nCOMMIT\n' '' '' merge --format iptables
    run 0 $'no ip prefix-list netset4
ip prefix-list netset4 permit 192.0.2.1/32
ip prefix-list netset4 permit 192.0.2.128/25 le 32
no ipv6 prefix-list netset6
ipv6 prefix-list netset6 permit 2001:db8::/32 le 128\n' '' "$two" merge --format cisco
    run 0 $'no ip prefix-list netset4
ip prefix-list netset4 deny 0.0.0.0/0 le 32
no ipv6 prefix-list netset6
ipv6 prefix-list netset6 permit ::1/128\n' '' '::1' merge --format cisco
    run 0 $'no ip prefix-list netset4
ip prefix-list netset4 permit 10.0.0.0/8 le 32
no ipv6 prefix-list netset6
ipv6 prefix-list netset6 deny ::/0 le 128\n' '' '' merge --format cisco ten
    run 0 $'policy-options {
    replace:
    prefix-list netset4 {
        192.0.2.1/32;
        192.0.2.128/25;
    }
    replace:
    prefix-list netset6 {
        2001:db8::/32;
    }
}\n' '' "$two" merge --format juniper
    run 0 $'policy-options {
    replace:
    prefix-list netset4 {
    }
    replace:
    prefix-list netset6 {
    }
}\n' '' '' merge --format juniper
    run 0 $'define netset4 = [
    192.0.2.1/32+,
    192.0.2.128/25+
];
define netset6 = [
    2001:db8::/32+
];\n' '' "$two" merge --format bird
    run 0 $'# netset4 has no network
define netset6 = [
    ::1/128+
];\n' '' '::1' merge --format bird
    run 0 $'define netset4 = [
    10.0.0.0/8+
];
# netset6 has no network\n' '' '' merge --format bird ten
    run 0 $'-10.128.0.0/9\n-::/1\n' '' '10.0.0.0/9\n8000::/1' minus --prefix - both -
    run 0 $'10.0.0.0/9.\n8000::/1.\n' '' '10.0.0.0/9\n8000::/1\n' and both - --suffix .
    run 0 $'*filter\n:netset - [0:0]\n-6 -A netset -s ::/0 -j ACCEPT\nCOMMIT\n' '' '0.0.0.0/0' not --format iptables
    run 2 '' "xml: no such format, but plain, json, nft, ipset, iptables, cisco, juniper and bird$other" '' merge --format xml
    run 2 '' ": no such format, but plain, json, nft, ipset, iptables, cisco, juniper and bird$other" '' merge --format=
    run 2 '' "--prefix: for the format plain alone$other" '' merge --format json --suffix x --prefix x
    run 2 '' "--suffix: for the format plain alone$other" '' merge --format nft --suffix x
    run 2 '' "nft: one argument too many$other" '' merge --format json --format nft
    run 2 '' "VALUE is missing$other" '' merge --format
    run 0 $'10.128.0.0/9 x\n' '' '10.0.0.0/9' not --in 10.0.0.0/8 --suffix ' x'
    run 0 $'{"network":"10.128.0.0/9","first":"10.128.0.0","last":"10.255.255.255","length":9,"family":"IPv4"}\n' \
        '' '10.0.0.0/9' not --format json --in=10.0.0.0/8 -
    run 0 '' '' '' not --in 10.0.0.0/9 --format json ten
    run 0 $'create netset4 hash:net family inet maxelem 4294967295
flush netset4
create netset6 hash:net family inet6 maxelem 4294967295
flush netset6
add netset6 ::/1
add netset6 8000::/1\n' '' '' not --in ::/0 ten --format ipset
    run 0 $'no ip prefix-list netset4
ip prefix-list netset4 permit 10.128.0.0/9 le 32
no ipv6 prefix-list netset6
ipv6 prefix-list netset6 deny ::/0 le 128\n' '' '10.0.0.0/9' not --in 10.0.0.0/8 - --format cisco
    run 2 '' $'--prefix: for the format plain alone, see: netset help not\n' '' not --in ::/0 --format json --prefix x
    run 2 '' $'x: no such format, but plain, json, nft, ipset, iptables, cisco, juniper and bird, see: netset help not\n' '' not --in ::/0 --format x
    run 2 '' $'10.0.0.1/8: host bits set; the network is 10.0.0.0/8\n' '' not --in 10.0.0.1/8 --format json missing
    run 2 '' $'missing: no such file\n' '' not --in ::/0 --format json missing
    run 2 '' $'--format: no such option, see: netset help ranges\n' '' ranges --format json
    run 2 '' $'missing: no such file\n' '' merge --format nft missing
    run 2 '' $'-:1: x: couldn\'t parse address in network: invalid IP address syntax\n' 'x' merge --format json
    # The tools themselves, where the machine has them.
    local text=$'2001:db8::/32\n192.0.2.1\n'
    if command -v jq >/dev/null; then
        [[ $("$program" merge --format json <<<"$text" | jq -r .network) == "$("$program" merge <<<"$text")" ]] ||
            { differs=1; echo "$build: jq reads other networks" >&2; }
    fi
    if command -v nft >/dev/null && nft list ruleset >/dev/null 2>&1; then
        "$program" merge --format nft <<<"$text" | nft -c -f - || differs=1
    fi
    if command -v bird >/dev/null; then
        "$program" merge --format bird <<<"$text" >"$room/bird.conf"
        echo 'protocol device {}' >>"$room/bird.conf"
        bird -p -c "$room/bird.conf" || differs=1
    fi
}

# Lines that are ranges of addresses.
rows_of_ranges() {
    run 0 $'10.0.0.1\n10.0.0.2/31\n10.0.0.4/31\n10.0.0.6\n' '' ' 10.0.0.1-10.0.0.6 # six\r\n' merge
    run 0 $'10.0.0.0/8\n::/127\n' '' '::-::1\n10.0.0.0-10.127.255.255\n10.128.0.0/9' merge
    run 0 $'0.0.0.0/0\n::/0\n' '' '0.0.0.0-255.255.255.255\n::-ffff:ffff:ffff:ffff:ffff:ffff:ffff:ffff' merge
    run 0 $'IPv4 4294967294\nIPv6 340282366920938463463374607431768211454\n' '' \
        '0.0.0.1-255.255.255.254\n::1-ffff:ffff:ffff:ffff:ffff:ffff:ffff:fffe' count
    run 0 $'10.0.0.1-10.0.0.6\n10.0.0.8\n::1-::2\n' '' '::1-::2\n10.0.0.8-10.0.0.8\n10.0.0.1-10.0.0.6' ranges
    run 0 $'10.0.0.0\n10.0.0.7\n' '' '10.0.0.1-10.0.0.6' minus eight_addresses -
    run 2 '' $'-:1: 10.0.0.0/31: invalid IP address syntax\n' '10.0.0.0/31-10.0.0.6' merge
    run 2 '' $'-:1: 10.0.0.6/32: invalid IP address syntax\n' '10.0.0.1-10.0.0.6/32' merge
    run 0 $'10.0.0.1\n10.0.0.2/31\n10.0.0.4/31\n10.0.0.6\n' '' '10.0.0.1 - 10.0.0.6' merge
    run 0 $'10.0.0.1-10.0.0.6\n::1-::2\n' '' '10.0.0.1\t -10.0.0.6\n::1-  ::2 # two' ranges
    run 2 '' $'-:1: 10.0.0.x: invalid IP address syntax\n' '10.0.0.1 - 10.0.0.x' merge
    run 2 '' $'-:1: 10.0.0.1 10.0.0.2: more than a network or an address\n' '10.0.0.1 10.0.0.2 - 10.0.0.6' merge
    run 2 '' $'-:1: 10.0.0.2-10.0.0.3: a range of addresses\n' '10.0.0.1-10.0.0.2-10.0.0.3' merge
    run 2 '' $'-:1: : invalid IP address syntax\n' '10.0.0.1-' merge
    run 2 '' $'-:1: : invalid IP address syntax\n' '-' merge
    run 2 '' $'-:1: 10.0.0.x: invalid IP address syntax\n' '::1-10.0.0.x' merge
    run 2 '' $'-:2: 10.0.0.1-::1: the ends of the range are of two families\n' '10.0.0.1-10.0.0.1\n10.0.0.1-::1' merge
    run 2 '' $'-:1: ::1-10.0.0.1: the ends of the range are of two families\n' '::1-10.0.0.1' merge
    run 2 '' $'-:1: 10.0.0.6-10.0.0.1: the first address of the range is above the last one\n' '10.0.0.6-10.0.0.1' merge
    run 2 '' $'-:1: ::2-::1: the first address of the range is above the last one\n' '::2-::1' merge
    run 2 '' $'-:1: ::2-::\\xff: not UTF-8\n' '::2-::\xff' merge
}

# The standard input named twice, or once where it is read also without a name.
rows_of_input_twice() {
    local twice=$'-: standard input can be read only once\n'
    run 2 '' "$twice" '10.0.0.0/8' minus - -
    run 2 '' "$twice" '10.0.0.0/8' merge - ten -
    run 2 '' "$twice" 'x' and --host-bits ten - -
    run 2 '' "$twice" 'x' not -k --in ::/0 - -
    run 2 '' "$twice" '' diff - -
    run 2 '' "$twice" '' diff -k - -
    run 2 '' "$twice" '' free - 8 -
    run 2 '' "$twice" '' free ten 26 - -
    run 2 '' $'x: no prefix length inside the network\n' '' free ten x - -
    run 2 '' "$twice" '' check - -
    run 2 '' "$twice" '10.0.0.0/8' match - -
    run 2 '' "$twice" '10.0.0.0/8' match -
    run 2 '' "$twice" '10.0.0.0/8' match ten - seen -
    run 2 '' "$twice" '10.0.0.0/8' match - ten -
    run 2 '' "$twice" '10.0.0.0/8 x' look -
    run 2 '' $'-: one argument too many, see: netset help diff\n' '10.0.0.0/8' diff - - -
}

# What changes from a list to another.
rows_of_changes() {
    run 0 '' '' '10.128.0.0/9\n10.0.0.0/9' diff ten -
    run 1 $'+10.0.0.0/8\n' '' '' diff - ten
    run 1 $'-10.0.0.0/8\n' '' '' diff ten -
    run 1 $'+9.0.0.0/8\n-10.0.0.0/9\n+11.0.0.0/8\n+::/1\n-8000::/1\n' '' '10.128.0.0/9\n11.0.0.0/8\n9.0.0.0/8\n::/1' \
        diff ten_and_eight -
    run 1 $'-10.0.0.0\n' '' '10.0.0.1\n10.0.0.2/31\n10.0.0.4/30' diff eight_addresses -
    run 2 '' $'bad:1: 10.0.0.0/x: couldn\'t parse length in network: invalid length text\n' '' diff ten bad
    run 2 '' $'missing: no such file\n' '' diff missing bad
    run 2 '' $'A is missing, see: netset help diff\n' '' diff
    run 2 '' $'B is missing, see: netset help diff\n' '' diff ten
    run 2 '' $'-: one argument too many, see: netset help diff\n' '' diff ten both -
    run 2 '' $'B is missing, see: netset help diff\n' '' diff ten -k
    run 2 '' $'-x: no such option, see: netset help diff\n' '' diff -x ten
    # the same as objects
    run 0 '' '' '10.0.0.0/8' diff --format json ten -
    run 1 $'{"change":"+","network":"9.0.0.0/8","first":"9.0.0.0","last":"9.255.255.255","length":8,"family":"IPv4"}
{"change":"-","network":"10.0.0.0/9","first":"10.0.0.0","last":"10.127.255.255","length":9,"family":"IPv4"}
{"change":"-","network":"8000::/1","first":"8000::","last":"ffff:ffff:ffff:ffff:ffff:ffff:ffff:ffff","length":1,"family":"IPv6"}\n' '' '10.128.0.0/9\n9.0.0.0/8' diff ten_and_eight - --format=json
    run 1 $'+10.0.0.0/8\n' '' '' diff - ten --format plain
    run 1 $'{"change":"+","network":"::1","first":"::1","last":"::1","length":128,"family":"IPv6"}\n' '' '::1' diff --format json -k nothing -
    run 2 '' $'nft: no such format, but plain and json, see: netset help diff\n' '' diff ten ten --format nft
    run 2 '' $': no such format, but plain and json, see: netset help diff\n' '' diff ten ten --format=
    run 2 '' $'plain: one argument too many, see: netset help diff\n' '' diff --format json ten --format plain ten
    run 2 '' $'--prefix: no such option, see: netset help diff\n' '' diff ten ten --prefix x
    run 2 '' $'VALUE is missing, see: netset help diff\n' '' diff ten ten --format
    run 2 '' $'missing: no such file\n' '' diff --format json ten missing
    if command -v jq >/dev/null; then
        local lists=("$room/ten_and_eight" "$room/eight_addresses")
        [[ $("$program" diff --format json "${lists[@]}" | jq -r '.change + .network') == "$("$program" diff "${lists[@]}")" ]] ||
            { differs=1; echo "$build: jq reads other changes" >&2; }
    fi
}

# Where two tables give addresses other values. The networks are worked out by hand.
rows_of_same_tables() {
    local halves
    run 0 '' '' '' same west west
    run 0 '' '' '10.0.0.0/9 west\n10.128.0.0/9 west\n10.1.0.0/16 east\n10.2.0.0/16 west\n::/0 six\n' same west -
    run 0 '' '' '10.0.0.0/8 east\n::/0 six\n10.0.0.0/8 west\n10.1.0.0/16 \t east \r\n' same - west
    run 0 '' '' '# none\n\n' same nothing -
    run 1 $'-10.1.0.0/16 east\n+10.1.0.0/16 west\n' '' '10.0.0.0/8 west\n::/0 six' same west -
    run 1 $'-10.1.0.0/16 west\n+10.1.0.0/16 east\n' '' '10.0.0.0/8 west\n::/0 six' same - west
    halves=$'10.0.0.0/16 west\n10.1.0.0/16 east\n10.2.0.0/15 west\n10.4.0.0/14 west\n10.8.0.0/13 west\n10.16.0.0/12 west\n10.32.0.0/11 west\n10.64.0.0/10 west\n10.128.0.0/9 west\n::/0 six\n'
    run 1 "$(sed 's/^/-/' <<<"${halves%?}")"$'\n' '' '' same west nothing
    run 1 "$(sed 's/^/+/' <<<"${halves%?}")"$'\n' '' '' same nothing west
    # a row of no value is no row without value
    run 1 $'-10.0.0.0/8\n+10.0.0.0/8 x\n+::1\n' '' '10.0.0.0/8 x\n::1\n' same ten -
    run 1 $'-10.0.0.0/8 \xff\n+10.0.0.0/8 \xfe\n' '' '10.0.0.0/8 \xff\n' same - other_bytes
    run 1 $'-0.0.0.0/1 a\n+0.0.0.0/1 b\n-128.0.0.0/1 a\n+128.0.0.0/1 c\n' '' '0.0.0.0/0 a' same - split_in_two
    # how lines are read
    run 1 "$(grep -v east <<<"${halves%?}" | sed 's/^/-/')"$'\n' '' '10.1.0.0/16|east\n' same --table-separator '|' west_only -
    run 0 '' '' '10.0.0.0 8 64500_64501\n2001:db8:: 32 64502' same --form pfx2as origins -
    run 1 $'-10.0.0.0/8 dev eth0\n+10.0.0.0/8 dev eth1\n' '' 'default dev eth0\n10.0.0.0/8 dev eth1' same --form routes defaults -
    run 0 '' '' '10.0.0.7/8 west\n10.1.0.0/16 east\n::/0 six' same --host-bits west -
    run 0 '' '' '10.0.0.0/255.0.0.0 west\n10.1.0.0/16 east\n::/0 six' same --masks west -
    run 2 '' $'-:1: 10.0.0.7/8: host bits set; the network is 10.0.0.0/8\n' '10.0.0.7/8 west' same west -
    run 2 '' $'bad:1: 10.0.0.0/x: couldn\'t parse length in network: invalid length text\n' '' same bad missing
    run 2 '' $'missing: no such file\n' '' same west missing
    run 2 '' $'missing: no such file\n' '' same missing bad
    run 2 '' $'.: is a directory\n' '' same west .
    run 2 '' $'ten/x: cannot be read\n' '' same ten/x west
    run 2 '' $'-: standard input can be read only once\n' '' same - -
    run 2 '' $'-:1: x: couldn\'t parse address in network: invalid IP address syntax\n-:3: y: couldn\'t parse address in network: invalid IP address syntax\n' 'x\n::/0 z\ny' same -k - west
    run 2 $'-10.0.0.0/8 west\n' $'-:1: x: couldn\'t parse address in network: invalid IP address syntax\n' 'x\n::/0 six' same --skip-bad west_alone -
    run 0 '' '' '10.0.0.0/8 west\n::/0 six' same -k - west_alone
    # the answer in a file
    run 1 '' '' '10.0.0.0/8 west\n::/0 six' same -o told west -
    has "$room/told" $'-10.1.0.0/16 east\n+10.1.0.0/16 west\n' || differs=1
    # the words
    run 2 '' $'A is missing, see: netset help same\n' '' same
    run 2 '' $'B is missing, see: netset help same\n' '' same west
    run 2 '' $'-: one argument too many, see: netset help same\n' '' same west west -
    run 2 '' $'--format: no such option, see: netset help same\n' '' same --format json west west
    run 2 '' $'--table-separator: not with --form, see: netset help same\n' '' same --table-separator , --form routes west west
}

# Access lists. What is permitted and which rules are shadowed is worked out by hand.
rows_of_access_lists() {
    run 0 $'10.0.0.0/9\n10.129.0.0/16\n::1\n' '' '' acl rules
    run 0 '' '' '' acl nothing
    run 0 '' '' '# permit ::/0\r\n\r\n ; \n' acl -
    run 0 $'10.0.0.0/8\n' '' '\tpermit \t 10.0.0.0/8\r\ndeny 0.0.0.0/0#x\ndeny 10.0.0.0/8 ; y' acl -
    run 0 $'10.0.0.0/8\n' '' 'deny 11.0.0.0/8\npermit 10.0.0.0/7' acl -
    run 0 $'0.0.0.0/0\n::/0\n' '' 'permit 0.0.0.0/0\npermit ::/0\n' acl -
    run 0 $'10.0.0.0/8\n' '' 'permit 10.0.0.7/8' acl --host-bits -
    run 0 $'10.0.0.0/9\n' '' 'deny 10.128.0.0 0.127.255.255\npermit 10.0.0.0 0.255.255.255' acl --masks -
    run 2 '' $'-:1: 10.0.0.7/8: host bits set; the network is 10.0.0.0/8\n' 'permit 10.0.0.7/8' acl -
    run 2 '' $'-:2: allow: neither permit nor deny\n' 'permit ::/0\nallow ::/0\nx' acl -
    run 2 '' $'-:1: Permit: neither permit nor deny\n' 'Permit 10.0.0.0/8' acl -
    run 2 '' $'-:1: 10.0.0.0/8: neither permit nor deny\n' '10.0.0.0/8' acl -
    run 2 '' $'-:1: \\xff: neither permit nor deny\n' '\xff ::/0' acl -
    run 2 '' $'-:1: the field is missing or empty\n' 'deny # ::/0' acl -
    run 2 '' $'-:1: 010.0.0.0/8: a leading zero in an octet\n' 'deny 010.0.0.0/8' acl -
    run 2 '' $'-:1: \\xff: not UTF-8\n' 'deny \xff' acl -
    run 2 '' $'-:1: 10.0.0.1-10.0.0.2: a range of addresses\n' 'permit 10.0.0.1-10.0.0.2' acl -
    run 2 '' $'missing: no such file\n' '' acl missing
    run 2 '' $'.: is a directory\n' '' acl .
    run 2 '' $'RULES is missing, see: netset help acl\n' '' acl
    run 2 '' $'ten: one argument too many, see: netset help acl\n' '' acl rules ten
    run 2 '' $'-k: no such option, see: netset help acl\n' '' acl -k rules
    # in other formats
    run 0 $'add table inet netset
add set inet netset netset4 { type ipv4_addr; flags interval; }
flush set inet netset netset4
add element inet netset netset4 { 10.0.0.0/9 }
add element inet netset netset4 { 10.129.0.0/16 }
add table inet netset
add set inet netset netset6 { type ipv6_addr; flags interval; }
flush set inet netset netset6
add element inet netset netset6 { ::1 }\n' '' '' acl --format nft rules
    run 0 $'# netset4 has no network
# netset6 has no network\n' '' '' acl --format bird nothing
    run 0 '' '' '' acl --format json nothing
    run 0 $'{"network":"::1","first":"::1","last":"::1","length":128,"family":"IPv6"}\n' '' 'permit ::1' acl - --format json
    run 0 $'x10.0.0.0/9.\nx10.129.0.0/16.\nx::1.\n' '' '' acl --prefix x rules --suffix .
    run 2 '' $'x: no such format, but plain, json, nft, ipset, iptables, cisco, juniper and bird, see: netset help acl\n' '' acl --format x rules
    run 2 '' $'--prefix: for the format plain alone, see: netset help acl\n' '' acl --format json rules --prefix x
    run 2 '' $'missing: no such file\n' '' acl --format json missing
    run 2 '' $'--format: not with --shadowed, see: netset help acl\n' '' acl --shadowed rules --suffix x --format json
    run 2 '' $'--prefix: not with --shadowed, see: netset help acl\n' '' acl --shadowed rules --suffix x --prefix=
    run 2 '' $'--suffix: not with --shadowed, see: netset help acl\n' '' acl --shadowed rules --suffix x
    # rules that no address reaches, each with the earlier ones that cover it
    run 0 '' '' '' acl --shadowed rules
    run 0 '' '' '' acl --shadowed nothing
    run 1 $'-:3: shadowed by -:1\n-:7: shadowed by -:1 -:6\n-:5: shadowed by -:4\n' '' \
        'permit 10.0.0.0/9\n# x\npermit 10.1.0.0/16\ndeny ::/1\npermit ::1\ndeny 10.128.0.0/9\npermit 10.0.0.0/8' acl - --shadowed
    run 1 $'two\\x0arules:2: shadowed by two\\x0arules:1\n' '' '' acl --shadowed $'two\nrules'
    run 2 '' $'-:1: x: neither permit nor deny\n' 'x' acl --shadowed -
    # what a list permits more than another, and what less
    run 0 '' '' 'permit 10.129.0.0/16\npermit 10.0.0.0/9\ndeny ::\npermit ::/127' acl --diff rules -
    run 1 $'-10.0.0.0/9\n-10.129.0.0/16\n-::1\n' '' '' acl --diff rules nothing
    run 1 $'+10.0.0.0/9\n+10.129.0.0/16\n+::1\n' '' '' acl --diff=nothing rules
    run 1 $'-10.0.0.0/9\n+10.128.0.0/16\n-::1\n' '' 'permit 10.128.0.0/15' acl --diff rules -
    run 2 '' $'-:1: x: neither permit nor deny\n' 'x' acl --diff - missing
    run 2 '' $'missing: no such file\n' 'x' acl --diff missing -
    run 2 '' $'-:1: x: neither permit nor deny\n' 'x' acl --diff rules -
    run 2 '' $'-: standard input can be read only once\n' 'permit ::/0' acl --diff - -
    run 2 '' $'RULES is missing, see: netset help acl\n' '' acl --diff rules
    run 2 '' $'VALUE is missing, see: netset help acl\n' '' acl rules --diff
    run 2 '' $'--shadowed: one argument too many, see: netset help acl\n' '' acl --shadowed --diff rules rules
    run 2 '' $'nothing: one argument too many, see: netset help acl\n' '' acl --diff rules --diff nothing rules
    run 1 $'{"change":"+","network":"::1","first":"::1","last":"::1","length":128,"family":"IPv6"}\n' '' 'permit 10.0.0.0/9\npermit 10.129.0.0/16\n' acl --diff - rules --format json
    run 1 $'+10.0.0.0/9\n+10.129.0.0/16\n+::1\n' '' '' acl --format plain --diff nothing rules
    run 0 '' '' '' acl --format json --diff rules rules
    run 2 '' $'bird: no such format, but plain and json, see: netset help acl\n' '' acl --format bird --diff rules rules
    run 2 '' $'--prefix: not with --diff, see: netset help acl\n' '' acl --diff rules rules --suffix x --prefix x
    run 2 '' $'--suffix: not with --diff, see: netset help acl\n' '' acl --diff rules rules --suffix x --format plain
}

# The first free network of a pool.
rows_of_pools() {
    run 0 $'10.0.0.0/26\n' '' '' free ten 26 -
    run 0 $'10.128.0.0/26\n' '' '10.0.0.0/9' free ten 26 -
    run 0 $'10.0.0.0\n' '' '10.0.0.1' free ten 32 -
    run 0 $'::/64\n' '' '10.0.0.0/8' free both 64 -
    run 0 $'8000::/48\n' '' '10.0.0.0/9' free both 48 - seven
    run 1 '' '' '10.0.0.0/9' free ten 8 -
    run 1 '' '' '' free ten 33 -
    run 2 '' $'129: no prefix length inside the network\n' '' free ten 129 missing
    run 2 '' $'x: no prefix length inside the network\n' '' free missing x -
    run 2 '' $'missing: no such file\n' '' free ten 8 missing
    run 0 $'10.0.0.0/8\n' '' '' free ten 8
    run 2 '' $'LEN is missing, see: netset help free\n' '' free ten
    run 2 '' $'-x: no such option, see: netset help free\n' '' free -x 8 ten
    run 1 '' '' '' free ten 8 both -k
    run 0 $'10.0.0.0/10\n10.64.0.0/10\n' '' '10.128.0.0/9' free 10.0.0.0/8 10 --all -
    run 0 $'10.0.0.0/10\n10.64.0.0/10\n10.128.0.0/10\n10.192.0.0/10\n' '' '' free --all ten 10
    run 0 $'10.0.0.0/10\n10.64.0.0/10\n10.128.0.0/10\n' '' '' free --count=3 ten 10
    run 0 $'10.0.0.0/10\n10.64.0.0/10\n10.128.0.0/10\n10.192.0.0/10\n' '' '' free --count 5 10.0.0.0/8 10 -k
    run 0 $'10.0.0.0/9\n10.128.0.0/9\n::/9\n80::/9\n' '' '' free both 9 --count 4
    run 0 $'10.0.0.0/8\n::/8\n' '' '' free both 8 --count 2
    run 0 '' '' '' free --count 0 ten 10
    run 1 '' '' '10.0.0.0/9' free --all ten 8 -
    run 1 '' '' '' free --all 10.0.0.0/8 7
    run 2 '' $'x: no count below 2^64\n' '' free --count x ten 8 missing
    run 2 '' $'18446744073709551616: no count below 2^64\n' '' free --count 18446744073709551616 ten 8
    run 2 '' $'129: no prefix length inside the network\n' '' free --count x ten 129
    run 2 '' $'x: no count below 2^64\n' '' free -k --count x ten 8 missing
    run 2 '' $'VALUE is missing, see: netset help free\n' '' free ten 8 --count
    run 2 '' $'--all: one argument too many, see: netset help free\n' '' free ten 8 --count 1 --all
    run 2 '' $'2: one argument too many, see: netset help free\n' '' free ten 8 --count 1 --count 2
    run 2 '' $'10.0.0.1/8: no network and no address, and no file that can be read\n' '' free 10.0.0.1/8 8 missing
    run 2 '' $'missing: no such file\n' '' free 10.0.0.0/8 8 missing
    run 2 '' $'bad:1: 10.0.0.0/x: couldn\'t parse length in network: invalid length text\n' '' free -k 10.0.0.0/8 8 bad
    run 0 $'10.0.0.1\n' '' '' free 10.0.0.1 32
}

# Networks of a length in each format, of both families, of one, of none, and of all addresses.
rows_of_walks() {
    run 0 $'allow 10.0.0.0/9;\nallow 10.128.0.0/9;\nallow ::/9;\n' '' '' free --prefix 'allow ' --suffix=';' both 9 --count 3
    run 0 $'10.0.0.0/9 x\n' '' '' free both 9 --suffix ' x'
    run 0 $'10.0.0.0/9\n10.128.0.0/9\n' '' '' split --format plain ten 9
    run 0 $'{"network":"10.0.0.0/9","first":"10.0.0.0","last":"10.127.255.255","length":9,"family":"IPv4"}
{"network":"10.128.0.0/9","first":"10.128.0.0","last":"10.255.255.255","length":9,"family":"IPv4"}
{"network":"::/9","first":"::","last":"7f:ffff:ffff:ffff:ffff:ffff:ffff:ffff","length":9,"family":"IPv6"}\n' \
        '' '' free both 9 --count=3 --format json
    run 0 $'{"network":"8000::/1","first":"8000::","last":"ffff:ffff:ffff:ffff:ffff:ffff:ffff:ffff","length":1,"family":"IPv6"}\n' '' '' split eight 1 --format json
    run 0 $'add table inet netset
add set inet netset netset4 { type ipv4_addr; flags interval; }
flush set inet netset netset4
add table inet netset
add set inet netset netset6 { type ipv6_addr; flags interval; }
flush set inet netset netset6
add element inet netset netset6 { ::/2 }
add element inet netset netset6 { 4000::/2 }\n' '' '' split --format nft ::/1 2
    run 0 $'create netset4 hash:net family inet maxelem 4294967295
flush netset4
add netset4 0.0.0.0/1
add netset4 128.0.0.0/1
create netset6 hash:net family inet6 maxelem 4294967295
flush netset6\n' '' '' split --format ipset 0.0.0.0/0 0
    run 0 $'create netset4 hash:net family inet maxelem 4294967295
flush netset4
create netset6 hash:net family inet6 maxelem 4294967295
flush netset6
add netset6 ::/1
add netset6 8000::/1\n' '' '' free ::/0 0 --format ipset
    run 0 $'*filter
:netset - [0:0]
-4 -A netset -s 10.0.0.1 -j ACCEPT
COMMIT\n' '' '' free ten 32 --format iptables --count 1 zero
    run 0 $'no ip prefix-list netset4
ip prefix-list netset4 permit 10.0.0.0/9 le 32
ip prefix-list netset4 permit 10.128.0.0/9 le 32
no ipv6 prefix-list netset6
ipv6 prefix-list netset6 deny ::/0 le 128\n' '' '' split 10.0.0.0/8 9 --format cisco
    run 0 $'policy-options {
    replace:
    prefix-list netset4 {
        10.0.0.0/9;
    }
    replace:
    prefix-list netset6 {
    }
}\n' '' '' free ten 9 --format juniper
    run 0 $'define netset4 = [
    10.0.0.0/9+,
    10.128.0.0/9+
];
define netset6 = [
    ::/9+
];\n' '' '' free --format bird --count 3 both 9
    run 0 $'# netset4 has no network
define netset6 = [
    ::1/128+
];\n' '' '' split ::1 128 --format bird
    # where there is none, the sets are made anew too
    run 1 $'# netset4 has no network\n# netset6 has no network\n' '' '10.0.0.0/9' free ten 8 - --format bird
    run 1 $'*filter\n:netset - [0:0]\nCOMMIT\n' '' '' split ten 7 --format iptables
    run 0 $'*filter\n:netset - [0:0]\nCOMMIT\n' '' '' free ten 9 --format iptables --count 0
    run 1 '' '' '' split ten 7 --format json
    run 1 '' '' '' free --all ten 7 --prefix x
    run 2 '' $'23: no prefix length inside the network\n' '' split 192.0.2.0/24 23 --format nft
    run 2 '' $'xml: no such format, but plain, json, nft, ipset, iptables, cisco, juniper and bird, see: netset help split\n' '' split ten 9 --format xml
    run 2 '' $'--suffix: for the format plain alone, see: netset help free\n' '' free ten 9 --format bird --suffix x
    run 2 '' $'bird: one argument too many, see: netset help free\n' '' free ten 9 --format bird --format bird
    run 2 '' $'missing: no network and no address, and no file that can be read\n' '' split missing 9 --format json
    run 2 '' $'missing: no such file\n' '' free ten 9 missing --format json
    # of many networks each comes once
    "$program" split 10.0.0.0/8 24 --format json | tail -n 1 | cmp -s - \
        <(printf '{"network":"10.255.255.0/24","first":"10.255.255.0","last":"10.255.255.255","length":24,"family":"IPv4"}\n') || differs=1
    [[ $("$program" split 10.0.0.0/8 24 --format bird | grep -c '+,$') == 65535 ]] || differs=1
}

# What is found in lists.
rows_of_findings() {
    local deep='2001:db8::/32\n2001:db8::/33\n2001:db8:8000::/33\n2001:DB8:8000::5/33'
    run 0 '' '' '10.0.0.0/8\n11.0.0.1\n\n# x\n::1' check
    run 0 '' '' '0.0.0.0/0\n::/0' check
    run 1 $'-:2: host bits set\n-:2: repeats -:1\n' '' '10.0.0.0/8\n10.0.0.7/8' check
    run 1 $'-:1: not in canonical form: 10.0.0.1\n' '' '10.0.0.1/32' check
    run 1 $'-:1: inside 10.1.0.0/16 at -:2\n' '' '10.1.2.3\n10.1.0.0/16' check -
    run 1 $'-:2: inside 10.0.0.0/8 at -:1\n-:3: inside 10.1.0.0/16 at -:2\n-:4: repeats -:2\n-:4: inside 10.0.0.0/8 at -:1\n' \
        '' '10.0.0.0/8\n10.1.0.0/16\n10.1.2.3\n10.1.0.0/16' check
    run 1 $'-:2: mergeable with -:1\n' '' '10.128.0.0/9\n10.0.0.0/9' check
    # forms in which a prefix length is read, and is not printed
    run 1 $'-:2: not in canonical form: 20.0.0.0/8\n-:3: not in canonical form: 30.0.0.0/8\n-:4: not in canonical form: 40.0.0.0/16\n-:5: not in canonical form: 50.0.0.0/16\n-:6: not in canonical form: 60.0.0.1\n-:7: not in canonical form: 70.0.0.1\n' \
        '' '10.0.0.0/8\n20.0.0.0/08\n30.0.0.0/+8\n40.0.0.0/+16\n50.0.0.0/016\n60.0.0.1/032\n70.0.0.1/+32\n80.0.0.0/16\n90.0.0.1' check
    run 1 $'-:1: not in canonical form: 0.0.0.0/0\n' '' '0.0.0.0/00' check
    # halves and what is around them, each behind and in front of others
    run 1 $'-:1: inside 10.0.0.0/8 at -:7\n-:2: inside 10.0.0.0/9 at -:4\n-:3: inside 10.0.0.0/10 at -:2\n-:4: inside 10.0.0.0/8 at -:7\n-:4: mergeable with -:1\n-:5: inside 10.0.0.0/9 at -:4\n-:5: mergeable with -:2\n-:7: mergeable with -:6\n' \
        '' '10.128.0.0/9\n10.0.0.0/10\n10.0.0.0/12\n10.0.0.0/9\n10.64.0.0/10\n11.0.0.0/8\n10.0.0.0/8' check
    run 1 $'-:1: mergeable with ten:1\n' '' '11.0.0.0/8' check ten -
    run 1 $'ten:1: repeats ten:1\n' '' '' check ten ten
    run 1 $'-:2: inside 2001:db8::/32 at -:1\n-:3: inside 2001:db8::/32 at -:1\n-:3: mergeable with -:2\n-:4: host bits set\n-:4: not in canonical form: 2001:db8:8000::5/33\n-:4: repeats -:3\n-:4: inside 2001:db8::/32 at -:1\n-:4: mergeable with -:2\n' \
        '' "$deep" check
    run 2 '' $'-:2: 10.0.0.1-10.0.0.2: a range of addresses\n' '10.0.0.1/8\n10.0.0.1-10.0.0.2' check
    run 2 '' $'bad:1: 10.0.0.0/x: couldn\'t parse length in network: invalid length text\n' '' check ten ten bad
    run 2 '' $'-:1: \\xff: not UTF-8\n' '\xff' check
    run 2 '' $'missing: no such file\n' '' check ten missing
    run 2 '' $'-x: no such option, see: netset help check\n' '' check -x
}

# The lines of a file by a list.
rows_of_matches() {
    local bad=$': x: couldn\'t parse address in network: invalid IP address syntax\n'
    run 0 $'10.0.0.1 a\n10.0.0.0/9\n' '' '10.0.0.1 a\n11.0.0.1\n10.0.0.0/9\n10.0.0.0/7\n::1\n' match ten
    run 0 $'10.0.0.1\r\n \t10.2.3.4\tx # y\n::1\n' '' '10.0.0.1\r\n \t10.2.3.4\tx # y\n11.0.0.1\n::1' match both -
    run 0 $'10.0.0.0/8\n' '' '' match ten ten
    run 1 '' '' '' match ten
    run 1 '' '' '\n \n#10.0.0.1\n ;\xff\n::1\n' match ten
    run 0 $'\n \n#10.0.0.1\n ;x\r\n::1\n' '' '\n10.0.0.1\n \n#10.0.0.1\n ;x\r\n::1' match -v ten
    run 1 '' '' '' match -v ten
    run 0 $'\n' '' '\n' match -v ten
    run 0 $'2\n' '' '10.0.0.1\n11.0.0.1\n10.0.0.1' match -c ten
    run 0 $'1\n' '' '10.0.0.1\n11.0.0.1\n10.0.0.1' match -v -c -v ten -
    run 1 $'0\n' '' '11.0.0.1' match -c ten
    run 0 '' '' '11.0.0.1\n10.0.0.1\nx' match -q ten
    run 0 '' '' '11.0.0.1\n10.0.0.1' match -c -q ten
    run 1 '' '' '11.0.0.1' match -q ten
    run 2 '' "-:2$bad" '11.0.0.1\nx\n10.0.0.1' match -q ten
    run 2 '' $'-:3: 010.0.0.1: a leading zero in an octet\n' '11.0.0.1\n\n010.0.0.1\n10.0.0.1' match ten
    run 2 '' $'-:1: 10.0.0.1#x: couldn\'t parse address in network: invalid IP address syntax\n' '10.0.0.1#x' match ten
    run 2 $'10.0.0.1 a\n10.0.0.2\n' "-:3$bad" '10.0.0.1 a\n10.0.0.2\nx\n10.0.0.3' match ten
    run 2 $'\n' "-:2$bad" '\nx' match -v ten
    run 2 '' "-:2$bad" '10.0.0.1\nx' match -c ten
    run 0 '' '' '10.0.0.1\nx' match -q ten
    run 2 '' $'-:1: 10.0.0.1/8: host bits set; the network is 10.0.0.0/8\n' '10.0.0.1/8 x' match -v ten
    run 2 '' $'-:1: \\xff: not UTF-8\n' '\xff' match ten
    run 2 '' $'bad:1: 10.0.0.0/x: couldn\'t parse length in network: invalid length text\n' '' match bad missing
    run 2 '' $'missing: no such file\n' '' match missing bad
    run 2 '' $'missing: no such file\n' '' match ten missing
    run 2 '' $'.: is a directory\n' '' match ten .
    run 2 '' $'LIST is missing, see: netset help match\n' '' match
    run 2 '' $'LIST is missing, see: netset help match\n' '' match -v
    run 2 '' $'-x: no such option, see: netset help match\n' '' match -x ten
    run 1 '' '' '' match ten -v
    run 1 '' '' '' match -- ten
}

# The lines of several files, each behind the name of its file. What `grep` writes of them is what is wanted.
rows_of_several_files() {
    local bad=$': x: couldn\'t parse address in network: invalid IP address syntax\n' wanted
    wanted=$(cd "$room" && grep '^10\.' seen again)$'\n'
    run 0 "$wanted" '' '' match ten seen again
    wanted=$(cd "$room" && grep '10\.' seen again)$'\n'
    run 0 "$wanted" '' '' match --any ten seen again
    wanted=$(cd "$room" && grep '^10\.' again nothing seen address)$'\n'
    run 0 "$wanted" '' '' match ten again nothing seen address
    wanted=$(cd "$room" && grep -v '^10\.' seen again)$'\n'
    run 0 "$wanted" '' '' match -v ten seen again
    wanted=$(cd "$room" && grep -c '^10\.' seen nothing again)$'\n'
    run 0 "$wanted" '' '' match -c ten seen nothing again
    wanted=$(cd "$room" && grep -c '^12\.' seen nothing || true)$'\n'
    run 1 "$wanted" '' '' match -c eight seen nothing
    run 1 '' '' '' match eight seen again nothing
    run 0 $'-:10.0.0.2\n./seen:10.0.0.1 a\n./seen:10.2.0.0/16 c\n' '' '10.0.0.2\n11.0.0.1' match ten - ./seen
    run 0 $'ten:10.0.0.0/8\nten:10.0.0.0/8\n' '' '' match ten ten ten
    run 0 $'two\nlines:10.0.0.1/8\nten:10.0.0.0/8\n' '' '' match --any ten $'two\nlines' ten
    run 0 '' '' '' match -q ten seen missing
    run 0 '' '' '' match -q ten nothing seen missing
    run 1 '' '' '' match -q eight seen again nothing
    # the first file in error is the last one
    run 2 $'seen:10.0.0.1 a\nseen:10.2.0.0/16 c\n' $'missing: no such file\n' '' match ten seen missing again
    run 2 '' $'missing: no such file\n' '' match ten missing seen
    run 2 $'seen:10.0.0.1 a\nseen:10.2.0.0/16 c\n-:10.0.0.2\n' "-:2$bad" '10.0.0.2\nx\n10.0.0.3' match ten seen - again
    run 2 $'seen:2\n' "-:2$bad" '10.0.0.2\nx\n10.0.0.3' match -c ten seen -
    run 2 '' "-:1$bad" 'x' match -q eight seen - missing
    run 2 '' "-:1$bad" 'x' match -v ten - seen
    run 2 $'seen:10.0.0.1 a\nseen:10.2.0.0/16 c\n' $'.: is a directory\n' '' match ten seen .
    run 2 '' $'bad:1: 10.0.0.0/x: couldn\'t parse length in network: invalid length text\n' '' match bad missing seen
    run 2 '' $'bad:1: 10.0.0.0/x: couldn\'t parse length in network: invalid length text\n' '' match -k bad missing seen
    run 0 $'seen:10.0.0.1 a\nseen:10.2.0.0/16 c\nten:10.0.0.0/8\n' '' '' match -k ten seen ten
}

# Lines by another field than the first. What `awk` writes of them is what is wanted.
rows_of_fields() {
    local bad=$': x: couldn\'t parse address in network: invalid IP address syntax\n' none=$': the field is missing or empty\n' wanted
    wanted=$(awk '$3 ~ /^10\./' "$room/spaced")$'\n'
    run 0 "$wanted" '' '' match --field 3 ten spaced
    run 0 "$wanted" '' '' match --field=3 ten spaced
    run 0 "$wanted" '' '' match --field +3 ten spaced
    wanted=$(awk '$3 !~ /^10\./' "$room/spaced")$'\n'
    run 0 "$wanted" '' '' match -v --field 3 ten spaced
    wanted=$(awk -F, '$2 ~ /^10\./' "$room/commas")$'\n'
    run 0 "$wanted" '' '' match --field 2 --separator , ten commas
    run 0 "$wanted" '' '' match --separator=, ten commas --field=2
    wanted=$(awk -F, '$2 ~ /^10\./' "$room/commas" | wc -l)$'\n'
    run 0 "$wanted" '' '' match -c --field 2 --separator , ten commas
    wanted=$(cd "$room" && grep ',10\.' commas commas)$'\n'
    run 0 "$wanted" '' '' match --field 2 --separator , ten commas commas
    run 0 $'10.0.0.1 a\n' '' '10.0.0.1 a\n11.0.0.1 10.0.0.1' match --field 1 ten
    run 0 $'x|y|10.0.0.1\r\n' '' 'x|y|10.0.0.1\r\nx|y|11.0.0.1' match --field 3 --separator '|' ten
    run 0 $'a, 10.0.0.1 ,b\n' '' 'a, 10.0.0.1 ,b' match --field 2 --separator , ten
    run 0 $'a\t\t10.0.0.1\n' '' 'a\t\t10.0.0.1' match --field 3 --separator $'\t' ten
    run 0 $'a\t \t10.0.0.1\n' '' 'a\t \t10.0.0.1' match --field 2 ten
    run 0 $'10.0.0.1#x,10.0.0.1\n' '' '10.0.0.1#x,10.0.0.1' match --field 2 --separator , ten
    # a line that is blank or a comment says nothing, but a sign that parts fields begins no comment
    run 1 '' '' '\n \t\n # 1,2\n;10.0.0.1,10.0.0.1' match --field 2 --separator , ten
    run 0 $'\n# 1\n' '' '\n# 1' match -v --field 2 ten
    run 0 $';10.0.0.1;x\n' '' ';10.0.0.1;x\n#;10.0.0.1\n;11.0.0.1' match --field 2 --separator ';' ten
    run 0 $' #10.0.0.1\n' '' ' #10.0.0.1\n;#10.0.0.1' match --field 2 --separator '#' ten
    run 2 '' "-:1$none" ';;' match --field 2 --separator ';' ten
    # a header is written whatever it says, and not counted
    run 0 $'ip,n\n10.0.0.1,a\n' '' 'ip,n\n10.0.0.1,a\n11.0.0.1,b' match --header --field 1 --separator , ten
    run 0 $'ip,n\r\n11.0.0.1,b\n' '' 'ip,n\r\n10.0.0.1,a\n11.0.0.1,b' match -v --header --field 1 --separator , ten
    run 0 $'1\n' '' '10.0.0.1\n10.0.0.2\n11.0.0.1' match --header -c ten
    run 0 '' '' '10.0.0.1\n10.0.0.2' match -q --header ten
    run 1 $'10.0.0.1\n' '' '10.0.0.1' match --header ten
    run 1 $'\n' '' '\n' match --header ten
    run 1 '' '' '' match --header ten
    run 1 $'0\n' '' '10.0.0.1' match --header -c ten
    run 0 $'a 10.0.0.1\n10.0.0.2\n' '' 'a 10.0.0.1\n10.0.0.2\nb' match --header --any ten
    run 2 $'ip\n10.0.0.1\n' "-:3$bad" 'ip\n10.0.0.1\nx' match --header ten
    run 0 $'commas:a,10.0.0.1,b\ncommas:d,10.2.0.0/16,\naddress:10.0.0.1\n' '' '' match --header --field 2 --separator , ten commas address
    # a field that is not there, or is empty
    run 2 $'a 10.0.0.1\n' "-:3$none" 'a 10.0.0.1\n\na\nb 10.0.0.2' match --field 2 ten
    run 2 '' "-:1$none" 'a,,10.0.0.1' match --field 2 --separator , ten
    run 2 '' "-:1$none" 'a, ,10.0.0.1' match --field 2 --separator , ten
    run 2 '' "-:1$none" 'a,' match --field 2 --separator , ten
    run 2 '' "-:1$none" 'a' match -v --field 18446744073709551615 --separator , ten
    run 2 '' "-:1$none" 'a' match -v --field 18446744073709551615 ten
    run 2 $'spaced: a b 10.0.0.1\nspaced:f g 10.2.0.0/16 h\n' "seen:1$none" '' match --field 3 ten spaced seen commas
    run 2 '' "-:2$bad" 'a 11.0.0.1\na x' match --field 2 ten
    run 2 '' "-:2$bad" 'a 10.0.0.1\na x' match -c --field 2 ten
    run 2 '' $'-:1: \\xff: not UTF-8\n' 'a,\xff' match --field 2 --separator , ten
    run 2 '' $'-:1: "10.0.0.1": couldn\'t parse address in network: invalid IP address syntax\n' 'a,"10.0.0.1"' match --field 2 --separator , ten
    # the arguments
    run 2 '' $'0: no number of a field, from 1 on\n' '' match --field 0 missing
    run 2 '' $'x: no number of a field, from 1 on\n' '' match -k --field x missing
    run 2 '' $'18446744073709551616: no number of a field, from 1 on\n' '' match --field 18446744073709551616 missing missing missing
    run 2 '' $',,: more or less than one byte\n' '' match --field 1 --separator ,, missing
    run 2 '' $': more or less than one byte\n' '' match --field 1 --separator= missing
    run 2 '' $'\u00e9: more or less than one byte\n' '' match --field 1 --separator $'\u00e9' missing
    run 2 '' $'--separator: only with --field, see: netset help match\n' '' match --separator , ten
    run 2 '' $'--field: not with --any, see: netset help match\n' '' match --any --field 2 ten
    run 2 '' $'VALUE is missing, see: netset help match\n' '' match ten --field
    run 2 '' $'3: one argument too many, see: netset help match\n' '' match --field 2 --field 3 ten
}

# The longest networks of addresses.
rows_of_look_ups() {
    run 0 $'10.2.0.1 10.0.0.0/8 ten\n10.1.2.3 10.1.0.0/16 x  y \t; z\n192.0.2.7 192.0.2.7\n192.0.2.8 -\n2001:db8::1 2001:db8::/32 \xff#\n::1 ::/0 all\n' \
        '' '10.2.0.1\n10.1.2.3 and more\r\n\n # 10.1.2.3\n192.0.2.7#\n192.0.2.8 ;\n2001:DB8:0::1\n\t::1' look owners
    run 1 $'192.0.2.8 -\n' '' '192.0.2.8\n' look owners -
    run 0 $'192.0.2.8 -\n::1 ::/0 all\n' '' '192.0.2.8\n::1' look owners
    run 0 $'::1 ::/0 all\n192.0.2.8 -\n' '' '::1\n192.0.2.8' look owners
    run 1 '' '' '' look owners
    run 1 '' '' '\n;' look owners
    run 1 $'10.0.0.1 -\n' '' '10.0.0.1' look nothing
    run 0 $'10.0.0.1 10.0.0.0/8 room #5\n' '' '; all\n \t# more\n10.0.0.0/8\t room #5 \r\n' look - address
    run 0 $'10.0.0.1 10.0.0.1 http://x/#a;b\n' '' '10.0.0.1 http://x/#a;b\n10.0.0.0/8 ;' look - address
    run 0 $'10.0.0.1 10.0.0.0/8 ;\n' '' '10.0.0.0/8 ;\n;10.0.0.1 x' look - address
    run 2 '' $'-:1: 10.0.0.0/8#x: couldn\'t parse length in network: invalid length text\n' '10.0.0.0/8#x' look - address
    run 2 '' $'-:1: 10.0.0.0/8#x: couldn\'t parse length in network: invalid length text\n' '10.0.0.0/8#x' look -k - address
    run 0 $'10.0.0.1 10.0.0.0/8 x\n' '' '10.0.0.0/8 x' look - address
    run 2 $'10.2.0.1 10.0.0.0/8 ten\n192.0.2.8 -\n' $'-:4: 10.0.0.0/8: invalid IP address syntax\n' \
        '10.2.0.1\n192.0.2.8\n\n10.0.0.0/8\n10.0.0.1' look owners
    run 2 '' $'-:1: 010.0.0.1: a leading zero in an octet\n' '010.0.0.1' look owners
    run 2 $'10.2.0.1 10.0.0.0/8 ten\n' $'-:2: \\xff: not UTF-8\n' '10.2.0.1\n\xff 10.0.0.1' look owners
    run 2 '' $'bad:1: 10.0.0.0/x: couldn\'t parse length in network: invalid length text\n' '10.0.0.1' look bad
    run 2 '' $'-:2: 10.0.0.1/8: host bits set; the network is 10.0.0.0/8\n' '10.0.0.0/8 10.0.0.1/8\n10.0.0.1/8 x' look - address
    run 2 '' $'-:1: \\xff: not UTF-8\n' '\xff x' look - address
    run 2 '' $'missing: no such file\n' '' look missing bad
    run 2 '' $'missing: no such file\n' '' look owners missing
    run 2 '' $'.: is a directory\n' '' look owners .
    run 2 '' $'TABLE is missing, see: netset help look\n' '' look
    run 2 '' $'-: one argument too many, see: netset help look\n' '' look owners - -
    run 2 '' $'-x: no such option, see: netset help look\n' '' look -x
    run 1 '' '' '' look owners -k
}

# Lists that are files of Internet registries.
rows_of_records() {
    local v4='x|DE|ipv4|192.0.2.0' none='the field is missing or empty' count='no number of addresses from the first one on'
    printf '%s\n' '2|x|1|6|1|1|0' 'x|*|ipv4|*|2|summary' 'x|DE|ipv4|192.0.2.0|768|1|allocated' 'x|NL|asn|64500|1|1|assigned' \
        'x|FR|ipv6|2001:db8::|32|1|allocated' >"$room/delegated"
    run 0 $'192.0.2.0/23\n192.0.4.0/24\n2001:db8::/32\n' '' '' merge --form rir delegated
    run 0 $'192.0.2.0-192.0.4.255\n2001:db8::-2001:db8:ffff:ffff:ffff:ffff:ffff:ffff\n' '' '' ranges --form=rir delegated
    run 0 $'IPv4 768\nIPv6 79228162514264337593543950336\n' '' '' count --form rir delegated
    run 0 $'192.0.3.0/24\n192.0.4.0/24\n2001:db8::/32\n' '' "$v4|256|1|x\n" minus --form rir delegated -
    run 0 $'192.0.2.1\n' '' '192.0.2.1\n192.0.5.1\n' match --form rir delegated
    run 0 $'192.0.2.0/24\n' '' '' free --form rir delegated 24
    run 0 $'2.0.192.in-addr.arpa\n3.0.192.in-addr.arpa\n4.0.192.in-addr.arpa\n8.b.d.0.1.0.0.2.ip6.arpa\n' '' '' reverse --form rir delegated
    run 1 $'-192.0.4.0/24\n-2001:db8::/32\n' '' "$v4|512|1|x\n" diff --form rir delegated -
    run 0 $'0.0.0.0/0\n' '' '# all\r\n ;\n\nx||ipv4|0.0.0.0|4294967296|\r\n' merge --form rir
    run 0 $'255.255.255.255\n' '' ' x | DE | ipv4 | 255.255.255.255 | +1 | 1 ' merge --form rir
    run 0 $'192.0.2.0/24\n' '' 'x|DE|IPv4|192.0.2.0|256|1|ALLOCATED' merge --form rir
    run 0 '' '' '2.3|x|1|2|3|4|+0000\nx|DE|ASN|64500|1|1|allocated\nx||ipv4|192.0.2.0|768|1|available|\nx||ipv6|2001:db8::|32||Reserved' merge --form rir
    run 2 '' $'-:1: 192.0.2.0: not of the type of the record\n' 'x|DE|ipv6|192.0.2.0|24|1|allocated' merge --form rir
    run 2 '' $'-:1: 2001:db8::: not of the type of the record\n' 'x|DE|ipv4|2001:db8::|256|1|allocated' merge --form rir
    run 2 '' $'-:1: ipv5: neither ipv4, ipv6 nor asn\n' 'x|DE|ipv5|192.0.2.0|768|1|allocated' merge --form rir
    run 0 $'2001:db8::1\n' '' 'x|DE|ipv6|2001:db8::1|128|1' merge --form rir
    run 2 '' "-:1: $none"$'\n' '10.0.0.0/8' merge --form rir
    run 2 '' "-:1: $none"$'\n' "$v4" merge --form rir
    run 2 '' "-:1: 0: $count"$'\n' "$v4|0|1" merge --form rir
    run 2 '' "-:1: x: $count"$'\n' "$v4|x|1" merge --form rir
    run 2 '' "-:1: 2: $count"$'\n' 'x|DE|ipv4|255.255.255.255|2|1' merge --form rir
    run 2 '' "-:1: 18446744073709551616: $count"$'\n' "$v4|18446744073709551616|1" merge --form rir
    run 2 '' $'-:1: \\xff: not UTF-8\n' "$v4|\xff|1" merge --form rir
    run 2 '' $'-:1: 192.0.2: not four octets\n' 'x|DE|ipv4|192.0.2|768|1' merge --form rir
    run 2 '' $'-:1: 2001:db8::1/32: host bits set; the network is 2001:db8::/32\n' 'x|DE|ipv6|2001:db8::1|32|1' merge --form rir
    run 2 $'192.0.2.0/24\n' "-:2: $none"$'\n' "$v4|256|1\nx" merge --form rir --skip-bad
    run 2 '' "-:1: $none"$'\n'"-:3: 0: $count"$'\n' "x\n$v4|256|1\n$v4|0|1" merge --form rir -k
    run 2 '' $'--masks: not with --form, see: netset help merge\n' '' merge --masks --form rir
    run 2 '' $'--host-bits: not with --form, see: netset help free\n' '' free --host-bits --form rir - 24
    run 2 '' $'pfx2as: no such form of lists, but rir, see: netset help merge\n' '' merge --form pfx2as
    run 2 '' $'rir: no such form, but pfx2as, routes and routes6, see: netset help look\n' '' look --form rir missing
    run 2 '' $'--form: no such option, see: netset help acl\n' '' acl --form rir rules
}

# Tables whose rows have other forms.
rows_of_forms() {
    local quoted='quoted fields are not read' none='the field is missing or empty'
    local network="couldn't parse address in network: invalid IP address syntax" names='pfx2as, routes and routes6'
    # a byte between the network and the value
    run 0 $'10.0.0.1 10.0.0.0/8 AS64500,Example & Co.\n' '' '# net,as,name\n10.0.0.0/8,AS64500,Example & Co.\r\n\n' look --table-separator , - address
    run 0 $'10.0.0.1 10.0.0.0/8 "a, b"\n' '' ' 10.0.0.0/8 , "a, b" \n' look --table-separator=, - address
    run 0 $'10.0.0.1 10.0.0.0/8\n' '' '10.0.0.0/8' look --table-separator , - address
    run 0 $'10.0.0.1 10.0.0.0/8 ,\n' '' '10.0.0.0/8,,' look --table-separator , - address
    run 0 $'10.0.0.1 10.0.0.0/8 a;b\n' '' '# 10.0.0.0/8\n10.0.0.0/8;a;b' look --table-separator ';' - address
    run 0 $'10.0.0.1 10.0.0.0/8 a b\n' '' '10.0.0.0/8\ta b' look --table-separator $'\t' - address
    run 0 $'a,10.0.0.1,10.0.0.0/8,west\n' '' 'a,10.0.0.1' look --keep --field 2 --separator , --table-separator '|' parted
    run 2 '' $'-:2: 10.0.0.0/8 west: more than a network or an address\n' '\n10.0.0.0/8 west' look --table-separator , - address
    run 2 '' "-:1: \"10.0.0.0/8\": $quoted"$'\n' '"10.0.0.0/8",west' look --table-separator , - address
    run 2 '' "-:1: \"10.0.0.0/8\": $quoted"$'\n' '"10.0.0.0/8" west' look - address
    run 2 '' "-:1: $none"$'\n' ',west' look --table-separator , - address
    run 2 '' "-:1: $none"$'\n' ';10.0.0.0/8' look --table-separator ';' - address
    run 2 '' $'-:1: \\xff: not UTF-8\n' '\xff,west' look --table-separator , - address
    run 2 $'10.0.0.1 10.0.0.0/8 west\n' "-:2: x: $network"$'\n' '10.0.0.0/8,west\nx,east' look --skip-bad --table-separator , - address
    run 2 '' "-:2: x: $network"$'\n'"-:3: \"::/0\": $quoted"$'\n' '10.0.0.0/8,west\nx,east\n"::/0",all' look -k --table-separator , - address
    run 0 $'10.0.0.1 10.0.0.0/8 west\n' '' '10.0.0.1' look -k --table-separator '|' parted
    run 0 $'10.0.0.1 10.0.0.0/8 west\n' '' '10.0.0.7/8,west' look --host-bits --table-separator , - address
    run 0 $'10.0.0.1 10.0.0.0/8 west\n' '' '10.0.0.0 255.0.0.0,west' look --masks --table-separator , - address
    run 2 '' $'-:1: 10.0.0.0: the first address of a range, whose last one is the next field\n' '10.0.0.0,10.0.0.255,west' look --table-separator , - address
    run 2 '' $'-:1: 10.0.0.0: the first address of a range, whose last one is the next field\n' '10.0.0.0\t10.0.0.255\t64500\twest' look - address
    run 0 $'10.0.0.1 10.0.0.1 192.0.2.1\n' '' '10.0.0.1 192.0.2.1' look - address
    run 0 $'10.0.0.1 10.0.0.1 10.0.0.9\n' '' '10.0.0.1,10.0.0.9,west' look --table-separator , --table-fields 1,2 - address
    run 2 '' $',,: more or less than one byte, see: netset help look\n' '' look --table-separator ,, missing
    run 2 '' $': more or less than one byte, see: netset help compile\n' '' compile --table-separator= missing out
    run 2 '' $'\u00e9: more or less than one byte, see: netset help look\n' '' look --table-separator $'\u00e9' missing
    # two fields by their numbers
    run 0 $'10.0.0.1 10.0.0.0/8 west\n' '' 'west,10.0.0.0/8,x' look --table-separator , --table-fields 2,1 - address
    run 0 $'10.0.0.1 10.0.0.0/8 a b\n' '' ' x , 10.0.0.0/8 , a b \r\n# a,b\n' look --table-fields=2,3 --table-separator , - address
    run 0 $'10.0.0.1 10.0.0.0/8 west\n' '' '  a\twest 10.0.0.0/8 x' look --table-fields 3,2 - address
    run 0 $'10.0.0.1 10.0.0.0/8\n' '' 'west,10.0.0.0/8' look --table-separator , --table-fields 2,3 - address
    run 0 $'10.0.0.1 10.0.0.0/8 10.0.0.0/8\n' '' '10.0.0.0/8 west' look --table-fields 1,1 - address
    run 0 $'10.0.0.1 10.0.0.0/8 west\n' '' 'west 10.0.0.0/8' look --table-fields +2,01 - address
    run 0 $'10.0.0.1 10.0.0.0/8\n' '' '10.0.0.0/8 west' look --table-fields 1,18446744073709551615 - address
    run 0 $'10.0.0.1 10.0.0.0/8 west\n' '' 'west,10.0.0.7 255.0.0.0' look --masks --host-bits --table-separator , --table-fields 2,1 - address
    run 0 $'10.0.0.1 10.0.0.0/8 west\n' '' 'site net\nwest 10.0.0.0/8' look --table-header --table-fields 2,1 - address
    run 0 $'a 10.0.0.1 10.0.0.0/8 west\n' '' 'a 10.0.0.1' look --keep --field 2 --table-separator '|' --table-fields 1,2 parted
    run 2 '' $'-:1: \\xff: not UTF-8\n' '\xff 10.0.0.0/8' look --format json --table-fields 2,1 - address
    run 2 '' "-:2: $none"$'\n' 'west,10.0.0.0/8\nwest' look --table-separator , --table-fields 2,1 - address
    run 2 '' "-:1: $none"$'\n' 'west, ,10.0.0.0/8' look --table-separator , --table-fields 2,1 - address
    run 2 '' "-:1: $none"$'\n' '10.0.0.0/8 west' look --table-fields 18446744073709551615,1 - address
    run 2 '' "-:1: \"10.0.0.0/8\": $quoted"$'\n' 'west,"10.0.0.0/8"' look --table-separator , --table-fields 2,1 - address
    run 2 '' "-:1: west: $network"$'\n' 'west 10.0.0.0/8' look --table-fields 1,2 - address
    run 0 '' '' 'west,10.0.0.0/8' compile --table-separator , --table-fields 2,1 - compiled_fields
    run 0 $'10.0.0.1 10.0.0.0/8 west\n' '' '10.0.0.1' look --table-fields 2,1 compiled_fields
    run 0 '' '' 'west 10.0.0.0/8 x' same --table-fields 2,1 - placed
    run 1 $'-10.0.0.0/8 east\n+10.0.0.0/8 west\n' '' 'east 10.0.0.0/8' same --table-fields 2,1 - placed
    run 0 $'10.0.0.0/8 a\n' '' 'a 10.0.0.0/9 x\na 10.128.0.0/9 y' smallest --table-fields 2,1 -
    local numbers
    for numbers in '' , 2 2, ,1 0,1 1,0 2,1,3 a,1 2,a '2, 1' -2,1 18446744073709551616,1 1,18446744073709551616; do
        run 2 '' "$numbers: not the numbers of two fields, see: netset help look"$'\n' '' look --table-fields="$numbers" missing
    done
    run 2 '' $',,: more or less than one byte, see: netset help same\n' '' same --table-separator ,, --table-fields 0,1 missing missing
    run 2 '' $'--table-fields: not with --form, see: netset help look\n' '' look --table-fields 2,1 --form routes missing
    run 2 '' $'--table-separator: not with --form, see: netset help look\n' '' look --table-fields 2,1 --form routes --table-separator , missing
    run 2 '' $'--table-fields: no such option, see: netset help match\n' '' match --table-fields 2,1 missing
    # an address and its prefix length
    run 0 $'10.0.0.1 10.0.0.0/8 64500_64501\n2001:db8::1 2001:db8::/32 64502\n' '' '10.0.0.1\n2001:db8::1' look --form pfx2as origins
    run 0 $'10.0.0.1 10.0.0.0/8\n' '' ' 10.0.0.0  8 \r\n# x\n' look --form pfx2as - address
    run 0 $'10.0.0.1 10.0.0.0/8 west\n' '' '10.0.0.0 255.0.0.0 west' look --masks --form pfx2as - address
    run 0 $'10.0.0.1 10.0.0.0/8 west\n' '' '10.0.0.7 8 west' look --host-bits --form=pfx2as - address
    run 2 '' $'-:1: 10.0.0.7/8: host bits set; the network is 10.0.0.0/8\n' '10.0.0.7 8 west' look --form pfx2as - address
    run 2 '' $'-:1: 10.0.0.0/8: invalid IP address syntax\n' '10.0.0.0/8 west' look --form pfx2as - address
    run 2 '' "-:2: $none"$'\n' '10.0.0.0 8\n10.0.0.0' look --form pfx2as - address
    run 2 '' $'-:1: 10.0.0.0/x: couldn\'t parse length in network: invalid length text\n' '10.0.0.0 x' look --form pfx2as - address
    run 2 '' $'-:1: 0000000000000000000000000000000000000000..: no prefix length\n' '10.0.0.0 0000000000000000000000000000000000000000000008 x' look --form pfx2as - address
    run 0 '' '' '' compile --form pfx2as origins compiled_origins
    run 0 $'10.0.0.1 10.0.0.0/8 64500_64501\n' '' '10.0.0.1' look --form routes compiled_origins
    # routes
    run 0 $'10.0.0.1 10.0.0.0/8 dev eth0\n11.0.0.1 0.0.0.0/0 via 192.0.2.1 dev eth0\n192.0.2.1 192.0.2.1 dev eth1\n' '' \
        'default via 192.0.2.1 dev eth0\n10.0.0.0/8 dev eth0\n192.0.2.1 dev eth1 \n' look --form routes - asked
    run 0 $'2001:db8::1 ::/0 dev eth0\n' '' '2001:db8::1' look --form routes6 defaults
    run 1 $'2001:db8::1 -\n' '' '2001:db8::1' look --form routes defaults
    run 2 '' "-:1: unreachable: $network"$'\n' 'unreachable 10.0.0.0/8' look --form routes - address
    run 2 '' "defaults:1: default: $network"$'\n' '10.0.0.1' look defaults
    # which form
    run 2 '' "csv: no such form, but $names, see: netset help look"$'\n' '' look --form csv missing
    run 2 '' "Routes: no such form, but $names, see: netset help compile"$'\n' '' compile --form Routes missing out
    run 2 '' $'--table-separator: not with --form, see: netset help look\n' '' look --table-separator , --form routes missing
    run 2 '' $'routes6: one argument too many, see: netset help look\n' '' look --form routes --form routes6 missing
    run 2 '' $'routes: no such form of lists, but rir, see: netset help match\n' '' match --form routes missing
}

# Tables whose first line is a header.
rows_of_headed_tables() {
    local network="couldn't parse address in network: invalid IP address syntax" found=$'10.0.0.1 10.0.0.0/8 west\n'
    run 0 "$found" '' 'network,name\n10.0.0.0/8,west\n' look --table-header --table-separator , - address
    run 0 "$found" '' '"network","name"\r\n10.0.0.0/8,west\r\n' look --table-header --table-separator , - address
    run 0 "$found" '' '\xef\xbb\xbf\xff\n10.0.0.0/8 west' look - --table-header address
    run 0 "$found" '' 'x\n10.0.0.0/8 west' look --table-header --table-separator ' ' - address
    run 0 "$found" '' 'x\n10.0.0.0 8 west' look --table-header --form pfx2as - address
    run 0 "$found" '' 'x\n10.0.0.0/8 west' look --table-header --form routes - address
    run 0 '{"address":"10.0.0.1","value":"west","network":"10.0.0.0/8","first":"10.0.0.0","last":"10.255.255.255","length":8,"family":"IPv4"}'$'\n' '' \
        '\xff\n10.0.0.0/8 west' look --table-header --format json - address
    # the first line is none of the table, whatever it says
    run 1 $'10.0.0.1 -\n' '' '10.0.0.0/8 west' look --table-header - address
    run 1 $'10.0.0.1 -\n' '' '10.0.0.0/8 west\n' look --table-header - address
    run 1 $'10.0.0.1 -\n' '' '' look --table-header - address
    run 0 "$found" '' '\n10.0.0.0/8 west' look --table-header - address
    run 1 $'10.0.0.1 -\n11.0.0.1 -\n192.0.2.1 -\n' '' '10.0.0.0/8 west' look --table-header - asked
    # the file that is looked up has a header of its own
    run 2 '' $'-:1: ip: invalid IP address syntax\n' 'ip\n10.0.0.1' look --table-header headed
    run 0 "$found" '' 'ip\n10.0.0.1' look --table-header --header headed
    run 0 $'ip\n10.0.0.1 10.0.0.0/8 west\n' '' 'ip\n10.0.0.1' look --keep --header --table-header headed
    # it goes by the name
    run 2 '' $'headed:2: 10.0.0.0/8: invalid IP address syntax\n' '' look --table-header headed headed
    run 2 '' $'./headed:1: net: invalid IP address syntax\n' '' look --table-header headed ./headed
    # the lines behind it keep their numbers
    run 2 '' "-:2: x: $network"$'\n' 'x\nx y\n10.0.0.0/8 west\nz' look --table-header - address
    run 2 '' "-:2: x: $network"$'\n'"-:4: z: $network"$'\n' 'x\nx y\n10.0.0.0/8 west\nz' look -k --table-header - address
    run 2 "$found" "-:2: x: $network"$'\n'"-:4: z: $network"$'\n' 'x\nx y\n10.0.0.0/8 west\nz' look --skip-bad --table-header - address
    run 0 "$found" '' '10.0.0.1' look -k --table-header headed
    run 0 "$found" '' '10.0.0.1' look --skip-bad --table-header headed
    run 2 '' "headed:1: net: $network"$'\n' '10.0.0.1' look headed
    run 2 '' "headed:1: net: $network"$'\n' '10.0.0.1' look --header headed
    run 2 '' $'missing: no such file\n' '' look --table-header missing
    run 2 '' $'.: is a directory\n' '' look --table-header .
    # the other commands
    run 0 '' '' '' compile --table-header headed compiled_headed
    run 0 "$found" '' '10.0.0.1' look compiled_headed
    run 2 '' "headed:1: net: $network"$'\n' '' compile headed compiled_headed
    run 0 "$found" '' '10.0.0.1' look compiled_headed
    run 2 '' "-:2: x: $network"$'\n'"-:3: y: $network"$'\n' '10.0.0.0/8\nx\ny' compile -k --table-header - compiled_headed
    run 2 '' $'headed: the same file as TABLE\n' '' compile --table-header headed headed
    run 0 '' '' 'header\n10.0.0.0/8 west' same --table-header headed -
    run 1 $'-10.0.0.0/8 west\n' '' '10.0.0.0/8 west' same --table-header headed -
    run 1 $'+10.0.0.0/8 west\n' '' '10.0.0.0/8 west' same --table-header - headed
    run 2 '' "headed:1: net: $network"$'\n' '10.0.0.0/8 west' same - headed
    run 2 '' "-:2: x: $network"$'\n' '10.0.0.0/8 west\nx' same -k --table-header - headed
    run 2 $'+10.0.0.0/8 west\n' "-:2: x: $network"$'\n' '10.0.0.0/8 west\nx' same --skip-bad --table-header - headed
    run 0 $'10.0.0.0/8 west\n' '' '10.0.0.0/9 east\n10.0.0.0/9 west\n10.128.0.0/9 west' smallest --table-header -
    run 0 $'10.0.0.0/8 west\n' '' '' smallest --holes --table-header headed
    run 0 '' '' '10.0.0.0/8 -' smallest --holes --table-header -
    run 0 '' '' '' smallest --table-header headed -o told
    has "$room/told" $'10.0.0.0/8 west\n' || differs=1
    run 2 '' "-:2: x: $network"$'\n' '10.0.0.0/8 west\nx' smallest -k --table-header -
    # the words
    run 2 '' $'--table-header: no such option, see: netset help match\n' '' match --table-header missing
    run 2 '' $'--table-header=x: no such option, see: netset help look\n' '' look --table-header=x missing
    run 2 '' $'--table-header: no such option, see: netset help merge\n' '' merge --table-header missing
}

# The same as objects of JSON, each put together by hand.
rows_of_objects() {
    local ten='"network":"10.0.0.0/8","first":"10.0.0.0","last":"10.255.255.255","length":8,"family":"IPv4"}'
    local none='"value":null,"network":null}' found plain
    run 0 '{"address":"10.0.0.1","value":"west",'"$ten"$'\n' '' '10.0.0.0/8 west' look --format json - address
    run 0 '{"address":"10.0.0.1","value":"",'"$ten"$'\n' '' '10.0.0.0/8' look --format json - address
    run 0 '{"address":"10.0.0.1","value":"a \"b\" \\ c\u0009d é",'"$ten"$'\n' '' '10.0.0.0/8 a "b" \\ c\td é' look --format json - address
    run 0 $'10.0.0.1 10.0.0.0/8 west\n' '' '10.0.0.0/8 west' look --format plain - address
    run 1 '{"address":"11.0.0.1",'"$none"$'\n' '' '11.0.0.1' look --format json --table-separator '|' parted
    run 1 '' '' '\n# 10.0.0.1\n' look --format json --table-separator '|' parted
    run 0 '{"address":"10.0.0.1","value":"west",'"$ten"$'\n' '' 'a 10.0.0.1:80\nb' look --any --format json --table-separator '|' parted
    run 0 '{"address":"10.0.0.1","value":"west",'"$ten"$'\n' '' 'a,10.0.0.1' look --field 2 --separator , --format=json --table-separator '|' parted
    found='{"address":"10.0.0.1","value":"64500_64501",'"$ten"$'\n{"address":"11.0.0.1",'"$none"$'\n'
    found+='{"address":"2001:db8::1","value":"64502","network":"2001:db8::/32","first":"2001:db8::",'
    found+=$'"last":"2001:db8:ffff:ffff:ffff:ffff:ffff:ffff","length":32,"family":"IPv6"}\n'
    run 0 "$found" '' '10.0.0.1\n\n# x\n11.0.0.1 y\r\n2001:DB8::1' look --form pfx2as --format json origins
    run 0 '' '' '' compile --form pfx2as origins compiled_origins
    run 0 "$found" '' '10.0.0.1\n\n# x\n11.0.0.1 y\r\n2001:DB8::1\n' look --format json compiled_origins
    # lines in error
    run 2 '{"address":"11.0.0.1",'"$none"$'\n' $'-:2: x: invalid IP address syntax\n' '11.0.0.1\nx\n10.0.0.1' look --format json --table-separator '|' parted
    run 2 '' $'owners:7: \\xff#: not UTF-8\n' '10.2.0.1' look --format json owners
    run 2 '' $'owners:7: \\xff#: not UTF-8\n' '10.2.0.1' look -k --format json owners
    run 2 '{"address":"10.2.0.1","value":"ten",'"$ten"$'\n' $'owners:7: \\xff#: not UTF-8\n' '10.2.0.1' look --skip-bad --format json owners
    run 0 '' '' '' compile owners compiled_owners
    run 2 '' $'compiled_owners:2: \\xff#: not UTF-8\n' '10.2.0.1' look --format json compiled_owners
    run 0 $'10.2.0.1 10.0.0.0/8 ten\n' '' '10.2.0.1' look compiled_owners
    # behind a header
    run 0 '{"address":"10.0.0.1","value":"west",'"$ten"$'\n' '' 'ip\n10.0.0.1' look --header --format json --table-separator '|' parted
    run 2 '{"address":"10.0.0.1","value":"west",'"$ten"$'\n' $'-:3: x: invalid IP address syntax\n' 'ip\n10.0.0.1\nx' look --header --format json --table-separator '|' parted
    run 1 '' '' '10.0.0.1' look --header --format json --table-separator '|' parted
    # which format
    run 2 '' $'nft: no such format, but plain and json, see: netset help look\n' '' look --format nft missing
    run 2 '' $'json: one argument too many, see: netset help look\n' '' look --format plain --format json missing
    run 2 '' $'--keep: not with the format json, see: netset help look\n' '' look --keep --format json missing
    run 0 $'10.0.0.1 x 10.0.0.0/8 west\n' '' '10.0.0.1 x' look --keep --format plain --table-separator '|' parted
    run 2 '' $'--format: no such option, see: netset help match\n' '' match --format json missing
    if command -v jq >/dev/null; then
        plain=$("$program" look --form pfx2as "$room/origins" "$room/asked")
        [[ $("$program" look --form pfx2as --format json "$room/origins" "$room/asked" |
            jq -r 'if .network then "\(.address) \(.network) \(.value)" else "\(.address) -" end') == "$plain" ]] ||
            { differs=1; echo "$build: jq reads other look-ups" >&2; }
    fi
}

# The same of a field, of the first address of a line, and behind the lines.
rows_of_kept_lines() {
    local none=': the field is missing or empty' lab='192.0.2.64/26 lab'
    # a field
    run 0 $'10.2.0.1 10.0.0.0/8 ten\n192.0.2.8 -\n' '' 'a 10.2.0.1 b\n\n# x 10.0.0.1\n \t;\nb\t192.0.2.8' look --field 2 owners
    run 0 $'10.2.0.1 10.0.0.0/8 ten\n' '' '10.2.0.1 # 11.0.0.1' look --field 1 owners
    run 2 '' $'-:1: 10.2.0.1#: invalid IP address syntax\n' '10.2.0.1# x' look --field 1 owners
    run 0 $'10.2.0.1 10.0.0.0/8 ten\n' '' '10.2.0.1# x' look owners
    run 0 $'10.2.0.1 10.0.0.0/8 ten\n::1 ::/0 all\n' '' 'a,,\t10.2.0.1 ,x\r\n,,::1\r\n' look --field=3 --separator=, owners
    run 0 $'10.2.0.1 10.0.0.0/8 ten\n' '' '##10.2.0.1#' look --field 3 --separator '#' owners
    run 2 $'10.2.0.1 10.0.0.0/8 ten\n' "-:2$none"$'\n' 'a 10.2.0.1\na\na 10.2.0.1' look --field 2 owners
    run 2 '' "-:1$none"$'\n' 'a,, 10.2.0.1' look --field 2 --separator , owners
    run 2 $'10.2.0.1 10.0.0.0/8 ten\n' $'-:2: x: invalid IP address syntax\n' 'a 10.2.0.1\na x' look --field 2 owners
    run 2 '' $'-:1: 10.0.0.0/8: invalid IP address syntax\n' 'a 10.0.0.0/8' look --field 2 owners
    run 2 '' $'-:1: \\xff: not UTF-8\n' 'a,\xff' look --field 2 --separator , owners
    # lines that are kept
    run 0 $'2026-11-26,192.0.2.70,GET /,192.0.2.64/26,lab\n' '' "$lab" look --keep --field 2 --separator , - kept_csv
    run 0 $'2026-11-26 192.0.2.70 GET / 192.0.2.64/26 lab\n' '' "$lab" look --keep --field 2 - kept_log
    run 0 $'# a,b\n\n10.2.0.1,x ,10.0.0.0/8,ten\n192.0.2.8,\n192.0.2.7,,192.0.2.7\n' '' \
        '# a,b\n\n10.2.0.1,x \n192.0.2.8,\n192.0.2.7,' look --keep --field 1 --separator , owners
    run 0 $'10.2.0.1 # x 10.0.0.0/8 ten\n\t::1 ::/0 all\n' '' '10.2.0.1 # x\n\t::1' look --keep owners
    run 0 $'10.2.0.1 a 10.0.0.0/8 ten\r\n\r\n192.0.2.8\r\n10.2.0.1\r  10.0.0.0/8 ten\n' '' \
        '10.2.0.1 a\r\n\r\n192.0.2.8\r\n10.2.0.1\r \n' look --keep owners
    run 1 $'192.0.2.8\n' '' '192.0.2.8' look --keep owners
    run 1 '' '' '' look --keep owners
    run 1 $'\n\n' '' '\n\n' look --keep owners
    run 2 $'10.2.0.1 10.0.0.0/8 ten\n\n' $'-:3: x: invalid IP address syntax\n' '10.2.0.1\n\nx\n10.2.0.1' look --keep owners
    run 2 $'10.2.0.1 10.0.0.0/8 ten\n' $'-:2: x: invalid IP address syntax\n' '10.2.0.1\nx' look --keep owners
    run 2 $'a 10.2.0.1 10.0.0.0/8 ten\n' "-:2$none"$'\n' 'a 10.2.0.1\na' look --keep --field 2 owners
    run 0 $'::1 x ::/0 all\n' '' '::1 x' look -k --keep owners
    # a header has no address, and is kept
    run 0 $'ip,n\n10.2.0.1,a,10.0.0.0/8,ten\n' '' 'ip,n\n10.2.0.1,a' look --header --keep --field 1 --separator , owners
    run 0 $'ip\r\n10.2.0.1 10.0.0.0/8 ten\r\n' '' 'ip\r\n10.2.0.1\r\n' look --header --keep owners
    run 0 $'10.2.0.1 10.0.0.0/8 ten\n' '' 'ip,n\n10.2.0.1,a' look --header --field 1 --separator , owners
    run 0 $'10.2.0.1 10.0.0.0/8 ten\n' '' '::1\n10.2.0.1' look --header --any owners
    run 1 $'10.2.0.1\n192.0.2.8\n' '' '10.2.0.1\n192.0.2.8' look --header --keep owners
    run 1 $'10.2.0.1\n' '' '10.2.0.1' look --header --keep owners
    run 1 $'10.2.0.1\n' '' '10.2.0.1\n' look --header --keep owners
    run 1 $'\n' '' '\n' look --header --keep owners
    run 1 '' '' '' look --header --keep owners
    run 1 '' '' '10.2.0.1' look --header owners
    run 1 '' '' '10.2.0.1\n' look --header owners
    run 1 '' '' '' look --header owners
    run 2 $'ip\n10.2.0.1 10.0.0.0/8 ten\n' $'-:3: x: invalid IP address syntax\n' 'ip\n10.2.0.1\nx' look --header --keep owners
    run 2 $'10.2.0.1 10.0.0.0/8 ten\n' $'-:3: x: invalid IP address syntax\n' 'ip\n10.2.0.1\nx' look --header owners
    run 2 '' $'-:2: x: invalid IP address syntax\n' 'ip\nx' look --header owners
    run 2 '' $'missing: no such file\n' '' look --header --keep owners missing
    # the first address of a line
    run 0 $'10.2.0.1 10.0.0.0/8 ten\n2001:db8::1 2001:db8::/32 \xff#\n192.0.2.8 -\n::1 ::/0 all\n::ffff:10.2.0.1 ::/0 all\n10.2.0.1 10.0.0.0/8 ten\n10.2.0.1 10.0.0.0/8 ten\n' '' \
        'src=10.2.0.1:80 dst=192.0.2.8\nno [2001:db8::1]:22, 10.2.0.1\n# 192.0.2.8.\nx10.2.0.1 1.10.2.0.1 ::1/64\n::ffff:10.2.0.1\n1:10.2.0.1: 192.0.2.8\nip:10.2.0.1...\nnone\n' look --any owners
    run 0 $'src=10.2.0.1:80 dst=192.0.2.8 10.0.0.0/8 ten\nnone\n\n192.0.2.8, 10.2.0.1\nfrom ::1 ::/0 all\r\n' '' \
        'src=10.2.0.1:80 dst=192.0.2.8\nnone\n\n192.0.2.8, 10.2.0.1\nfrom ::1\r\n' look --any --keep owners
    run 1 '' '' 'none\n10.2.0\n' look --any owners
    # the arguments
    run 2 '' $'0: no number of a field, from 1 on\n' '' look --field 0 missing missing
    run 2 '' $'x: no number of a field, from 1 on\n' '' look -k --field x missing
    run 2 '' $',,: more or less than one byte\n' '' look --field 1 --separator ,, missing
    run 2 '' $'--separator: only with --field, see: netset help look\n' '' look --keep --separator , owners
    run 2 '' $'--field: not with --any, see: netset help look\n' '' look --any --field 2 owners
    run 2 '' $'-v: no such option, see: netset help look\n' '' look -v owners
    run 2 '' $'--keep: no such option, see: netset help match\n' '' match --keep ten
}

# The lines of a file with an address of a list anywhere.
rows_of_logs() {
    local found missed
    found=$'10.0.0.1\n  src=10.0.0.1,x\n(10.0.0.1)\nto 10.0.0.1:80: no\nip:10.0.0.1...\n10.1.0.0/7 \xff\n::ffff:10.2.3.4\n'
    run 0 "$found" '' "$found" match --any ten
    missed=$'\n11.0.0.1\n1.10.0.0.1\n10.0.0.1.5\n010.0.0.1\nx10.0.0.1\n10.0.0.1x\n10.0.0.256\n10.0.0\n....\n#\n10:11:12\n::1\n'
    run 1 '' '' "$missed" match --any ten
    run 0 "$missed" '' "$found$missed" match --any -v ten
    found=$'[8000::1]:443\nfrom 8000::1: no\n8000::1.\n8000::1%eth0,\n10.0.0.1-8000::/48\n8000:::\nFFFF::10.0.0.1\n'
    run 0 "$found" '' "$found" match --any eight
    missed=$'x:8000::1\n8000::1:x\n8000::1::\n8000:1\n10:11:12\n7fff::1\n10.0.0.1\n8000::g\n:\n::\n'
    run 1 '' '' "$missed" match --any eight
    run 0 $'10\n' '' "$found$missed" match -c -v --any eight
    run 0 $'2\n' '' '10.0.0.1\n8000::1 \n11.0.0.1 7fff::1' match -c --any ten_and_eight
    run 0 $'11.0.0.1 10.0.0.1\n' '' '11.0.0.1 10.0.0.1' match --any ten
    run 0 '' '' '\xff\n11.0.0.1 10.0.0.1\n' match --any -q ten -
    run 1 '' '' '' match --any ten
    run 1 '' '' '10.0.0.1\n' match -v --any ten
    run 2 '' $'bad:1: 10.0.0.0/x: couldn\'t parse length in network: invalid length text\n' '' match --any bad missing
    run 2 '' $'missing: no such file\n' '' match --any ten missing
    run 1 '' '' '' match ten --any
    run 2 '' $'--anywhere: no such option, see: netset help match\n' '' match --anywhere ten
    run 2 '' $'LIST is missing, see: netset help match\n' '' match --any
}

# The commands on one host or network.
rows_of_one_network() {
    run 0 $'network 192.0.2.0/24\nfirst 192.0.2.0\nlast 192.0.2.255\nmask 255.255.255.0\nhostmask 0.0.0.255\nlength 24\nfamily IPv4\nusable 192.0.2.1-192.0.2.254\nname 7.2.0.192.in-addr.arpa\nclass 192.0.2.0/24 Documentation RFC5737 not-global 2025-05\n' \
        '' '' show 192.0.2.7/24
    run 0 $'network ::1\nfirst ::1\nlast ::1\nmask ffff:ffff:ffff:ffff:ffff:ffff:ffff:ffff\nhostmask ::\nlength 128\nfamily IPv6\nusable ::1\nname 1.0.0.0.0.0.0.0.0.0.0.0.0.0.0.0.0.0.0.0.0.0.0.0.0.0.0.0.0.0.0.0.ip6.arpa\nclass ::1 Loopback RFC4291 not-global 2025-05\n' \
        '' '' show ::1
    run 0 $'network 10.0.0.2/31\nfirst 10.0.0.2\nlast 10.0.0.3\nmask 255.255.255.254\nhostmask 0.0.0.1\nlength 31\nfamily IPv4\nusable 10.0.0.2-10.0.0.3\nname 3.0.0.10.in-addr.arpa\nclass 10.0.0.0/8 Private-Use RFC1918 not-global 2025-05\n' \
        '' '' show 10.0.0.3/31
    run 2 '' $'192.0.2.7/33: invalid length for network: Network length 33 is too long for Ipv4 (maximum: 32)\n' '' show 192.0.2.7/33
    run 0 $'192.0.2.0/26\n192.0.2.64/26\n192.0.2.128/26\n192.0.2.192/26\n' '' '' split 192.0.2.0/24 26
    run 0 $'0.0.0.0\n' '' '' split 0.0.0.0/32 32
    run 2 '' $'23: no prefix length inside the network\n' '' split 192.0.2.0/24 23
    run 2 '' $'33: no prefix length inside the network\n' '' split 192.0.2.0/24 33
    run 2 '' $'x: no prefix length inside the network\n' '' split 192.0.2.0/24 x
    run 2 '' $'192.0.2.1/24: no network and no address, and no file that can be read\n' '' split 192.0.2.1/24 26
    run 2 '' $'x: no prefix length inside the network\n' '' split 192.0.2.1/24 x
    run 0 $'10.0.0.0/9\n10.128.0.0/9\n::/9\n' '' '10.0.0.0/9\n::/9\n10.128.0.0/9\n11.0.0.0/10' split - 9
    run 1 '' '' '10.0.0.0/9' split - 8
    run 2 '' $'129: no prefix length inside the network\n' '' split missing 129
    run 2 '' $'-:1: x: couldn\'t parse address in network: invalid IP address syntax\n' 'x' split - 9 -k
    run 2 '' $'129: no prefix length inside the network\n' 'x' split - 129 -k
    run 2 '' $'129: no prefix length inside the network\n' 'x' split - 129 --skip-bad
    run 0 $'192.0.2.255\n' '' '' nth 192.0.2.0/24 255
    run 1 '' '' '' nth 192.0.2.0/24 256
    run 0 $'ffff:ffff:ffff:ffff:ffff:ffff:ffff:ffff\n' '' '' nth ::/0 340282366920938463463374607431768211455
    run 2 '' $'340282366920938463463374607431768211456: no index below 2^128\n' '' nth ::/0 \
        340282366920938463463374607431768211456
    run 2 '' $'-1: no index below 2^128\n' '' nth ::/0 -- -1
    run 2 '' $'-1: no such option, see: netset help nth\n' '' nth ::/0 -1
    run 2 '' $'HOST is missing, see: netset help show\n' '' show
    run 2 '' $'LEN is missing, see: netset help split\n' '' split 192.0.2.0/24
    run 2 '' $'2: one argument too many, see: netset help nth\n' '' nth 192.0.2.0/24 1 2
}

# Host bits of the networks of lists, set and cleared.
rows_of_host_bits() {
    local host=$'host bits set; the network is 10.0.0.0/8\n'
    run 0 $'10.0.0.0/8\n192.0.2.1\n192.0.2.2\n192.0.2.4/30\n2001:db8::/32\n' '' \
        '2001:DB8::5/32 # x\n10.0.0.7/8\n10.1.2.3/8\n192.0.2.1\n192.0.2.2/32\n192.0.2.4-192.0.2.7' merge --host-bits
    run 0 $'0.0.0.0/0\n::/0\n' '' '255.255.255.255/0\n::1/0\n' nets --host-bits --host-bits -
    run 0 $'10.128.0.0/9\n' '' '10.1.2.3/9\n' minus --host-bits ten -
    run 0 $'10.0.0.0/9\n' '' '10.1.2.3/9\n' and --host-bits ten -
    run 0 $'10.128.0.0/9\n' '' '10.1.2.3/9\n' not --host-bits --in 10.0.0.0/8
    run 1 $'-10.128.0.0/9\n' '' '10.1.2.3/9\n' diff --host-bits ten -
    run 0 $'10.128.0.0/26\n' '' '10.1.2.3/9\n' free --host-bits ten 26 -
    run 0 $'10.1.0.0-10.1.255.255\n' '' '10.1.2.3/16\n' ranges --host-bits
    run 0 $'IPv4 256\nIPv6 0\n' '' '10.1.2.3/24\n10.1.2.4/24' count --host-bits
    run 0 $'11.0.0.1\n' '' '10.0.0.1\n11.0.0.1' match --host-bits -v hosts
    run 2 '' "-:1: 10.0.0.1/8: $host" '10.0.0.1/8' match --host-bits hosts
    run 0 $'10.0.0.1 10.0.0.0/8\n' '' '10.0.0.1' look --host-bits hosts
    run 2 '' "hosts:1: 10.0.0.7/8: $host" '' look hosts
    run 2 '' "hosts:1: 10.0.0.7/8: $host" '' match hosts
    run 2 '' "-:2: 10.0.0.7/8: $host" '10.0.0.0/8\n10.0.0.7/8' merge
    run 2 '' "10.0.0.1/8: $host" '' not --host-bits --in 10.0.0.1/8
    run 2 '' $'-:1: 10.0.0.7/33: invalid length for network: Network length 33 is too long for Ipv4 (maximum: 32)\n' '10.0.0.7/33' merge --host-bits
    run 2 '' $'-:2: 010.0.0.7/8: a leading zero in an octet\n' '10.0.0.7/8\n010.0.0.7/8' merge --host-bits
    run 2 '' $'-:1: 10.0.0.7/8: invalid IP address syntax\n' '10.0.0.7/8-10.0.0.9' merge --host-bits
    run 2 '' $'-:1: \\xff: not UTF-8\n' '\xff' merge --host-bits
    run 2 '' $'--host-bits: no such option, see: netset help check\n' '' check --host-bits
    run 2 '' $'--host-bits: no such option, see: netset help show\n' '' show --host-bits ::1
    run 2 '' $'--host-bits: no such option, see: netset help show\n' '' show --host-bits
    run 2 '' $'--host-bits: no such option, see: netset help help\n' '' --help --host-bits
    run 2 '' $'--host-bits: no such command, see: netset help\n' '' --host-bits merge
    run 0 $'10.0.0.0/8\n' '' '' merge ten --host-bits
    run 1 '' '' '' match -v --host-bits ten
    run 2 '' $'B is missing, see: netset help minus\n' '' minus --host-bits ten
}

# Masks in place of prefix lengths in lists: network masks and host masks, behind a slash or white space.
rows_of_masks() {
    local other=$'no contiguous mask of its family\n' more=$'more than a network or an address\n'
    local host=$'host bits set; the network is 10.0.0.0/8\n' none=$'couldn\'t parse address in network: invalid IP address syntax\n'
    local length=$'couldn\'t parse length in network: invalid length text\n'
    run 0 $'10.0.0.0/8\n172.16.0.0/12\n192.0.2.0/24\n192.168.0.0/16\n' '' \
        '192.0.2.0/255.255.255.0\n10.0.0.0 255.0.0.0\n192.168.0.0/0.0.255.255\n172.16.0.0 \t 0.15.255.255 # ours\r\n' merge --masks
    run 0 $'2001:db8::/32\n2001:dba::/32\n' '' \
        '2001:db8::/ffff:ffff::\n2001:dba:: ::ffff:ffff:ffff:ffff:ffff:ffff' merge --masks
    run 0 $'10.0.0.0/30\n192.0.2.0/24\n' '' \
        '192.0.2.0/25\n192.0.2.128 - 192.0.2.254\n192.0.2.255\n\n10.0.0.0\t255.255.255.254\n10.0.0.2 0.0.0.1;x' merge --masks
    run 0 $'192.0.2.1\n' '' '192.0.2.1 255.255.255.255' merge --masks
    run 0 $'0.0.0.0/0\n' '' '0.0.0.0/0.0.0.0' merge --masks
    run 0 $'0.0.0.0\n' '' '0.0.0.0 255.255.255.255' merge --masks
    run 0 $'192.0.2.0/31\n' '' '192.0.2.0 0.0.0.1' merge --masks
    run 0 $'128.0.0.0/1\n' '' '128.0.0.0 127.255.255.255' merge --masks
    run 2 '' "-:1: 10.0.0.7 255.0.0.0: $host" '10.0.0.7 255.0.0.0' merge --masks
    run 2 '' "-:2: 10.0.0.7/0.255.255.255: $host" '\n10.0.0.7/0.255.255.255' merge --masks
    run 2 '' $'-:1: 10.0.0.1 0.0.0.0: /0 by a network mask, 10.0.0.1 by a wildcard\n' '10.0.0.1 0.0.0.0' merge --masks
    run 2 '' $'-:1: 10.0.0.1 0.0.0.0: /0 by a network mask, 10.0.0.1 by a wildcard\n' 'permit 10.0.0.1 0.0.0.0' acl --masks --host-bits -
    run 2 '' $'-:1: 2001:db8::1/ffff:ffff::: host bits set; the network is 2001:db8::/32\n' '2001:db8::1/ffff:ffff::' merge --masks
    run 2 '' "-:1: 10.0.0.7/8: $host" '10.0.0.7/8' merge --masks
    run 2 '' "-:1: 192.0.2.0 255.0.255.0: $other" '192.0.2.0 255.0.255.0' merge --masks
    run 2 '' "-:1: 192.0.2.0/0.255.0.255: $other" '192.0.2.0/0.255.0.255' merge --masks
    run 2 '' "-:1: 192.0.2.0 ffff:ffff::: $other" '192.0.2.0 ffff:ffff::' merge --masks
    run 2 '' "-:1: 192.0.2.0/ffff:ffff::: $length" '192.0.2.0/ffff:ffff::' merge --masks
    run 2 '' "-:1: 2001:db8::/255.0.0.0: $length" '2001:db8::/255.0.0.0' merge --masks
    run 2 '' "-:1: x/255.0.0.0: $none" 'x/255.0.0.0' merge --masks
    run 2 '' $'-:1: 010.0.0.0/255.0.0.0: a leading zero in an octet\n' '010.0.0.0/255.0.0.0' merge --masks
    run 2 '' "-:1: 10.0.0.0 255.0.0.0 x: $more" '10.0.0.0 255.0.0.0 x' merge --masks
    run 2 '' "-:1: 10.0.0.0 / 255.0.0.0: $more" '10.0.0.0 / 255.0.0.0' merge --masks
    run 2 '' "-:1: 10.0.0.0 8: $more" '10.0.0.0 8' merge --masks
    run 2 '' $'-:1: 10.0.0.0/255.0.0.0: a mask in place of a length\n' '10.0.0.0/255.0.0.0' merge
    run 2 '' "-:1: 10.0.0.0 255.0.0.0: $more" '10.0.0.0 255.0.0.0' merge
    run 2 '' "-:1: 10.0.0.7 255.0.0.0: ${host}-:3: x: $none" '10.0.0.7 255.0.0.0\n11.0.0.0 255.0.0.0\nx' merge -k --masks
    run 0 $'10.0.0.0/8\n192.0.2.0/24\n' '' '10.0.0.7 255.0.0.0\n192.0.2.9/0.0.0.255\n192.0.2.7/24\n10.0.0.9' merge --masks --host-bits
    run 2 '' $'-:1: 10.0.0.1 0.0.0.0: /0 by a network mask, 10.0.0.1 by a wildcard\n' '10.0.0.1 0.0.0.0' merge --host-bits --masks
    run 0 $'0.0.0.0/0\n' '' '0.0.0.0 0.0.0.0' merge --host-bits --masks
    run 2 '' "-:1: 192.0.2.0 255.0.255.0: $other" '192.0.2.0 255.0.255.0' merge --host-bits --masks
    run 2 '' $'-:1: 10.0.0.0/255.0.0.0: a mask in place of a length\n' '10.0.0.0/255.0.0.0' merge --host-bits
    run 0 $'10.128.0.0/9\n' '' '10.0.0.0 255.128.0.0' minus --masks ten -
    run 0 $'10.0.0.0/9\n' '' '10.0.0.0 0.127.255.255' and --masks ten -
    run 0 $'10.128.0.0/9\n' '' '10.0.0.0/255.128.0.0' not --masks --in 10.0.0.0/8
    run 2 '' $'10.0.0.0/255.0.0.0: a mask in place of a length\n' '' not --masks --in 10.0.0.0/255.0.0.0
    run 1 $'-10.128.0.0/9\n' '' '10.0.0.0 255.128.0.0' diff --masks ten -
    run 0 $'10.128.0.0/26\n' '' '10.0.0.0 255.128.0.0' free --masks ten 26 -
    run 0 $'10.1.0.0-10.1.255.255\n' '' '10.1.0.0 255.255.0.0' ranges --masks
    run 0 $'IPv4 256\nIPv6 0\n' '' '10.1.2.0/255.255.255.0' count --masks
    run 0 $'10.0.0.1 a\n10.2.0.0/16 c\n' '' '10.0.0.0 255.0.0.0' match --masks - seen
    run 2 '' $'seen:1: 10.0.0.1 a: more than a network or an address\n' '' match --masks seen ten
    run 0 $'10.0.0.1 10.0.0.0/8 west\n' '' '10.0.0.0/255.0.0.0 west' look --masks - address
    run 2 '' $'-:1: 10.0.0.1: the first address of a range, whose last one is the next field\n' '10.0.0.1 255.0.0.0 west' look --masks - address
    run 2 '' $'-:1: 10.0.0.7/255.0.0.0: host bits set; the network is 10.0.0.0/8\n' '10.0.0.7/255.0.0.0 west' look --masks - address
    run 0 '' '' '10.0.0.0/255.0.0.0 west' compile --masks - masked
    run 0 $'10.0.0.1 10.0.0.0/8 west\n' '' '10.0.0.1' look masked
    run 0 $'10.in-addr.arpa\n' '' '10.0.0.0 255.0.0.0' reverse --masks -
    run 0 $'10.0.0.0 255.0.0.0 0.255.255.255\n' '' '10.0.0.0 0.255.255.255' mask --masks -
    run 0 $'10.0.0.0/9\n10.128.0.0/9\n' '' '10.0.0.0 255.0.0.0' split --masks - 9
    run 2 '' $'--masks: no such option, see: netset help check\n' '' check --masks
    run 2 '' $'--masks: no such option, see: netset help which\n' '' which --masks 10.0.0.1
    run 2 '' $'--masks: no such option, see: netset help show\n' '' show --masks ::1
    run 2 '' $'--masks=1: no such option, see: netset help merge\n' '' merge --masks=1
}

# Each line in error.
rows_of_all_errors() {
    local host=$'host bits set; the network is 10.0.0.0/8\n' none=$'couldn\'t parse address in network: invalid IP address syntax\n'
    run 0 $'10.0.0.0/8\n' '' '10.128.0.0/9\n10.0.0.0/9' merge -k
    run 0 $'10.0.0.0/8\n' '' '10.128.0.1/9\n10.0.0.0/9' merge -k --host-bits
    run 2 '' "-:1: 10.0.0.1/8: $host-:3: x: $none-:4: \xff: not UTF-8"$'\n' '10.0.0.1/8\n10.0.0.1\nx\n\xff\n' merge -k
    run 2 '' "-:3: x: $none-:4: \xff: not UTF-8"$'\n' '10.0.0.1/8\n10.0.0.1\nx\n\xff' merge --host-bits -k
    run 2 '' "hosts:1: 10.0.0.7/8: ${host}-:1: ten: ${none}hosts:1: 10.0.0.7/8: $host" 'ten\n' minus -k hosts - hosts
    run 2 '' "hosts:1: 10.0.0.7/8: ${host}missing: no such file"$'\n' '' and -k hosts missing hosts
    run 2 '' "10.0.0.1/8: $host" '' not -k --in 10.0.0.1/8 hosts
    run 2 '' "10.0.0.1/8: $host" '' not -k --in 10.0.0.1/8 ten
    run 1 $'-10.0.0.0/8\n' '' '' diff -k ten -
    run 2 '' "hosts:1: 10.0.0.7/8: ${host}hosts:1: 10.0.0.7/8: $host" '' diff -k hosts hosts
    run 2 '' "hosts:1: 10.0.0.7/8: $host" '' free -k ten 8 hosts
    run 2 '' "-:1: x: $none-:2: 10.0.0.1-10.0.0.2: a range of addresses"$'\n' 'x\n10.0.0.1-10.0.0.2\n10.0.0.1/8' check -k
    run 2 '' "hosts:1: 10.0.0.7/8: $host" 'x' match -k -v hosts
    run 2 '' "-:1: x: $none" 'x\ny' match -k ten
    run 0 $'10.0.0.1\n' '' '10.0.0.1\n11.0.0.1' match -k ten
    run 2 '' "hosts:1: 10.0.0.7/8: $host" '' look -k hosts
    run 0 $'10.0.0.1 10.0.0.0/8\n' '' '10.0.0.1' look -k --host-bits hosts
    run 0 $'10.1.2.3 10.1.0.0/16 x  y \t; z\n' '' '10.1.2.3' look -k owners
    run 2 '' $'-k: no such option, see: netset help show\n' '' show -k ::1
    run 2 '' $'-k: no such command, see: netset help\n' '' -k merge
    run 0 $'10.0.0.0/8\n' '' '' merge ten -k
    run 2 '' $'--host-bits: no such option, see: netset help check\n' '' check -k --host-bits
}

# The answer without the lines in error.
rows_of_skipped_lines() {
    local host=$'host bits set; the network is 10.0.0.0/8\n' none=$'couldn\'t parse address in network: invalid IP address syntax\n'
    run 0 $'10.0.0.0/8\n' '' '10.128.0.0/9\n10.0.0.0/9' merge --skip-bad
    run 2 $'10.0.0.1\n' "-:1: 10.0.0.1/8: $host-:3: x: $none-:4: \xff: not UTF-8"$'\n' '10.0.0.1/8\n10.0.0.1\nx\n\xff\n' merge --skip-bad
    run 2 $'10.0.0.0/8\n' "-:3: x: $none-:4: \xff: not UTF-8"$'\n' '10.0.0.1/8\n10.0.0.1\nx\n\xff' merge --host-bits --skip-bad
    run 2 '' "-:1: x: $none" 'x' merge --skip-bad
    run 2 '' "-:1: x: $none" 'x\r\n' nets --skip-bad -
    run 2 $'11.0.0.0/8\n' "-:1: x: $none" 'x\n11.0.0.0/8\n10.0.0.0/8' minus --skip-bad - ten
    run 2 $'10.0.0.0/8\n' "hosts:1: 10.0.0.7/8: $host" '' minus --skip-bad ten hosts
    run 2 '' "-:2: x: $none" '10.0.0.0/9\nx\n10.128.0.0/9' minus --skip-bad ten -
    run 2 $'10.0.0.0/9\n' "-:2: x: $none" '10.0.0.0/9\nx' and --skip-bad ten -
    run 2 $'10.128.0.0/9\n' "-:1: x: $none" 'x\n10.0.0.0/9' not --skip-bad --in 10.0.0.0/8
    run 2 '{"network":"10.0.0.0/8","first":"10.0.0.0","last":"10.255.255.255","length":8,"family":"IPv4"}'$'\n' "-:2: x: $none" '10.0.0.0/8\nx' merge --skip-bad --format json
    run 2 $'10.0.0.0-10.255.255.255\n' "-:1: x: $none" 'x\n10.0.0.0/8' ranges --skip-bad
    run 2 $'IPv4 1\nIPv6 0\n' "-:1: x: $none" 'x\n10.0.0.1' count --skip-bad
    run 2 $'-10.0.0.0/8\n' "hosts:1: 10.0.0.7/8: $host" '' diff --skip-bad ten hosts
    run 2 '' "-:1: x: $none" 'x\n10.0.0.0/8' diff --skip-bad ten -
    run 2 $'10.0.0.0/9\n' "-:2: x: $none" '10.128.0.0/9\nx' free --skip-bad 10.0.0.0/8 9 -
    run 2 '' "-:2: x: $none" '10.0.0.0/8\nx' free --skip-bad ten 8 -
    run 2 $'-:1: inside 10.0.0.0/8 at ten:1\n-:3: repeats ten:1\n' "-:2: x: $none" '10.1.0.0/16\nx\n10.0.0.0/8' check --skip-bad ten -
    run 2 '' "-:1: x: $none" 'x\n10.0.0.1' check --skip-bad
    run 2 $'-:3: 10.0.0.0/8\n' "-:1: x: $none" 'x\n\n10.0.0.0/8' which --skip-bad 10.0.0.1
    run 2 $'10.0.0.1 a\n10.2.0.0/16 c\n' "-:1: x: $none" 'x\n10.0.0.0/8' match --skip-bad - seen
    run 2 $'seen:10.0.0.1 a\nseen:10.2.0.0/16 c\nten:10.0.0.0/8\n' "-:1: x: $none" 'x\n10.0.0.0/8' match --skip-bad - seen ten
    run 2 '' "hosts:1: 10.0.0.7/8: ${host}-:1: x: $none" 'x\ny' match --skip-bad hosts
    run 2 $'10.0.0.1 10.0.0.0/8 west\n' "-:2: x: $none" '10.0.0.0/8 west\nx east' look --skip-bad - address
    run 2 $'10.0.0.1 -\n' "hosts:1: 10.0.0.7/8: $host" '10.0.0.1' look --skip-bad hosts
    run 2 $'10.0.0.0/9\n10.128.0.0/9\n' "-:2: x: $none" '10.0.0.0/8\nx' split --skip-bad - 9
    run 2 $'10.in-addr.arpa\n' "-:2: x: $none" '10.0.0.0/8\nx' reverse --skip-bad -
    run 2 $'10.0.0.0 255.0.0.0 0.255.255.255\n' "-:1: x: $none" 'x\n10.0.0.0/8' mask --skip-bad -
    run 2 '' "hosts:1: 10.0.0.7/8: ${host}missing: no such file"$'\n' '' and --skip-bad hosts missing hosts
    run 2 '' "10.0.0.1/8: $host" '' not --skip-bad --in 10.0.0.1/8 hosts
    run 2 '' $'-: standard input can be read only once\n' 'x' diff --skip-bad - -
    run 2 '' $'-k: not with --skip-bad, see: netset help merge\n' '' merge --skip-bad -k missing
    run 2 '' $'-k: not with --skip-bad, see: netset help check\n' '' check -k --skip-bad
    run 2 '' $'-o: not with --skip-bad, see: netset help merge\n' '' merge -o answer --skip-bad missing
    run 2 '' $'-k: not with --skip-bad, see: netset help not\n' '' not -o answer -k --skip-bad
    run 2 '' $'--skip-bad: no such option, see: netset help compile\n' '' compile --skip-bad ten compiled
    run 2 '' $'--skip-bad: no such option, see: netset help acl\n' '' acl --skip-bad rules
    run 2 '' $'--skip-bad: no such option, see: netset help show\n' '' show --skip-bad ::1
    run 2 '' $'--skip-bad=1: no such option, see: netset help merge\n' '' merge --skip-bad=1
}

# More than one block of 8192 bytes, in order.
long_list() {
    local input output
    input=$(seq 0 2 65535 | awk '{ print "10.1." int($1 / 256) "." $1 % 256 }')
    output=$input$'\n'
    run 0 "$output" '' "$input" merge
    output=$(seq 0 65535 | awk '{ print "10.1." int($1 / 256) "." $1 % 256 }')$'\n'
    run 0 "$output" '' '' split 10.1.0.0/16 32
    run 0 "$input"$'\n' '' "$input" match ten
    run 0 $'32768\n' '' "$input" match -c ten
    run 0 $'32768\n' '' "$input" match --any -c ten
    input=$output
    output=$(seq 0 65535 | awk '{ print "10.1." int($1 / 256) "." $1 % 256 " 10.1." int($1 / 256) ".0/24 " int($1 / 256) }')$'\n'
    run 0 "$output" '' "$input" look parts
}

# Lines of 1 MiB, and of a byte more.
rows_of_long_lines() {
    local fits long told=$'longer than 1 MiB\n'
    fits=10.0.0.1$(head -c 1048568 /dev/zero | tr '\0' ' ')
    long="$fits "
    run 0 $'10.0.0.1\n' '' "$fits" merge
    run 0 $'10.0.0.0/31\n' '' "$fits\n10.0.0.0" merge
    run 2 '' "-:1: $told" "$long" merge
    run 2 '' "-:2: $told" "10.0.0.0\n$long\nx" merge
    run 2 '' "-:1: $told-:3: x: couldn't parse address in network: invalid IP address syntax"$'\n' "$long$fits$long\n::1\nx" merge -k
    run 2 $'::1\n' "-:1: $told-:3: x: couldn't parse address in network: invalid IP address syntax"$'\n' "$long$fits$long\n::1\nx" merge --skip-bad
    run 2 '' "-:2: $told" "#\n# $fits\n" check
    run 0 '' '' "$fits\n" check
    run 2 $'10.0.0.2 10.0.0.0/8 ten\n' "-:2: $told" "10.0.0.2\n$long\n10.0.0.1" look owners
    run 2 '' "-:1: $told" "$long\n10.0.0.1" look --header owners
    run 2 '' "-:1: $told" "$long" look --header --keep owners
    run 2 $'ip\n' "-:2: $told" "ip\n$long" look --header --keep owners
    run 2 '' "-:1: $told" "$long x" look - owners
    run 2 '' "-:1: $told" "$long x" look --table-header - owners
    run 0 $'10.0.0.0/8 x\n' '' "$fits\n10.0.0.0/8 x" smallest --table-header -
    run 0 "$fits"$'\n' '' "$fits" match ten
    run 2 $'10.0.0.2\n' "-:2: $told" "10.0.0.2\n$long\n10.0.0.1" match ten
    run 2 $'10.0.0.2\n10.0.0.1\n' "-:2: $told" "10.0.0.2\n$long\n10.0.0.1\n$long" match --any ten
    run 2 $'11.0.0.1\n' "-:1: $told" "$long\n11.0.0.1\n10.0.0.1" match --any -v ten
    run 2 $'2\n' "-:2: $told" "10.0.0.2\n$long\n10.0.0.1" match -c --any ten
    run 2 '' "-:1: $told" "$long\n10.0.0.1" match --any -q ten
    run 0 '' '' "10.0.0.1\n$long" match --any -q ten
    run 0 "$fits"$'\n' '' "$fits" match --any ten
    run 2 '' "-:1: $told" "$long" match - ten
}

# What is told of a string that is wrong, and how it and the names of files are shown.
rows_of_messages() {
    local none=$'couldn\'t parse address in network: invalid IP address syntax\n' long lines=$'two\nlines'
    long=$(printf 'a%.0s' {1..40})
    run 2 '' $'-:1: 10.0.0.256: a number above 255\n' '10.0.0.256' merge
    run 2 '' $'-:1: 10.0.0.256: a number above 255\n' '10.0.0.256-10.0.0' merge
    run 2 '' $'-:1: 10.0.0: not four octets\n' '10.0.0.1-10.0.0' merge
    run 2 '' $'-:1: 10/8: not four octets\n' '10/8' merge
    run 2 '' $'-:1: 2001:db8::12345: a group of more than four digits\n' '2001:db8::12345' merge
    run 2 '' $'-:1: 10.0.0.0/255.0.0.0: a mask in place of a length\n' '10.0.0.0/255.0.0.0' check
    run 2 '' $'-:2: 10.0.0.0/255.0.0.0: a mask in place of a length\n' '\n10.0.0.0/255.0.0.0 x' look - address
    run 2 '' $'-:1: 10.0.0.0/255.0.0.0: invalid IP address syntax\n' '10.0.0.0/255.0.0.0' look owners
    run 2 '' $'-:1: 2001:db8::1/32: host bits set; the network is 2001:db8::/32\n' '2001:db8::1/32' match ten
    run 2 '' $'10.0.0.300: a number above 255\n' '' show 10.0.0.300
    run 2 '' "-:1: $long: $none" "$long" merge
    run 2 '' "-:1: $long..: $none" "${long}a" merge
    run 2 '' "-:1: x\\x1b[31m\\x09y\\x85: $none" ' x\x1b[31m\ty\xc2\x85 ' merge
    run 2 '' "-:1: \\x1b\\x1b\\x1b\\x1b\\x1b\\x1b\\x1b\\x1b\\x1b\\x1b..: $none" '\x1b\x1b\x1b\x1b\x1b\x1b\x1b\x1b\x1b\x1b\x1b' merge -k
    run 2 '' $'two\\x0alines:1: 10.0.0.1/8: host bits set; the network is 10.0.0.0/8\n' '' merge "$lines"
    run 2 '' $'two\\x0alines:1: 10.0.0.1/8: host bits set; the network is 10.0.0.0/8\n' '' merge -k "$lines"
    run 1 $'two\\x0alines:1: host bits set\n' '' '' check "$lines"
    run 2 '' $'\\x1b[2J: no such file\n' '' merge $'\e[2J'
    run 2 '' "\\x1b[2J: $none" '' show $'\e[2J'
    run 2 '' "$long..: $none" '' not --in "${long}a"
}

# Either stream fails, or both.
rows_where_a_stream_fails() {
    local output_file=/dev/full
    run 3 '' $'output failed\n' '10.0.0.0/8' merge
    run 2 '' $'-:1: 10.0.0.1/8: host bits set; the network is 10.0.0.0/8\n' '10.0.0.1/8' merge
    run 3 '' $'output failed\n' '' --help
    run 3 '' $'output failed\n' '' diff - ten
    run 3 '' $'output failed\n' '' same west nothing
    run 3 '' $'output failed\n' '' diff - ten --format json
    run 3 '' $'output failed\n' '' free ten 9 eight
    run 3 '' $'output failed\n' '' acl rules
    run 3 '' $'output failed\n' 'permit ::/0\npermit ::/0' acl --shadowed -
    run 3 '' $'output failed\n' '' acl --diff nothing rules
    run 3 '' $'output failed\n' '' acl --diff nothing rules --format json
    run 3 '' $'output failed\n' '' acl nothing --format bird
    run 0 '' '' '' acl nothing
    run 3 '' $'output failed\n' '' split ten 9
    run 3 '' $'output failed\n' '' reverse ten
    run 3 '' $'output failed\n' '' mask 24
    run 3 '' $'output failed\n' '' mask 255.255.255.0
    run 3 '' $'output failed\n' '' class 10.0.0.1
    run 3 '' $'output failed\n' '' class 8.8.8.8
    run 3 '' $'output failed\n' '10.0.0.1' class -
    run 3 '' $'output failed\n' '10.0.0.1\nx' class -
    run 3 '' $'output failed\n' '' which 10.0.0.1 ten
    run 1 '' '' '' free ten 7 eight
    run 3 '' $'output failed\n' '' check ten ten
    run 0 '' '' '' check ten
    run 3 '' $'-:1: 10.0.0.1/8: host bits set; the network is 10.0.0.0/8\noutput failed\n' '10.0.0.1/8' merge --skip-bad - ten
    run 2 '' $'-:1: 10.0.0.1/8: host bits set; the network is 10.0.0.0/8\n' '10.0.0.1/8' merge --skip-bad
    run 3 '' $'output failed\n' '' ranges ten
    run 3 '' $'output failed\n' '10.2.0.1' look owners
    run 3 '' $'output failed\n' '10.2.0.1\nx' look owners
    run 2 '' $'-:1: x: invalid IP address syntax\n' 'x' look owners
    run 1 '' '' '' look owners
    run 3 '' $'output failed\n' '10.2.0.1' look --format json --table-separator '|' parted
    run 3 '' $'output failed\n' '10.2.0.1' look --keep owners
    run 3 '' $'output failed\n' '11.0.0.1\nx' look --keep owners
    run 2 '' $'-:1: x: invalid IP address syntax\n' 'x' look --keep owners
    run 1 '' '' '' look --keep owners
    run 3 '' $'output failed\n' 'ip' look --header --keep owners
    run 3 '' $'output failed\n' 'ip\nx' look --header --keep owners
    run 3 '' $'output failed\n' 'ip\n10.2.0.1' look --header owners
    run 1 '' '' 'ip' look --header owners
    run 3 '' $'output failed\n' '10.0.0.0/8 x' smallest -
    run 3 '' $'output failed\n' '10.0.0.0/8 x' smallest --holes -
    run 0 '' '' '' smallest -
    run 3 '' $'output failed\n' '' not --in ::/0 ten
    run 3 '' $'output failed\n' '' not --in ::/0 ten --format nft
    run 0 '' '' '' not --in 10.0.0.0/8 ten --format json
    run 3 '' $'output failed\n' '10.0.0.1' match ten
    run 3 '' $'output failed\n' '10.0.0.1\nx' match ten
    run 3 '' $'output failed\n' '10.0.0.1' match -c ten
    run 3 '' $'output failed\n' '(10.0.0.1)' match --any ten
    run 0 '' '' '10.0.0.1' match -q ten
    run 3 '' $'output failed\n' '' match ten seen missing
    run 3 '' $'output failed\n' 'a 10.0.0.1' match --field 2 ten
    run 3 '' $'output failed\n' '' match -c ten nothing missing
    run 2 '' $'missing: no such file\n' '' match ten nothing missing
    run 3 '' $'output failed\n' '' show ::1
    run 3 '' $'output failed\n' '' split ::/0 128
    run 3 '' $'output failed\n' '' split ::/0 128 --format bird
    run 3 '' $'output failed\n' '' free ten 7 --format nft
    run 1 '' '' '' free ten 7 --format json
    run 3 '' $'output failed\n' '' nth ::/0 1
    run 1 '' '' '' nth ::1 1
    local error_file=/dev/full
    run 3 '' '' '10.0.0.0/8' merge
    output_file=$room/output
    run 0 $'10.0.0.0/8\n' '' '10.0.0.0/8' merge
    run 2 '' '' 'x' merge
    run 2 $'10.0.0.0/8\n' '' 'x\n10.0.0.0/8' merge --skip-bad
}

# refuse INPUT ARGUMENT..: runs the program with its first allocation refused, with its second one, and so on until there
# is none to refuse. It is to end with status 3 and `no memory`, and to write nothing, nor the file `made`; `match`, `look` and
# `class` may have written a beginning of their answer.
refuse() {
    local input=$1 end=0 status n whole got
    shift
    cd "$room"
    printf '%b' "$input" >given
    "$program" "$@" <given >whole 2>error || end=$?
    text whole && whole=$got
    for ((n = 1; n <= 99; n++)); do
        status=0
        printf old >made
        REFUSE=$n LD_PRELOAD=$room/refuse.so "$program" "$@" <given >output 2>error || status=$?
        if ((n > 1 && status == end)); then
            cd "$OLDPWD"
            return
        fi
        ((status == 3)) && { has error $'no memory\n' || has error "${told-}"$'no memory\n'; } && has made old && text output || break
        [[ -z $got || $1 =~ ^(match|look|class)$ && $whole == "$got"* ]] || break
    done
    cd "$OLDPWD"
    differs=1
    echo "$build ${*@Q}, allocation $n refused: not as wanted" >&2
}

# le WORD..: words of four bytes, the lowest first.
le() {
    local word
    for word; do
        printf "\\\\x%02x" $((word & 255)) $((word >> 8 & 255)) $((word >> 16 & 255)) $((word >> 24))
    done
}

# zeros COUNT: so many words of 0.
zeros() {
    printf '\\x00%.0s' $(seq $((4 * $1)))
}

# saved NAME BYTES: whether a file has exactly these bytes, and none is beside it.
saved() {
    if ! printf '%b' "$2" | cmp -s - "$room/$1" || [[ -n $(cd "$room" && compgen -G ".netset-*") ]]; then
        differs=1
        echo "$build: the file $1 is not as wanted" >&2
    fi
}

# kept NAME MODE LINK: whether a file has these permissions, and the link is still one.
kept() {
    if [[ $(stat -c %a "$room/$1") != "$2" || ! -L $room/$3 ]]; then
        differs=1
        echo "$build: the file $1 or the link $3 is not as wanted" >&2
    fi
}

# Tables as files of look-ups. Their bytes are put together by hand, from the page of the crate cidr_files.
rows_of_compiled_tables() {
    local none row same=$': the same file as TABLE\n'
    # no row: entries of 64 blocks of IPv4 and 1,024 of IPv6, and the one offset of each family
    none=$(le 0x44494389 5 0 0 0 64 0 5 0 0 0 1024 0 20 0 0)$(zeros 66)$(zeros 1026)
    # 10.0.0.0/8 with the value x: the block of 8.0.0.0/6 has a node, whose parts 32 to 47 of 64 have the first row
    row=$(le 0x44494389 5 0 0 1 64 5 5 1 0 0 1024 0 20 0 0)$(le 0 0 0x80000000)$(zeros 61)$(le 0x80008000 0x80000000 0 1 0 0)
    row+=$(le 0x0a000000 0)$(le 8 0)$(le 0 1)$(le 0x78 0)$(zeros 1026)
    run 0 '' '' '' compile nothing compiled
    saved compiled "$none"
    run 0 '' '' '# x\n10.0.0.0/8 y\n10.0.0.0/8 \tx \r\n' compile - compiled
    saved compiled "$row"
    run 0 '' '' '10.0.0.7/8 x' compile --host-bits -k -- - compiled
    saved compiled "$row"
    run 2 '' $'-:1: x: couldn\'t parse address in network: invalid IP address syntax\n' 'x' compile - compiled
    run 2 '' $'-:1: x: couldn\'t parse address in network: invalid IP address syntax\n-:3: y: couldn\'t parse address in network: invalid IP address syntax\n' \
        'x\n10.0.0.0/8\ny' compile -k - compiled
    run 2 '' $'missing: no such file\n' '' compile missing compiled
    run 2 '' "compiled$same" '' compile compiled compiled
    run 2 '' "compiled$same" '' compile -k compiled compiled
    run 2 '' "-$same" 'x' compile - -
    saved compiled "$row"
    run 3 '' $'.: cannot be written: is a directory\n' '' compile owners .
    run 3 '' $'nowhere/compiled: cannot be written: no such directory\n' '' compile owners nowhere/compiled
    run 3 '' $': cannot be written\n' '' compile owners ''
    run 3 '' $'-: cannot be written\n' '' compile owners -
    ln -sfn nowhere "$room/link"
    run 3 '' $'link: cannot be written\n' '' compile owners link
    ln -sfn . "$room/link"
    run 3 '' $'link: cannot be written: is a directory\n' '' compile owners link
    run 2 '' $'TABLE is missing, see: netset help compile\n' '' compile
    run 2 '' $'OUT is missing, see: netset help compile\n' '' compile owners
    run 2 '' $'x: one argument too many, see: netset help compile\n' '' compile owners compiled x
    run 2 '' $'-v: no such option, see: netset help compile\n' '' compile -v owners compiled
    saved compiled "$row"
    # a run that is killed while it writes leaves the old file
    { (cd "$room" && ulimit -f 1 && "$program" compile parts compiled) || true; } >/dev/null 2>&1
    rm "$room"/.netset-*
    saved compiled "$row"
    run 0 '' '' '' compile nothing compiled
    saved compiled "$none"
    chmod 604 "$room/compiled"
    ln -sfn compiled "$room/link"
    run 0 '' '' '10.0.0.0/8 x' compile - link
    saved compiled "$row"
    kept compiled 604 link
}

# Tables in the fewest rows.
rows_of_smallest_tables() {
    local parts='10.0.0.0/9 x\n10.128.0.0/10 x\n10.192.0.0/11 x\n' stands=': a value is -, which with --holes stands for none'$'\n'
    run 0 '' '' '' smallest nothing
    run 0 '' '' ' \n# x' smallest - --holes
    run 0 $'10.0.0.0/8 x\n' '' '10.0.0.0/9 x\n10.128.0.0/9 x\n10.1.0.0/16 x' smallest -
    run 0 $'0.0.0.0/0 a\n10.0.0.0/8 b\n' '' '11.0.0.0/8 a\n0.0.0.0/0 a\n10.0.0.0/9 b\r\n10.0.0.0/8 \tb \n' smallest -
    run 0 $'10.0.0.0/8\n' '' '10.0.0.0/9\n10.128.0.0/9 \n' smallest -
    run 0 $'192.0.2.1/32 z\n2001:db8::/32 x y\n' '' '2001:db8:8000::/33 x y\n192.0.2.1 z\n2001:db8::/33 x y' smallest -
    # a row of one address is none of a range
    run 0 $'192.0.2.1/32 192.0.2.9 z\n2001:db8::1/128 ::\n' '' '2001:db8::1 ::\n192.0.2.1/32 192.0.2.9 z' smallest -
    run 0 $'192.0.2.1 192.0.2.1 192.0.2.9 z\n' '' '192.0.2.1/32 192.0.2.9 z' look - one_address
    run 0 $'0.0.0.0/0 x\n::/0 x\n' '' '::/1 x\n0.0.0.0/1 x\n128.0.0.0/1 x\n8000::/1 x' smallest -
    run 0 $'10.0.0.0/8 b\n' '' '10.0.0.0/8 a\n10.0.0.0/8 b' smallest --holes -
    run 0 $'10.0.0.0/8 \xff #\n' '' '10.0.0.0/9 \xff #\n10.128.0.0/9 \xff #' smallest -
    run 0 $'10.0.0.0/9 x\n10.128.0.0/10 x\n10.192.0.0/11 x\n' '' "$parts" smallest -
    run 0 $'10.0.0.0/8 x\n10.224.0.0/11 -\n' '' "$parts" smallest --holes -
    run 0 $'::/0 x\ne000::/3 -\n' '' '::/1 x\n8000::/2 x\nc000::/3 x' smallest - --holes
    run 0 $'10.0.0.0/8\n10.224.0.0/11 -\n' '' "${parts// x/}" smallest --holes -
    run 0 $'10.0.0.0/8 -\n' '' '10.0.0.0/8 -' smallest -
    run 0 $'10.0.0.0/8 x\n' '' '10.0.0.0/8 -\n10.0.0.0/8 x' smallest --holes -
    run 0 $'10.0.0.0/8 --\n' '' '10.0.0.0/8 --' smallest --holes -
    run 2 '' "-$stands" '10.0.0.0/8 -' smallest --holes -
    run 2 '' "-$stands" '10.0.0.0/8 x\n::1 -' smallest --holes - -k
    run 0 $'10.0.0.0/8 64500\n' '' '10.128.0.0 9 64500\n10.0.0.0\t9\t64500' smallest --form pfx2as -
    run 0 $'0.0.0.0/0 via x\n' '' '10.0.0.0/8 via x\ndefault via x' smallest --form routes -
    run 0 $'10.0.0.0/8 a,b\n' '' '10.0.0.0/9,a,b\n10.128.0.0/9, a,b ' smallest --table-separator , -
    run 0 $'10.0.0.0/8 x\n' '' '10.0.0.7/8 x' smallest --host-bits -
    run 0 $'10.0.0.0/8 x\n' '' '10.0.0.0/255.0.0.0 x' smallest --masks -
    run 0 $'10.0.0.0/8 x\n' '' '10.0.0.0/8 x' smallest -k -
    run 2 '' $'-:2: x: couldn\'t parse address in network: invalid IP address syntax\n' '10.0.0.0/8 y\nx z\nv w' smallest -
    run 2 $'10.0.0.0/8 y\n' $'-:2: x: couldn\'t parse address in network: invalid IP address syntax\n' '10.0.0.0/8 y\nx z' smallest --skip-bad -
    run 2 '' $'missing: no such file\n' '' smallest missing
    run 2 '' $'TABLE is missing, see: netset help smallest\n' '' smallest --holes
    run 2 '' $'x: one argument too many, see: netset help smallest\n' '' smallest owners x
    run 2 '' $'--format: no such option, see: netset help smallest\n' '' smallest --format json owners
    run 0 '' '' "$parts" smallest - --holes -o made
    saved made '10.0.0.0/8 x\n10.224.0.0/11 -\n'
    run 2 '' "-$stands" '10.0.0.0/8 -' smallest --holes - -o made
    saved made '10.0.0.0/8 x\n10.224.0.0/11 -\n'
    # what it writes is read as a table, and has the same answers
    run 0 $'10.2.0.1 10.0.0.0/9 x\n' '' "$(cd "$room" && printf "$parts" | "$program" smallest - >made && printf '10.2.0.1')" look made -
}

# Answers that are written to files.
rows_of_outputs() {
    local old
    run 0 '' '' '10.128.0.0/9\n10.0.0.0/9\n' merge -o made
    saved made '10.0.0.0/8\n'
    run 0 '' '' '11.0.0.0/8' merge - made -o made
    saved made '10.0.0.0/7\n'
    run 0 '' '' '10.0.0.0/8' minus made -o made -
    saved made '11.0.0.0/8\n'
    run 0 '' '' '' and -k made ten_and_eight -o made --format json
    saved made ''
    run 0 '' '' '' not -o made seven --prefix=x
    saved made 'x0.0.0.0/0\nx8000::/1\n'
    run 0 '' '' '' not --in 10.0.0.0/7 -o made ten
    saved made '11.0.0.0/8\n'
    run 0 '' '' '' not --in 10.0.0.0/7 -o made ten --prefix=x
    saved made 'x11.0.0.0/8\n'
    run 0 '' '' '' ranges ten -o made
    saved made '10.0.0.0-10.255.255.255\n'
    run 0 '' '' '' count ten -o made
    saved made 'IPv4 16777216\nIPv6 0\n'
    run 1 '' '' '' diff ten both -o made
    saved made '+::/0\n'
    run 1 '' '' '' acl --diff nothing rules -o made
    saved made '+10.0.0.0/9\n+10.129.0.0/16\n+::1\n'
    run 0 '' '' '' acl rules -o made
    saved made '10.0.0.0/9\n10.129.0.0/16\n::1\n'
    run 0 '' '' '' acl rules -o made --format cisco
    saved made 'no ip prefix-list netset4\nip prefix-list netset4 permit 10.0.0.0/9 le 32\nip prefix-list netset4 permit 10.129.0.0/16 le 32\nno ipv6 prefix-list netset6\nipv6 prefix-list netset6 permit ::1/128\n'
    run 0 '' '' '' free ten 9 -o made
    saved made '10.0.0.0/9\n'
    run 1 '' '' '' free ten 7 -o made
    saved made ''
    run 0 '' '' '' split -o made ten 9
    saved made '10.0.0.0/9\n10.128.0.0/9\n'
    run 0 '' '' '' reverse ten -o made
    saved made '10.in-addr.arpa\n'
    run 0 '' '' '' mask ten -o made
    saved made '10.0.0.0 255.0.0.0 0.255.255.255\n'
    old='10.0.0.0 255.0.0.0 0.255.255.255\n'
    # it is as it was where there is no answer
    run 2 '' $'bad:1: 10.0.0.0/x: couldn\'t parse length in network: invalid length text\n' '' merge ten bad -o made
    run 2 '' $'bad:1: 10.0.0.0/x: couldn\'t parse length in network: invalid length text\n' '' merge -k ten bad -o made
    run 2 '' $'-: standard input can be read only once\n' '' merge - - -o made
    run 2 '' $'missing: no such file\n' '' merge missing -o made
    run 2 '' $'x: one argument too many, see: netset help merge\n' '' merge -o made -o x
    run 2 '' $'VALUE is missing, see: netset help merge\n' '' merge ten -o
    run 2 '' $'-o=made: no such option, see: netset help merge\n' '' merge ten -o=made
    run 2 '' $'-ko: no such option, see: netset help merge\n' '' merge ten -ko made
    run 2 '' $'-o: no such option, see: netset help look\n' '' look owners -o made
    run 2 '' $'-o: no such option, see: netset help compile\n' '' compile owners -o made
    run 0 "$("$program" help merge)"$'\n' '' '' merge -h -o made
    saved made "$old"
    run 2 '' $'-o: no such file\n' '' merge ten -- -o
    run 3 '' $'.: cannot be written: is a directory\n' '' merge ten -o .
    run 3 '' $'/dev/null: cannot be written\n' '' merge ten -o /dev/null
    run 3 '' $'-: cannot be written\n' '' merge ten -o -
    run 3 '' $'nowhere/made: cannot be written: no such directory\n' '' diff ten both -o nowhere/made
    run 3 '' $': cannot be written\n' '' merge ten -o ''
    saved made "$old"
    # what a link leads to is replaced, also by way of another one, and has the permissions that it had
    mkdir -p "$room/folder"
    printf '11.0.0.0/8\n' >"$room/folder/led"
    chmod 640 "$room/folder/led"
    ln -sfn led "$room/folder/other"
    ln -sfn folder/other "$room/link"
    run 0 '' '' '' merge ten link -o link
    saved folder/led '10.0.0.0/7\n'
    kept folder/led 640 link
    kept folder/led 640 folder/other
    ln -sfn nowhere "$room/link"
    run 3 '' $'link: cannot be written\n' '' merge ten -o link
    chmod 400 "$room/made"
    run 0 '' '' '' merge ten -o made
    saved made '10.0.0.0/8\n'
    kept made 400 link
    rm -r "$room/made" "$room/folder" "$room/link"
    # a run that is killed while it writes leaves the old file
    printf 'old' >"$room/made"
    { (cd "$room" && ulimit -f 1 && "$program" split 10.0.0.0/8 20 -o made) || true; } >/dev/null 2>&1
    rm "$room"/.netset-*
    saved made old
    run 0 '' '' '' merge ten -o made
    saved made '10.0.0.0/8\n'
}

# Answers that are written to a disk that is full: the old file stays. It takes a root that may mount one of its own.
rows_of_a_full_disk() {
    local status=0
    mkdir -p "$room/full"
    # shellcheck disable=SC2016
    unshare -m bash -c 'mount -t tmpfs -o size=64k none "$1/full" || exit 9
        cd "$1" && printf old >full/made
        "$2" split 10.0.0.0/8 24 -o full/made 2>full.said >full.out; echo "$?" >full.status
        cp full/made full.made
        (cd full && ls) >full.left' - "$room" "$program" 2>/dev/null || status=$?
    if ((status)); then
        echo "netset: no disk can be mounted: a full one was not tried" >&2
        return
    fi
    if ! { has "$room/full.status" $'3\n' && has "$room/full.made" old && has "$room/full.said" $'full/made: cannot be written: no space left\n' &&
        has "$room/full.out" '' && has "$room/full.left" $'made\n'; }; then
        differs=1
        echo "$build: a full disk" >&2
    fi
}

# Files of look-ups in the place of TABLE and of LIST: the answers are those of the table that they were made of.
rows_of_stored_tables() {
    local addresses found size at other=$': no lines, and no file of look-ups\n'
    local old=$': a file of look-ups of an older version, which an older netset made: compile the table anew\n'
    addresses='10.2.0.1\n10.1.2.3 and more\r\n\n # 10.1.2.3\n192.0.2.7#\n192.0.2.8 ;\n2001:DB8:0::1\n\t::1'
    found=$'10.2.0.1 10.0.0.0/8 ten\n10.1.2.3 10.1.0.0/16 x  y \t; z\n192.0.2.7 192.0.2.7\n192.0.2.8 -\n2001:db8::1 2001:db8::/32 \xff#\n::1 ::/0 all\n'
    run 0 '' '' '' compile owners compiled
    run 0 "$found" '' "$addresses" look owners
    run 0 "$found" '' "$addresses" look compiled
    run 0 "$found" '' "$addresses" look --host-bits compiled -
    run 0 $'a,10.0.0.1,10.0.0.0/8,ten\nb,192.0.2.8\n' '' 'a,10.0.0.1\nb,192.0.2.8\n' look --keep --field 2 --separator , compiled
    run 1 $'192.0.2.8 -\n' '' '192.0.2.8\n' look compiled -
    run 1 '' '' '\n;' look compiled
    run 0 $'10.0.0.1 10.0.0.0/8 ten\n' '' "$(printed compiled)" look - address
    run 2 $'10.2.0.1 10.0.0.0/8 ten\n' $'-:2: \\xff: not UTF-8\n' '10.2.0.1\n\xff 10.0.0.1' look compiled
    run 2 '' $'missing: no such file\n' '' look compiled missing
    run 0 '' '' '' compile nothing none
    run 1 $'10.0.0.1 -\n' '' '10.0.0.1' look none
    run 0 '' '' '10.0.0.0/8 x' compile - one
    run 1 $'11.0.0.0 -\n::1 -\n' '' '11.0.0.0\n::1' look one
    # a file that was cut, that has bytes behind its end, that is of an older version or another or was changed
    size=$(wc -c <"$room/compiled")
    for at in 8 63 64 65 "$((size / 2))" "$((size - 1))"; do
        head -c "$at" "$room/compiled" >"$room/part"
        run 2 '' $'part: a file of look-ups that is cut short\n' '' look part missing
    done
    for at in 1 3; do
        head -c "$at" "$room/compiled" >"$room/part"
        run 2 '' "part$other" '' look part
    done
    run 2 '' "-$other" '\x89PNG\r\n' look - address
    { cat "$room/compiled" && printf '\0\0\0\0\0\0\0\0'; } >"$room/part"
    run 2 '' $'part: a file of look-ups with bytes behind its end\n' '' look part
    for at in 1 2 3 4; do
        with_byte 4 "$at"
        run 2 '' "part$old" '' look part
        run 2 '' "part$old" '' match part
    done
    with_byte 4 6
    run 2 '' $'part: a file of look-ups of another version\n' '' look part
    with_byte 64 1
    run 2 '' $'part: a file of look-ups that was changed\n' '' look part
    run 2 '' $'part: a file of look-ups that was changed\n' '' match part
    # LIST has the networks of the rows
    run 0 $'10.0.0.1 a\n10.0.0.0/9\n192.0.2.7\n::1\n' '' '10.0.0.1 a\n11.0.0.1\n10.0.0.0/9\n10.0.0.0/7\n192.0.2.7\n::1\n' match compiled
    run 0 $'11.0.0.1\n10.0.0.0/7\n' '' '10.0.0.1 a\n11.0.0.1\n10.0.0.0/9\n10.0.0.0/7\n192.0.2.7\n::1\n' match -v compiled -
    run 0 $'1\n' '' 'at 10.0.0.1:80\nat 11.0.0.1' match --any -c one
    run 1 '' '' '10.0.0.1' match none
    # with -k too
    run 0 "$found" '' "$addresses" look -k compiled
    run 2 $'10.2.0.1 10.0.0.0/8 ten\n' $'-:2: \\xff: not UTF-8\n' '10.2.0.1\n\xff 10.0.0.1' look -k compiled
    run 0 $'10.0.0.1 a\n::1\n' '' '10.0.0.1 a\n11.0.0.1\n::1\n' match -k compiled
    run 0 $'address:10.0.0.1\n' '' '' match -k compiled address nothing
    run 2 '' $'part: a file of look-ups that was changed\n' '' look -k part
    run 2 '' $'part: a file of look-ups that was changed\n' '' match -k part
    run 2 '' $'missing: no such file\n' '' look -k missing
    # in other commands it is read as lines
    printf '\x89\n' >"$room/part"
    run 2 '' "part$other" '' look -k part
    run 2 '' $'part:1: \\x89: not UTF-8\n' '' compile part two
    run 2 '' $'part:1: \\x89: not UTF-8\n' '' merge -k part
}

# with_byte PLACE BYTE: part is compiled with this byte at this place.
with_byte() {
    cp "$room/compiled" "$room/part"
    printf '%b' "\\x$2" | dd of="$room/part" bs=1 seek="$1" conv=notrunc status=none
}

# The bytes of a file as the input of `run` has them.
printed() {
    od -An -v -tx1 "$room/$1" | tr -d '\n' | sed 's/ /\\x/g'
}

# The names of zones, and masks.
rows_of_descriptions() {
    local neither=': no network and no address, and no file that can be read'
    run 0 $'2.0.192.in-addr.arpa\n3.0.192.in-addr.arpa\n' '' '' reverse 192.0.2.0/23
    run 0 $'1.2.0.192.in-addr.arpa\n' '' '' reverse 192.0.2.1
    run 0 $'8.b.d.0.1.0.0.2.ip6.arpa\n' '' '' reverse 2001:db8::/32
    run 0 $'8.b.d.0.1.0.0.2.ip6.arpa\n9.b.d.0.1.0.0.2.ip6.arpa\n' '' '' reverse 2001:db8::/31
    run 0 $'in-addr.arpa\nip6.arpa\n' '' '0.0.0.0/1\n128.0.0.0/1\n::/0' reverse -
    run 0 $'10.in-addr.arpa\n' '' '' reverse ./10.1.2.3
    run 0 $'3.2.1.10.in-addr.arpa\n' '' '' reverse 10.1.2.3
    run 0 '' '' '' reverse nothing
    run 0 $'10.in-addr.arpa\n' '' '' reverse --host-bits hosts
    run 2 '' "192.0.2.0/33$neither"$'\n' '' reverse 192.0.2.0/33
    run 2 '' "missing$neither"$'\n' '' reverse missing
    run 2 '' $'bad:1: 10.0.0.0/x: couldn\'t parse length in network: invalid length text\n' '' reverse bad
    run 2 '' $'NET|FILE is missing, see: netset help reverse\n' '' reverse
    run 2 '' $'ten: one argument too many, see: netset help reverse\n' '' reverse ten ten
    run 0 $'10.in-addr.arpa\n' '' '' reverse -k ten
    run 0 $'1.0.0.10.in-addr.arpa\n' '' '' reverse -k 10.0.0.1
    run 2 '' $'-:1: x: couldn\'t parse address in network: invalid IP address syntax\n-:3: y: couldn\'t parse address in network: invalid IP address syntax\n' 'x\n\ny' reverse -k -
    run 0 $'255.0.0.0 0.255.255.255\nff00:: ff:ffff:ffff:ffff:ffff:ffff:ffff:ffff\n' '' '' mask -k 8
    run 0 $'192.0.2.0 255.255.255.0 0.0.0.255\n' '' '' mask 192.0.2.0/24
    run 0 $'10.0.0.0 255.0.0.0 0.255.255.255\n:: :: ffff:ffff:ffff:ffff:ffff:ffff:ffff:ffff\n' '' '' mask both
    run 0 $'255.255.255.255 0.0.0.0\nffff:ffff:: ::ffff:ffff:ffff:ffff:ffff:ffff\n' '' '' mask 32
    run 0 $'ffff:ffff:8000:: ::7fff:ffff:ffff:ffff:ffff:ffff\n' '' '' mask +33
    run 0 $'0.0.0.0 255.255.255.255\n:: ffff:ffff:ffff:ffff:ffff:ffff:ffff:ffff\n' '' '' mask 0
    run 0 $'10.0.0.0 255.0.0.0 0.255.255.255\n' '' '' mask ./24
    # of a mask its length, of a host mask where it is no mask
    run 0 $'24\n' '' '' mask 255.255.255.0
    run 0 $'24\n' '' '' mask 0.0.0.255
    run 0 $'0\n' '' '' mask 0.0.0.0
    run 0 $'32\n' '' '' mask 255.255.255.255
    run 0 $'1\n' '' '' mask 127.255.255.255
    run 0 $'36\n' '' '' mask ffff:ffff:f000::
    run 0 $'112\n' '' '' mask ::ffff
    run 0 $'0\n' '' '' mask ::
    run 0 $'0.0.0.1 255.255.255.255 0.0.0.0\n' '' '' mask 0.0.0.1/32
    run 0 $'255.0.255.0 255.255.255.255 0.0.0.0\n' '' '' mask 255.0.255.0
    run 0 $'255.255.255.0 255.255.255.255 0.0.0.0\n' '' '255.255.255.0' mask -
    run 2 '' "129$neither"$'\n' '' mask 129
}

# What addresses are for. The entries are those of the registries of IANA, by hand.
rows_of_classes() {
    local neither=': no address, and no file that can be read'
    run 0 $'10.1.2.3 10.0.0.0/8 Private-Use RFC1918 not-global 2025-05\n' '' '' class 10.1.2.3
    run 1 $'8.8.8.8 -\n' '' '' class 8.8.8.8
    run 1 $'2606:4700::1 -\n' '' '' class 2606:4700::1
    # the longest block counts
    run 0 $'192.0.0.9 192.0.0.9 PCP-Anycast RFC7723 global 2025-05\n' '' '' class 192.0.0.9
    run 0 $'192.0.0.7 192.0.0.0/29 IPv4-Service-Continuity RFC7335 not-global 2025-05\n' '' '' class 192.0.0.7
    run 0 $'192.0.0.11 192.0.0.0/24 IETF-Protocol-Assignments RFC6890 not-global 2025-05\n' '' '' class 192.0.0.11
    run 0 $'192.0.0.170 192.0.0.170 NAT64/DNS64-Discovery RFC7050 not-global 2025-05\n' '' '' class 192.0.0.170
    run 0 $'192.88.99.2 192.88.99.2 6a44-Relay-Anycast RFC6751 not-global 2025-05\n' '' '' class 192.88.99.2
    run 0 $'192.88.99.1 192.88.99.0/24 Deprecated-6to4-Relay-Anycast RFC7526 n/a 2025-05\n' '' '' class 192.88.99.1
    run 0 $'255.255.255.255 255.255.255.255 Limited-Broadcast RFC919 not-global 2025-05\n' '' '' class 255.255.255.255
    run 0 $'255.255.255.254 240.0.0.0/4 Reserved RFC1112 not-global 2025-05\n' '' '' class 255.255.255.254
    run 0 $'0.0.0.0 0.0.0.0 This-Host-On-This-Network RFC1122 not-global 2025-05\n' '' '' class 0.0.0.0
    run 0 $':: :: Unspecified RFC4291 not-global 2025-05\n' '' '' class ::
    run 0 $'0.0.0.1 0.0.0.0/8 This-Network RFC791 not-global 2025-05\n' '' '' class 0.0.0.1
    run 0 $'2001:db8::1 2001:db8::/32 Documentation RFC3849 not-global 2025-05\n' '' '' class 2001:DB8:0::1
    run 0 $'64:ff9b::808:808 64:ff9b::/96 IPv4-IPv6-Translation RFC6052 global 2025-05\n' '' '' class 64:ff9b::8.8.8.8
    run 0 $'2002:: 2002::/16 6to4 RFC3056 n/a 2025-05\n' '' '' class 2002::
    run 0 $'2001:1::3 2001:1::3 DNS-SD-SRP-Anycast RFC9665 global 2025-05\n' '' '' class 2001:1::3
    run 0 $'febf:ffff::1 fe80::/10 Link-Local RFC4291 not-global 2025-05\n' '' '' class febf:ffff::1
    # each address of a file, in its order
    run 0 $'198.19.255.255 198.18.0.0/15 Benchmarking RFC2544 not-global 2025-05\n198.20.0.0 -\nfd00::1 fc00::/7 Unique-Local RFC4193 not-global 2025-05\n' '' \
        '# seen\n198.19.255.255 GET /\r\n\n 198.20.0.0;x\n\tfd00::1#' class -
    run 1 $'198.20.0.0 -\n' '' '198.20.0.0' class -
    run 1 '' '' '' class nothing
    run 0 $'10.0.0.1 10.0.0.0/8 Private-Use RFC1918 not-global 2025-05\n' '' '' class ./address
    run 2 $'10.0.0.1 10.0.0.0/8 Private-Use RFC1918 not-global 2025-05\n' $'-:2: x: invalid IP address syntax\n' '10.0.0.1\nx\n10.0.0.2' class -
    run 2 '' $'./10.1.2.3:1: 10.0.0.0/8: invalid IP address syntax\n' '' class ./10.1.2.3
    run 2 '' "10.0.0.0/8$neither"$'\n' '' class 10.0.0.0/8
    run 2 '' "10.0.0.256$neither"$'\n' '' class 10.0.0.256
    run 2 '' "missing$neither"$'\n' '' class missing
    run 2 '' ".$neither"$'\n' '' class .
    run 2 '' $'ADDR|FILE is missing, see: netset help class\n' '' class
    run 2 '' $'10.0.0.1: one argument too many, see: netset help class\n' '' class 10.0.0.1 10.0.0.1
    run 2 '' $'-k: no such option, see: netset help class\n' '' class -k 10.0.0.1
}

# The lines that have an address.
rows_of_lines() {
    run 0 $'ten:1: 10.0.0.0/8\n-:3: 10.1.2.3\n' '' '10.2.0.0/16\n\n10.1.2.3 # x\n' which 10.1.2.3 ten eight -
    run 0 $'hosts:1: 10.0.0.0/8\n' '' '' which 10.255.255.255 hosts
    run 0 $'both:2: ::/0\n' '' '' which ::1 both
    run 0 $'two\\x0alines:1: 10.0.0.0/8\n' '' '' which 10.0.0.1 $'two\nlines'
    run 0 $'-:1: ::/0\n' '' '::/0' which ::ffff:10.0.0.1
    run 1 '' '' '' which 11.0.0.0 ten
    run 1 '' '' '' which 10.0.0.1 nothing
    run 2 '' $'10.0.0.0/8: no address\n' '' which 10.0.0.0/8 missing
    run 2 '' $'x: no address\n' '' which -k x missing
    run 2 '' $'bad:1: 10.0.0.0/x: couldn\'t parse length in network: invalid length text\n' '' which 10.0.0.1 ten bad missing
    run 2 '' $'missing: no such file\n' '' which 10.0.0.1 ten missing
    run 2 '' $'-:1: x: couldn\'t parse address in network: invalid IP address syntax\n-:2: y: couldn\'t parse address in network: invalid IP address syntax\n' \
        'x\ny' which -k 10.0.0.1 -
    run 2 '' $'ADDR is missing, see: netset help which\n' '' which
}

# Memory that is refused, to commands that read lists.
rows_without_memory() {
    local command
    "${CC:-cc}" -shared -fPIC -o "$room/refuse.so" ../../.ci/refuse.c -ldl
    for command in merge nets not ranges count; do
        refuse '10.0.0.0/9\n10.128.0.0/9\n::1-::8\n' "$command" - both
    done
    for command in minus and diff; do
        refuse '10.0.0.0/9\n::/1\n' "$command" both -
    done
    refuse '10.0.0.1/9\n10.0.0.0/9\n10.128.0.0/9\n::\n' check - both
    refuse '10.0.0.0/9\n' not --in ::/0 -
    refuse '10.0.0.0/9\n' not --in ::/0 - --format json
    refuse '10.0.0.0/9\n' merge --host-bits -
    refuse '10.0.0.0 255.128.0.0\n' merge --masks -
    refuse '10.0.0.0/9\n' merge -k both -
    refuse '10.0.0.0/9\n' merge --skip-bad both -
    told=$'-:1: x: couldn\'t parse address in network: invalid IP address syntax\n' refuse 'x\n10.0.0.0/9\n' check --skip-bad both -
    told=$'-:2: x: couldn\'t parse address in network: invalid IP address syntax\n' refuse '10.0.0.0/9\nx\n' merge --skip-bad both -
    told=$'-:1: x: couldn\'t parse address in network: invalid IP address syntax\n' refuse 'x 1\n10.0.0.0/8 2\n' look --skip-bad - address
    refuse '10.0.0.0/9\n' merge both - -o made
    refuse '10.0.0.0/9\n' diff both - -o made
    refuse '10.0.0.0/9\n' diff both - --format json
    refuse '10.0.0.0/8 x\n2001:db8::/32 y\n' same west -
    refuse '10.0.0.0/8 x\n2001:db8::/32 y\n' same -o made - west
    refuse '10.0.0.0/8 x\n' same -k west -
    refuse '' split -o made 10.0.0.0/8 20
    refuse '10.0.0.0/9\n' free both 9 -
    refuse 'deny 10.0.0.0/9\npermit 10.0.0.0/8\npermit ::1\n' acl -
    refuse 'deny 10.0.0.0/9\npermit 10.0.0.0/8\npermit ::1\n' acl - --format juniper
    refuse 'permit 10.0.0.0/8\npermit ::1\ndeny 10.0.0.0/9\ndeny ::1\n' acl --shadowed -
    refuse 'deny 10.0.0.0/9\npermit 10.0.0.0/8\npermit ::1\n' acl --diff rules -
    refuse '10.0.0.0/9\n' free --all 10.0.0.0/8 9 -
    refuse '10.0.0.0/9\n' split - 10
    refuse '10.0.0.0/9\n' split - 10 --format juniper
    refuse '10.0.0.0/9\n' free --all 10.0.0.0/8 9 - --format cisco -o made
    refuse '10.0.0.0/9\n' reverse -
    refuse '' mask 10.0.0.0/8
    refuse '10.0.0.1\n8.8.8.8\n::1' class -
    refuse '' class 10.0.0.1
    refuse '10.0.0.0/9\n' which 10.0.0.1 -
    refuse '10.0.0.1\n::1 x\n11.0.0.1' match ten_and_eight
    refuse '10.0.0.1\n11.0.0.1' match -c -v both
    refuse '10.0.0.1\n11.0.0.1' match ten_and_eight seen - again
    refuse '10.0.0.1\n11.0.0.1\n2001:db8::1' look owners
    refuse '10.0.0.0/8 x\n10.0.0.0/7\n2001:db8::/32 y' compile - compiled
    refuse '10.0.0.0/9 x\n10.128.0.0/9 x\n2001:db8::/32 y\n' smallest -
    refuse '10.0.0.0/9 x\n10.128.0.0/10 x\n10.192.0.0/11 x\n2001:db8::/32 y\n' smallest --holes - -o made
    refuse '10.0.0.1\n11.0.0.1\n2001:db8::1' look one
    refuse 'a,10.0.0.1\n\nb,::1' look --keep --field 2 --separator , owners
    refuse 'at 10.0.0.1\nat 11.0.0.1' look --keep --any one
    refuse 'ip,n\n10.0.0.1,a' look --header --keep --field 1 --separator , owners
    refuse '10.0.0.1\n11.0.0.1' look --format json --table-separator '|' parted
    refuse '10.0.0.1\n11.0.0.1' look --table-fields 2,1 placed
    refuse '10.0.0.1\n11.0.0.1' look --format json one
    refuse '10.0.0.1\n11.0.0.1' match one
    refuse 'a,10.0.0.1\nb,11.0.0.1' match --field 2 --separator , one
}

printf '10.0.0.0/8\n' >"$room/ten"
cp "$room/ten" "$room/10.1.2.3"
cp "$room/ten" "$room/24"
printf '10.0.0.0/8\n::/0\n' >"$room/both"
printf '8000::/1\n' >"$room/eight"
printf '::/1\n' >"$room/seven"
printf '10.0.0.0/8\n8000::/1\n' >"$room/ten_and_eight"
printf '10.0.0.0/29\n' >"$room/eight_addresses"
printf '10.0.0.0/x\n' >"$room/bad"
printf '# two blocks\npermit 10.0.0.0/9\npermit\t10.129.0.0/16 ; one\r\n\ndeny 10.128.0.0/9\npermit ::1' >"$room/rules"
printf 'deny ::/0\npermit ::1\n' >"$room/"$'two\nrules'
printf '10.0.0.0/8 ten\n10.1.0.0/16\tfirst\r\n\n# 10.2.0.0/16 x\n10.1.0.0/16  x  y \t; z\n192.0.2.7\n2001:db8::/32 \xff#\n::/0 all' \
    >"$room/owners"
: >"$room/nothing"
printf '10.0.0.0/8 west\n10.1.0.0/16 east\n::/0 six\n' >"$room/west"
printf '10.0.0.0/8 west\n::/0 six\n' >"$room/west_alone"
printf '10.0.0.0/8|west\n10.1.0.0/16|east\n::/0|six\n' >"$room/west_only"
printf '10.0.0.0/8 \xfe\n' >"$room/other_bytes"
printf '0.0.0.0/1 b\n128.0.0.0/1 c\n' >"$room/split_in_two"
printf '10.0.0.7/8\n' >"$room/hosts"
printf '11.0.0.0/8\n' >"$room/-list"
printf '10.0.0.1\n' >"$room/address"
printf '192.0.2.1\n' >"$room/one_address"
printf '10.0.0.0\n' >"$room/zero"
printf '10.0.0.1 a\n11.0.0.1 b\n10.2.0.0/16 c\n' >"$room/seen"
printf ' a b 10.0.0.1\nc\td  11.0.0.1 e\nf g 10.2.0.0/16 h\n' >"$room/spaced"
printf '2026-11-26,192.0.2.70,GET /\n' >"$room/kept_csv"
printf '10.0.0.0/8|west\n' >"$room/parted"
printf 'west 10.0.0.0/8\n' >"$room/placed"
printf 'net name\n10.0.0.0/8 west\n' >"$room/headed"
printf '10.0.0.0\t8\t64500_64501\n2001:db8::\t32\t64502\n' >"$room/origins"
printf 'default dev eth0\n' >"$room/defaults"
printf '10.0.0.1\n11.0.0.1\n192.0.2.1\n' >"$room/asked"
printf '2026-11-26 192.0.2.70 GET /\n' >"$room/kept_log"
printf 'a,10.0.0.1,b\nc,11.0.0.1\nd,10.2.0.0/16,\n' >"$room/commas"
printf '12.0.0.0/8\n\n10.0.0.9\n# 10.0.0.1\n10.0.0.8' >"$room/again"
printf '10.0.0.1/8\n' >"$room/"$'two\nlines'
seq 0 255 | awk '{ print "10.1." $1 ".0/24 " $1 }' >"$room/parts"
output_file=$room/output
error_file=$room/error
tried=0
# The version and the logic of the sources, which is that of the kit where there is one; a program that cargo built says so.
version=$(printf "$(sed -n 's/^pub const VERSION: &str = "\(.*\)";$/\1/p' ../netset_commands/src/program.rt)")
! command -v rt >/dev/null || [[ ${version#*$'\n'} == "$(rt version | grep -o 'logic .*')" ]] || { echo "VERSION names another logic" >&2; differs=1; }
for built in "${programs[@]}"; do
    [[ -f $built ]] || continue
    tried=1
    build=${built##*/} program=$room/${built##*/}
    cp "$built" "$program"
    chmod 755 "$program"
    by=
    ! grep -q 'built by cargo' "$program" || by=$'built by cargo of the proved text\n'
    rows
    rows_of_arguments
    rows_of_formats
    rows_of_ranges
    rows_of_input_twice
    rows_of_changes
    rows_of_same_tables
    rows_of_access_lists
    rows_of_pools
    rows_of_walks
    rows_of_findings
    rows_of_matches
    rows_of_several_files
    rows_of_fields
    rows_of_look_ups
    rows_of_records
    rows_of_forms
    rows_of_headed_tables
    rows_of_objects
    rows_of_kept_lines
    rows_of_compiled_tables
    rows_of_smallest_tables
    rows_of_outputs
    rows_of_a_full_disk
    rows_of_stored_tables
    rows_of_logs
    rows_of_one_network
    rows_of_lines
    rows_of_descriptions
    rows_of_classes
    rows_of_host_bits
    rows_of_masks
    rows_of_all_errors
    rows_of_skipped_lines
    rows_of_long_lines
    rows_of_messages
    long_list
    runs/streams.py "$program" || differs=1
    runs/saving.py "$program" || differs=1
    if command -v "${CC:-cc}" >/dev/null; then
        rows_without_memory
    fi
    if [[ -c /dev/full ]]; then
        rows_where_a_stream_fails
    fi
done
if ((!tried)); then
    echo "no built program in $PWD/out: run 'rt ci' first" >&2
    exit 1
fi
# Random lists beside Python's arithmetic, and beside `iprange` where the machine has it.
if ! NETSET=$program beside/compare 25 >"$room/compared"; then
    cat "$room/compared" >&2
    differs=1
fi
# What people who run networks do with it, beside what does it today.
if ! beside/jobs "$program" >"$room/done"; then
    cat "$room/done" >&2
    differs=1
fi
exit "$differs"
