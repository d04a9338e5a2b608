#!/usr/bin/env bash
# check.sh [PROGRAM..]: runs each program, or else the built one as each compiler of the kit has built it, and compares the exit
# status, standard output and standard error of each run, byte by byte, with what is wanted. Prints nothing where all runs are
# as wanted.
set -euo pipefail
export LC_ALL=C
programs=()
for each; do programs+=("$(realpath -- "$each")"); done
cd "$(dirname "$0")/.."
((${#programs[@]})) || programs=(out/cidr_tool out/cidr_tool.by-rattle)

usage=$'usage: cidr_tool show NET | in NET ADDR | cmp NET NET | walk NET ENDS | bytes NET | loose TEXT\n'
shown=$'network 192.0.2.48/28\nfirst 192.0.2.48\nlast 192.0.2.63\nmask 255.255.255.240\nlength 28\nfamily Ipv4\n'
host_part=$'host part of address was not zero\n'
no_address=$'invalid IP address syntax\n'
no_network="couldn't parse address in network: $no_address"
no_length=$'couldn\'t parse length in network: invalid length text\n'
too_long_ipv4=$'invalid length for network: Network length 33 is too long for Ipv4 (maximum: 32)\n'
too_long_ipv6=$'invalid length for network: Network length 129 is too long for Ipv6 (maximum: 128)\n'

# What runs the program, if it is not run by itself.
named=()

room=$(mktemp -d)
trap 'rm -rf "$room"' EXIT
differs=0

# has FILE TEXT: whether the file has exactly this text. A device keeps no text.
has() {
    [[ -c $1 ]] || printf '%s' "$2" | cmp -s - "$1"
}

# run STATUS OUTPUT ERROR [ARGUMENT..]: runs the program with these arguments, and says in what it differs.
run() {
    local wanted=$1 output=$2 error=$3 status=0 wrong=() part
    shift 3
    timeout 60 "${named[@]}" "$program" "$@" </dev/null >"$output_file" 2>"$error_file" || status=$?
    ((status == wanted)) || wrong+=("exit status $status, not $wanted")
    has "$output_file" "$output" || wrong+=("standard output")
    has "$error_file" "$error" || wrong+=("standard error")
    for part in "${wrong[@]}"; do
        differs=1
        echo "$build ${*@Q}: not as wanted: $part" >&2
    done
}

# shows ARGUMENT NETWORK FIRST LAST MASK LENGTH FAMILY: runs `show`, which writes these parts of a network.
shows() {
    local parts
    printf -v parts 'network %s\nfirst %s\nlast %s\nmask %s\nlength %s\nfamily %s\n' "${@:2}"
    run 0 "$parts" '' show "$1"
}

# A network's parts; its longest answer has the 211 bytes that there is room for; what is no network is an error.
rows_of_show() {
    run 0 "$shown" '' show 192.0.2.48/28
    shows 10.0.0.1 10.0.0.1 10.0.0.1 10.0.0.1 255.255.255.255 32 Ipv4
    shows 0.0.0.0/0 0.0.0.0/0 0.0.0.0 255.255.255.255 0.0.0.0 0 Ipv4
    shows 2001:DB8::/32 2001:db8::/32 2001:db8:: 2001:db8:ffff:ffff:ffff:ffff:ffff:ffff ffff:ffff:: 32 Ipv6
    run 0 $'network any\n' '' show any
    local long=abcd:abcd:abcd:abcd:abcd:abcd:abcd
    shows "$long:abcc/127" "$long:abcc/127" "$long:abcc" "$long:abcd" ffff:ffff:ffff:ffff:ffff:ffff:ffff:fffe 127 Ipv6
    run 1 '' "$host_part" show 192.0.3.0/23
    run 1 '' "$host_part" show ::1/64
    run 1 '' "$too_long_ipv4" show 192.0.2.1/33
    run 1 '' "$too_long_ipv6" show ::/129
    run 1 '' "$no_network" show x
    run 1 '' "$no_network" show any/8
    run 1 '' "$no_length" show 10.0.0.0/
    run 1 '' "$host_part" show 10.0.0.1/8
    run 1 '' "$no_length" show 10.0.0.0/x
}

# The network's error comes before the address's, of which the message differs.
rows_of_in() {
    run 0 $'yes\n' '' in any ::1
    run 0 $'yes\n' '' in 10.0.0.0/8 10.255.0.1
    run 0 $'no\n' '' in 10.0.0.0/8 11.0.0.0
    run 0 $'no\n' '' in ::ffff:0:0/96 192.0.2.1
    run 1 '' "$no_address" in 10.0.0.0/8 x
    run 1 '' "$no_address" in 10.0.0.0/8 any
    run 1 '' "$no_address" in 10.0.0.0/8 10.0.0.0/8
    run 1 '' "$host_part" in 10.0.0.1/8 x
    run 1 '' "$no_network" in x 10.0.0.1
    run 1 '' "$no_network" in x y
    run 0 $'no\n' '' in 10.0.0.0/8 ::1
    run 1 '' "$no_address" in any x
}

# Of two wrong networks the left one's error is told, whichever it is.
rows_of_cmp() {
    run 0 $'less\n' '' cmp any 0.0.0.0/0
    run 0 $'less\n' '' cmp 192.0.2.0/24 192.0.2.0/25
    run 0 $'greater\n' '' cmp ::/0 255.255.255.255
    run 0 $'equal\n' '' cmp 10.0.0.0/+08 10.0.0.0/8
    run 1 '' "$host_part" cmp 10.0.0.0/8 10.0.0.1/8
    run 1 '' "$host_part" cmp 10.0.0.1/8 10.0.0.0/8
    run 1 '' "$host_part" cmp 10.0.0.1/8 x
    run 1 '' "$no_network" cmp x 10.0.0.1/8
    run 1 '' "$no_network" cmp x y
    run 1 '' "$too_long_ipv6" cmp ::/129 10.0.0.0/33
    run 1 '' "$too_long_ipv4" cmp 10.0.0.0/33 ::/129
}

# Letters are read before the network.
rows_of_walk() {
    run 0 $'1.2.3.0\n1.2.3.3\n1.2.3.2\n1.2.3.1\nnone\n' '' walk 1.2.3.0/30 fbbff
    run 0 $'::\n::1\nnone\n' '' walk ::/127 fff
    run 0 '' '' walk 10.0.0.0/8 ''
    run 1 '' "$no_network" walk any f
    run 1 '' "$host_part" walk 10.0.0.1/8 f
    run 1 '' "$host_part" walk 10.0.0.1/8 ''
    run 2 '' "$usage" walk ::/0 x
    run 2 '' "$usage" walk x fF
    run 0 $'192.0.2.48\n192.0.2.49\nnone\n' '' walk 192.0.2.48/31 fff
}

# Compact bytes, two digits each.
rows_of_bytes() {
    run 0 $'18c0000200\n' '' bytes 192.0.2.0/24
    run 0 $'080a000000\n' '' bytes 10.0.0.0/+08
    run 0 $'0000000000\n' '' bytes 0.0.0.0/0
    run 0 $'20ffffffff\n' '' bytes 255.255.255.255
    run 0 $'ff\n' '' bytes any
    run 0 $'4000000000000000000000000000000000\n' '' bytes ::/0
    run 0 $'c000000000000000000000000000000001\n' '' bytes ::1
    run 0 $'bc0123456789abcdeffedcba9876543210\n' '' bytes 0123:4567:89AB:CDEF:fedc:ba98:7654:3210/124
    run 1 '' "$host_part" bytes 192.0.2.1/24
    run 1 '' "$no_network" bytes 18c0000200
    run 1 '' "$no_network" bytes ''
    run 1 '' "$no_length" bytes 10.0.0.0/
}

# Loose strings of IPv4, and addresses of IPv6.
rows_of_loose() {
    run 0 $'192.0.2.1\n' '' loose 192.0.2.1
    run 0 $'127.0.0.1\n' '' loose 127.1
    run 0 $'10.0.1.2\n' '' loose 0xA000102
    run 0 $'8.32.2.1\n' '' loose 010.0X20.513
    run 0 $'255.255.255.255\n' '' loose 4294967295
    run 0 $'::1\n' '' loose ::1
    run 0 $'abcd:abcd:abcd:abcd:abcd:abcd:abcd:abcd\n' '' loose ABCD:ABCD:ABCD:ABCD:ABCD:ABCD:ABCD:ABCD
    run 1 '' "$no_address" loose 08
    run 1 '' "$no_address" loose 4294967296
    run 1 '' "$no_address" loose any
    run 1 '' "$no_address" loose 10.0.0.0/8
    run 1 '' "$no_address" loose ''
}

# repeated TEXT NUMBER: the text so many times, without a line feed at its end.
repeated() {
    local n
    for ((n = 0; n < $2; n++)); do
        printf '%s' "$1"
    done
}

# Long arguments are read whole: 127 in octal digits with zeros before it, 300 bytes in all; a prefix length with 1,000
# zeros before it; and 256 letters, but not one more. More arguments than any command has are all read.
rows_of_long_arguments() {
    local zeros letters lines='' tens ones digits='0 1 2 3 4 5 6 7 8 9 a b c d e f'
    zeros=$(repeated 0 295)
    run 0 $'127.0.0.1\n' '' loose "${zeros}177.1"
    zeros=$(repeated 0 1000)
    run 0 $'equal\n' '' cmp 10.0.0.0/8 "10.0.0.0/${zeros}8"
    letters=$(repeated f 256)
    run 0 $'0.0.0.0\n'"$(repeated $'none\n' 255)"$'\n' '' walk 0.0.0.0/32 "$letters"
    run 2 '' "$usage" walk ::/0 "${letters}f"
    # 256 lines of 40 bytes
    for tens in $digits; do
        for ones in $digits; do
            lines+=ffff:ffff:ffff:ffff:ffff:ffff:ffff:ff$tens$ones$'\n'
        done
    done
    run 0 "$lines" '' walk ffff:ffff:ffff:ffff:ffff:ffff:ffff:ff00/120 "$letters"
    run 2 '' "$usage" $(repeated 'show ' 20)
    run 2 '' "$usage" $(repeated '192.0.2.48/28 ' 300)
}

# Its own name is not read: one that is no text, none, and a long one.
rows_of_names() {
    local name named
    for name in $'\xff' '' "$(repeated x 300)"; do
        # a shell that runs the program under this name
        named=(bash -c 'exec -a "$0" "$@"' "$name")
        run 0 "$shown" '' show 192.0.2.48/28
    done
}

# Other arguments, and one too many, even if it is empty or no text.
rows_of_usage() {
    run 2 '' "$usage"
    run 2 '' "$usage" show
    run 2 '' "$usage" in x
    run 2 '' "$usage" cmp x
    run 2 '' "$usage" walk 10.0.0.0/8
    run 2 '' "$usage" loose
    run 2 '' "$usage" bytes
    run 2 '' "$usage" BYTES 10.0.0.0/8
    run 2 '' "$usage" '' x
    run 2 '' "$usage" SHOW 10.0.0.0/8
    run 2 '' "$usage" show 10.0.0.0/8 x
    run 2 '' "$usage" show 10.0.0.0/8 ''
    run 2 '' "$usage" in 10.0.0.0/8 10.0.0.1 10.0.0.2
    run 2 '' "$usage" cmp 10.0.0.0/8 ::/0 x
    run 2 '' "$usage" cmp x y z
    run 2 '' "$usage" walk 10.0.0.0/8 f f
    run 2 '' "$usage" bytes any any
    run 2 '' "$usage" loose 127.1 127.1
    run 2 '' "$usage" cmp 10.0.0.0/8 ::/0 x y
    run 2 '' "$usage" walk 10.0.0.0/8 x
    run 2 '' "$usage" $'\xff'
    run 2 '' "$usage" show $'\xff'
    run 2 '' "$usage" show 10.0.0.0/8 $'\xff'
    run 2 '' "$usage" cmp x y $'\xff'
}

# Each command that README.md shows, as a line after `$`, prints the lines that stand below it there, on one stream.
rows_of_the_page() {
    local line words='' wanted='' shown_commands=0
    while IFS= read -r line; do
        if [[ -n $words && $line == '    '[^$]* ]]; then
            wanted+=${line#    }$'\n'
            continue
        fi
        if [[ -n $words ]]; then
            # no word on the page has a space, a quote or a star
            timeout 60 "$program" $words </dev/null >"$room/page" 2>&1 || true
            if ! printf '%s' "$wanted" | cmp -s - "$room/page"; then
                differs=1
                echo "$build $words: not as README.md has it" >&2
            fi
            shown_commands=$((shown_commands + 1))
        fi
        words='' wanted=''
        [[ $line != '    $ cidr_tool '* ]] || words=${line#'    $ cidr_tool '}
    done < <(cat README.md && echo)
    if ((!shown_commands)); then
        differs=1
        echo "README.md shows no command" >&2
    fi
}

# Either stream fails, or both.
rows_where_a_stream_fails() {
    local output_file=/dev/full
    run 3 '' $'output failed\n' show 192.0.2.48/28
    run 0 '' '' walk 10.0.0.0/8 ''
    run 1 '' "$host_part" show 10.0.0.1/8
    run 2 '' "$usage" show
    local error_file=/dev/full
    run 3 '' '' show 192.0.2.48/28
    output_file=$room/output
    run 0 "$shown" '' show 192.0.2.48/28
    run 1 '' '' show 10.0.0.1/8
    run 2 '' '' show
}

output_file=$room/output
error_file=$room/error
tried=0
for built in "${programs[@]}"; do
    [[ -f $built ]] || continue
    tried=1
    build=${built##*/} program=$room/${built##*/}
    cp "$built" "$program"
    chmod 755 "$program"
    for command in show in cmp walk bytes loose long_arguments names usage; do
        rows_of_$command
    done
    rows_of_the_page
    if [[ -c /dev/full ]]; then
        rows_where_a_stream_fails
    fi
    # a path that is not UTF-8, where the file system takes one
    if cp "$program" "$room/"$'\xff' 2>/dev/null; then
        program=$room/$'\xff'
        run 0 "$shown" '' show 192.0.2.48/28
        run 2 '' "$usage"
    fi
done
if ((!tried)); then
    echo "no built program in $PWD/out: run 'rt ci' first" >&2
    exit 1
fi
exit "$differs"
