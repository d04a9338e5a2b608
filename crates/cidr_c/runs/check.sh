#!/usr/bin/env bash
# check.sh [--quick]: runs the commands of the page in a folder of its own, compiles the header, the tests and the examples as C and
# C++ with each compiler that is there, and runs them, under the address sanitizer too, with wrong arguments and refused
# allocations; looks at what `build` makes; and runs what the Python module has. With `--quick` the header is compiled by one
# compiler, and of Python the tests of calls run once, without a wheel and without those of the names of ipaddress, which take
# most of the time. Prints what is not as wanted.
set -euo pipefail
quick=
[[ ${1-} != --quick ]] || quick=1
here=$(cd "$(dirname "$0")" && pwd)
crate=$(dirname "$here")
python=$crate/../../python
room=$(mktemp -d)
trap 'rm -rf "$room"' EXIT
status=0
compiler=${CC:-cc}

export PYTHONDONTWRITEBYTECODE=1

# The commands stand in the page as they are typed at the top of the repository, and build into a folder at home.
mkdir "$room/top" "$room/home"
ln -s "$(dirname "$crate")" "$(realpath "$python")" "$room/top"
sed -n '/^```sh\( (kit.*)\)\?$/,/^```$/{/^```/!p}' "$crate/README.md" >"$room/commands"
export RUSTUP_HOME=${RUSTUP_HOME:-$HOME/.rustup} CARGO_TARGET_DIR=${CARGO_TARGET_DIR:-$(realpath "$crate")/../../rust/crates/target}
(cd "$room/top" && HOME=$room/home bash -eu "$room/commands" >"$room/printed") || status=1
cat "$here/networks.txt" "$here/networks.txt" "$here/python.txt" | cmp - "$room/printed" || status=1
lib=$room/home/pcidr
strict=(-Wall -Wextra -pedantic -Werror "-I$lib")

# wrong WHY: says what is not as wanted.
wrong() {
    echo "cidr_c: $1"
    status=1
}

# same NAME: what NAME wrote is what stands beside this script.
same() {
    cmp "$room/$1" "$here/$1" || status=1
}

# ---- the header, in each language and by each compiler

echo '#include <pcidr.h>' >"$room/header.cc"
for each in "$compiler" ${quick:+none} gcc clang; do
    [[ $each != none ]] || break
    command -v "$each" >/dev/null || continue
    for standard in c99 c11 c17; do
        "$each" "-std=$standard" "${strict[@]}" -c -o "$room/tests.o" "$here/wrong.c" || wrong "$each does not compile it as $standard"
    done
done
has_cxx=
for each in c++ g++ clang++; do
    [[ -z $quick || -z $has_cxx ]] || break
    command -v "$each" >/dev/null || continue
    has_cxx=1
    for standard in c++98 c++11 c++17; do
        "$each" "-std=$standard" "${strict[@]}" -c -o "$room/header.o" "$room/header.cc" || wrong "$each does not compile it as $standard"
    done
done
[[ -n $has_cxx ]] || echo "cidr_c: there is no C++ compiler: the header was not compiled as C++"

# ---- the examples and the tests

"$compiler" -std=c99 "${strict[@]}" -o "$room/networks" "$crate/examples/networks.c" "$lib/libpcidr.a"
"$room/networks" >"$room/networks.txt"
same networks.txt
"$compiler" -std=c11 "${strict[@]}" -o "$room/filter" "$crate/examples/filter.c" -L"$lib" -lpcidr "-Wl,-rpath,$lib"
"$room/filter" "$here/list" <"$here/addresses" >"$room/filter.txt" 2>"$room/filter.err" || status=1
same filter.txt
same filter.err
"$compiler" -std=c99 "${strict[@]}" -o "$room/lookup" "$crate/examples/lookup.c" "$lib/libpcidr.a"
asked=(10.1.2.3 10.1.255.255 11.0.0.0)
"$room/lookup" "${asked[@]}" >"$room/lookup.txt"
same lookup.txt
"$compiler" -std=c99 "${strict[@]}" -o "$room/file" "$crate/examples/file.c" "$lib/libpcidr.a"
for program in examples/networks examples/filter examples/lookup examples/file examples/mmdb runs/calls runs/wrong runs/memory runs/tables runs/files \
    runs/maxmind; do
    made=$room/$(basename "$program").checked
    refusing=()
    [[ $program != runs/memory ]] || refusing=("-Wl,--wrap=malloc,--wrap=realloc")
    "$compiler" -g -fsanitize=address,undefined -fno-sanitize-recover=undefined -std=c11 "${strict[@]}" "${refusing[@]}" \
        -o "$made" "$crate/$program.c" "$lib/libpcidr.a"
done
"$room/filter.checked" "$here/list" <"$here/addresses" 2>/dev/null | cmp - "$here/filter.txt" || status=1
"$room/networks.checked" | cmp - "$here/networks.txt" || status=1
"$room/lookup.checked" "${asked[@]}" | cmp - "$here/lookup.txt" || status=1
"$room/tables.checked" || wrong "a look-up table"
"$room/files.checked" "$room/names" || wrong "a look-up table in a file"
"$room/maxmind.checked" || wrong "a MaxMind DB file"
# One node: the lower half of IPv4 has a country.
printf '\0\0\x11\0\0\x01%16s\xe1\x47country\x42NL\xab\xcd\xefMaxMind.com\xe3\x4anode_count\xc1\x01\x4brecord_size\xa1\x18\x4aip_version\xa1\x04' >"$room/country.mmdb"
"$room/mmdb.checked" "$room/country.mmdb" 10.1.2.3 192.0.2.1 | cmp - "$here/mmdb.txt" || status=1
asked=(10.1.2.3 10.2.0.0 11.0.0.0 2001:db8::1)
"$room/file" "$room/names" "${asked[@]}" >"$room/file.txt"
same file.txt
"$room/file.checked" "$room/names" "${asked[@]}" | cmp - "$here/file.txt" || status=1
head -c 100 "$room/names" >"$room/short"
! "$room/file.checked" "$room/short" 10.1.2.3 2>"$room/file.err" || wrong "a file that is cut short is read"
[[ $(cat "$room/file.err") == "$room/short: file is shorter than its header says" ]] || wrong "the message of a file that is cut short"
: >"$room/empty"
! "$room/file.checked" "$room/empty" 10.1.2.3 2>"$room/file.err" || wrong "an empty file is read"
[[ $(cat "$room/file.err") == "$room/empty: file is empty" ]] || wrong "the message of an empty file"
"$compiler" -std=c11 "${strict[@]}" -o "$room/cut" "$here/cut.c" "$lib/libpcidr.a"
"$room/cut" "$room/cut.file" || wrong "a file that is cut short while a program has a copy of it, or has it mapped"
"$room/calls.checked" || wrong "a call around networks, of a pool or an access list"
"$room/wrong.checked" || wrong "a call with a wrong argument"
"$room/memory.checked" || wrong "a call without memory"
if "$compiler" -g -fsanitize=thread -std=c11 "${strict[@]}" -o "$room/readers" "$here/readers.c" "$lib/libpcidr.a" -pthread 2>"$room/log"; then
    "$room/readers" || wrong "eight threads that look up in a file"
else
    echo "cidr_c: the compiler has no thread sanitizer: reading threads were run without it"
    "$compiler" -std=c11 "${strict[@]}" -o "$room/readers" "$here/readers.c" "$lib/libpcidr.a" -pthread
    "$room/readers" || wrong "eight threads that look up in a file"
fi
"$compiler" -std=c11 -O2 "${strict[@]}" -o "$room/wrong" "$here/wrong.c" -L"$lib" -lpcidr "-Wl,-rpath,$lib"
(ulimit -s 192 && exec "$room/wrong") || wrong "a call with a wrong argument, in the shared library, with 192 KiB of stack"

# ---- what `build` makes

# Both libraries show the calls of the header, and nothing else.
grep -o '^uint32_t pcidr_\w*\|^size_t pcidr_\w*' "$lib/pcidr.h" | sed 's/.* //' | sort >"$room/calls"
nm -g --defined-only "$lib/libpcidr.a" | awk 'NF == 3 { print $3 }' | sort | diff "$room/calls" - || wrong "calls of libpcidr.a"
nm -D --defined-only "$lib/libpcidr.so" | awk '{ print $3 }' | sort | diff "$room/calls" - || wrong "calls of libpcidr.so"
# The shared library has a name with its version, which a program that is linked with it looks for.
name=$(readelf -d "$lib/libpcidr.so" | sed -n 's/.*soname: \[\(.*\)\]/\1/p')
version=$(sed -n 's/^Version: \(.*\)\..*/\1/p' "$lib/pcidr.pc")
[[ $name == "libpcidr.so.$version" && -f $lib/$name && ! -L $lib/$name ]] || wrong "the name of the shared library: $name"
[[ $(readlink "$lib/libpcidr.so") == "$name" ]] || wrong "libpcidr.so is no link to $name"
! readelf -lW "$lib/libpcidr.so" | grep -q 'GNU_STACK.*E' || wrong "the shared library wants a stack that can be executed"

# A link, or a file with a second name, that stands where a file is to be is replaced, and what it leads to stays. The folder's
# path has what a shell would take for more than letters, and pkg-config gives it to the compiler all the same.
odd="$room/it's a & \"b\""
mkdir "$odd"
files=(pcidr.h libpcidr.a libpcidr.so "$name")
for file in "${files[@]}" pcidr.pc; do
    echo untouched >"$room/led.$file"
    ln -s "$room/led.$file" "$odd/$file"
done
"$crate/build" "$odd" || status=1
for file in "${files[@]}"; do
    cmp "$lib/$file" "$odd/$file" || status=1
    [[ $file == libpcidr.so || ! -L $odd/$file ]] || wrong "build keeps a link"
done
for file in "${files[@]}" pcidr.pc; do
    [[ $(cat "$room/led.$file") == untouched ]] || wrong "build writes through a link"
done
[[ $(find "$odd" -mindepth 1 | wc -l) == 5 ]] || wrong "build leaves more than its files"
if command -v pkg-config >/dev/null; then
    flags=$(PKG_CONFIG_PATH=$odd pkg-config --cflags --libs pcidr)
    eval "$compiler -o '$room/by-flags' '$crate/examples/networks.c' $flags" || status=1
    LD_LIBRARY_PATH=$odd "$room/by-flags" | cmp - "$here/networks.txt" || status=1
    [[ $(PKG_CONFIG_PATH=$odd pkg-config --modversion pcidr) == "$version".* ]] || wrong "the version of pcidr.pc"
else
    echo "cidr_c: there is no pkg-config: pcidr.pc was not tried"
fi

# ---- Python

if [[ -n $quick ]]; then
    (cd "$room" && PCIDR_LIBRARY=$lib/libpcidr.so PYTHONPATH=$python python3 -m unittest discover -q -s "$python/tests" -p "test_[op]*.py") || status=1
else
    "$python/check.sh" "$lib/libpcidr.so" || status=1
fi
# A file that C wrote, by Python, and one that Python wrote, by C.
export PCIDR_LIBRARY=$lib/libpcidr.so PYTHONPATH=$python
python3 "$python/examples/stored.py" "$room/names" 10.1.2.3 2001:db8::1 |
    cmp - <(printf '10.1.2.3 is in 10.1.0.0/16: inner\n2001:db8::1 is in 2001:db8::/32: documentation\n') || wrong "a file of C, from Python"
python3 -c 'import sys; from pcidr import Table; Table({"10.0.0.0/8": "core", "10.1.0.0/16": "edge"}).save(sys.argv[1])' "$room/saved"
"$room/file.checked" "$room/saved" 10.1.2.3 10.2.0.0 | cmp - <(printf '10.1.2.3: edge\n10.2.0.0: core\n') || wrong "a file of Python, from C"
((status == 0)) && echo "cidr_c: the library for C and Python runs as wanted"
exit "$status"
