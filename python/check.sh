#!/usr/bin/env bash
# check.sh LIBRARY: makes a wheel with this libpcidr.so inside, installs it into a fresh environment of Python, and runs the
# tests and an example there, then tests of calls without the extension in C and by a Python of each other version from 3.10 on.
# Checks the types where there is mypy. Prints what is not as wanted.
set -euo pipefail
python=$(cd "$(dirname "$0")" && pwd)
runs=$python/../crates/cidr_c/runs
library=$1
room=$(mktemp -d)
trap 'rm -rf "$room"' EXIT
unset PCIDR_LIBRARY PYTHONPATH
export PYTHONDONTWRITEBYTECODE=1
status=0

# The stubs of the calls are those of the header.
python3 "$python/make_calls.py" --check || status=1

PCIDR_LIBRARY=$library python3 "$python/build_wheel.py" "$room"
interpreter=$room/venv/bin/python
pip=(python3 -m pip --disable-pip-version-check --python "$interpreter")
if python3 -m venv --without-pip "$room/venv" >/dev/null 2>&1 && "${pip[@]}" --version >/dev/null 2>&1; then
    install=("${pip[@]}" -q install --no-index)
    "${install[@]}" "$room"/*.whl
    # pip makes the same wheel of the sources.
    PCIDR_LIBRARY=$library "${install[@]}" --target "$room/second" "$python"
    cmp "$room/second/pcidr/libpcidr.so" "$library" || status=1
else
    echo "pcidr: this Python has no venv with pip: the wheel was unpacked and not installed"
    interpreter=python3
    python3 -m zipfile -e "$room"/*.whl "$room/unpacked"
    export PYTHONPATH=$room/unpacked
fi
cd "$room"
"$interpreter" -m unittest discover -q -s "$python/tests" || status=1
calls=(-m unittest discover -q -s "$python/tests" -p "test_[nop]*.py")
PCIDR_CTYPES=1 "$interpreter" "${calls[@]}" || status=1
# Ten million calls are made by these two alone.
export PCIDR_SHORT=1
python3 -m zipfile -e "$room"/*.whl "$room/others"
cp "$python/compare.py" "$python/README.md" "$room"  # beside which the sources of the module don't stand
comparing=$interpreter
version() { "$1" -c 'import sys; print("%d.%d" % sys.version_info[:2])' 2>"$room/log" || true; }
tried=" $(version "$interpreter") "
for other in "${PYENV_ROOT:-$HOME/.pyenv}"/versions/*/bin/python3 /usr/bin/python3; do
    if "$other" -c 'import sys; sys.exit(sys.version_info < (3, 10))' 2>"$room/log"; then
        if "$other" -c 'import netaddr, radix' 2>"$room/log"; then comparing=$other; fi
        this=$(version "$other")
        [[ $tried != *" $this "* ]] || continue
        tried+="$this "
        PYTHONPATH=$room/others "$other" "${calls[@]}" || { echo "pcidr: $other"; status=1; }
        # An extension by the header of this Python is used by the first one, too.
        header=$("$other" -c 'import sysconfig; print(sysconfig.get_path("include"))')
        if [[ -f $header/Python.h && -f $room/others/pcidr/_fast.abi3.so && $this != 3.10 ]]; then
            cp -r "$room/others" "$room/made"
            gcc -O2 -shared -fPIC -I"$header" -I"$python/../crates/cidr_c/include" \
                -o "$room/made/pcidr/_fast.abi3.so" "$python/pcidr/_fast.c" -ldl
            PYTHONPATH=$room/made python3 -m unittest discover -q -s "$python/tests" -p "test_o*.py" ||
                { echo "pcidr: the extension by the header of $other"; status=1; }
            rm -r "$room/made"
        fi
    fi
done
# The tables of calls, by a Python that has netaddr and radix, if there is one; of each module that it lacks it says so.
PYTHONPATH=$room/others "$comparing" "$room/compare.py" || status=1
# The extension once more under the sanitizers of gcc, where they are there.
sanitizer=$(gcc -print-file-name=libasan.so 2>"$room/log" || true)
if [[ -f $sanitizer && -f $room/others/pcidr/_fast.abi3.so ]]; then
    gcc -g -O1 -fsanitize=address,undefined -fno-sanitize-recover=undefined -Wall -Wextra -Werror -shared -fPIC \
        -I"$(python3 -c 'import sysconfig; print(sysconfig.get_path("include"))')" -I"$python/../crates/cidr_c/include" \
        -o "$room/others/pcidr/_fast.abi3.so" "$python/pcidr/_fast.c" -ldl
    LD_PRELOAD=$sanitizer ASAN_OPTIONS=detect_leaks=0 PYTHONMALLOC=malloc PYTHONPATH=$room/others \
        python3 -m unittest discover -q -s "$python/tests" -p "test_[op]*.py" || status=1
fi
typed=
for each in python3 /usr/bin/python3; do
    if [[ -z $typed ]] && "$each" -m mypy --version >"$room/log" 2>&1; then typed=$each; fi
done
if [[ -n $typed ]]; then
    MYPYPATH=$python "$typed" -m mypy --strict "$python/pcidr" "$python"/examples/*.py "$python/tests/test_types.py" || status=1
    "$interpreter" -c 'import doctest, sys; print(doctest.script_from_examples(sys.stdin.read()))' <"$python/README.md" >"$room/page.py"
    MYPYPATH=$python "$typed" -m mypy --strict --allow-redefinition "$room/page.py" || status=1
else
    echo "pcidr: there is no mypy: the types were not checked"
fi
"$interpreter" -m doctest "$room/README.md" || status=1
"$interpreter" "$python/examples/aggregate.py" "$runs/list" | cmp - "$runs/aggregate.txt" || status=1
"$interpreter" -c 'from pcidr import Table; Table({"10.0.0.0/8": "core", "10.1.0.0/16": "edge"}).save("routes")'
"$interpreter" "$python/examples/stored.py" routes 10.1.2.3 10.2.0.0 11.0.0.0 | cmp - "$runs/stored.txt" || status=1
exit "$status"
