#!/bin/sh
# Tries the package for Python, a wheel that is installed in a fresh environment without a network, and the kernel for
# Jupyter.
#
#     tests/python.sh [PROGRAM]
#
# PROGRAM is not asked; it is there so that each script takes it. The archive is that of the crate poincare_c, or what ARCHIVE
# names. PYTHON names a Python with what Debian has as python3-venv, python3-pip, python3-build, python3-setuptools and
# python3-wheel, and for the kernel python3-ipykernel and python3-nbconvert; else python3 is taken, or that of the system.
# What is not installed is said, and what needs it counts as neither passed nor failed.
root=$(cd "$(dirname "$0")/.." && pwd)
ARCHIVE=${ARCHIVE:-$root/crates/poincare_c/out/libpoincare_c.a}
export ARCHIVE
. "$root/tests/tried.sh"
unset POINCARE_LIBRARY PYTHONPATH
PYTHONDONTWRITEBYTECODE=1
export PYTHONDONTWRITEBYTECODE
out=$folder/out

# knows PYTHON MODULE..: whether this Python has all of these modules
knows() {
    python=$1
    shift
    for module; do
        "$python" -c "import $module" 2>/dev/null || return 1
    done
}

# python_with MODULE..: the Python that has these modules, or nothing
python_with() {
    for python in ${PYTHON:-python3 /usr/bin/python3}; do
        if knows "$python" "$@"; then
            echo "$python"
            return
        fi
    done
}

# offline COMMAND..: runs it without a network, or where the system has no way to that with none that is found
offline() {
    if unshare -n true 2>/dev/null; then
        unshare -n "$@"
    else
        env http_proxy=http://127.0.0.1:9 https_proxy=http://127.0.0.1:9 "$@"
    fi
}

wheel_is_built() {
    make -s -C "$root/python" wheel PYTHON="$python" OUT="$folder/wheel" C_OUT="$out" || return 1
    wheel=$folder/wheel/poincare-$(cat "$root/VERSION")-py3-none-linux_$(uname -m).whl
    "$python" -m zipfile -l "$wheel" >"$folder/files" || return 1
    for file in __init__.py __main__.py libpoincare.so py.typed; do
        grep -q "^poincare/$file" "$folder/files" || return 1
    done
}

is_installed_offline() {
    "$python" -m venv "$folder/venv" && cd "$folder" &&
        offline "$folder/venv/bin/pip" install --disable-pip-version-check --no-index "$wheel"
}

# What is installed has a version, its own library, and answers.
answers_installed() {
    cd / && "$folder/venv/bin/python" -c '
import os, sys
import poincare
from poincare._library import place_of_library
with poincare.Session() as session:
    held = [poincare.__version__ == sys.argv[1], os.path.dirname(poincare.__file__) == os.path.dirname(place_of_library())]
    held += [session.line("1/(√(2)+√(3))").text == "-√(2)+√(3)", poincare.__file__.startswith(sys.argv[2])]
sys.exit(not all(held))' "$(cat "$root/VERSION")" "$folder/venv" || return 1
    "$folder/venv/bin/python" -m poincare <"$root/tests/hundred-lines.txt" >"$folder/told" &&
        diff "$folder/told" "$root/tests/hundred-answers.txt"
}

is_removed() {
    "$folder/venv/bin/pip" uninstall --disable-pip-version-check --yes poincare && cd / &&
        ! "$folder/venv/bin/python" -c 'import poincare' 2>/dev/null
}

if ! has "${CC:-gcc}" || ! has make || [ ! -f "$ARCHIVE" ]; then
    lacks "all of it" "gcc, make and $ARCHIVE are needed"
    ends
fi
python=$(python_with venv ensurepip build setuptools wheel)
if [ -n "$python" ]; then
    tried "the wheel" wheel_is_built
    tried "the package is installed without a network" is_installed_offline
    tried "the installed package answers" answers_installed
    tried "the package is removed" is_removed
else
    lacks "the package" "no Python has venv, pip, build, setuptools and wheel"
fi
python=$(python_with ipykernel jupyter_client nbconvert nbformat)
if [ -n "$python" ]; then
    make -s -C "$root/c" OUT="$out" "$out/libpoincare.so" >/dev/null
    tried "the kernel for Jupyter" env POINCARE_LIBRARY="$out/libpoincare.so" "$python" "$root/tests/notebook.py"
else
    lacks "the kernel for Jupyter" "no Python has ipykernel, jupyter_client and nbconvert"
fi
ends
