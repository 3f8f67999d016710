# What the scripts for libraries and packages share: a folder of their own, and checks that are counted. A script reads this
# file with `.`, and ends with `ends`.
folder=$(mktemp -d) || exit 1
trap 'rm -rf "$folder"' EXIT
trap 'exit 1' HUP INT TERM
passed=0
failed=0

has() {
    command -v "$1" >/dev/null
}

# lacks WHAT NEED: says that a part is not run
lacks() {
    echo "not run: $1: $2"
}

# ends: the counts so far, and the status
ends() {
    echo "$passed passed, $failed failed"
    [ "$failed" = 0 ]
    exit
}

# tried NAME COMMAND..: whether the command passes. Where its last line says how many passed and failed, these are added.
tried() {
    name=$1
    shift
    "$@" >"$folder/said" 2>&1
    status=$?
    counts=$(tail -n 1 "$folder/said" | sed -n 's/^\([0-9]*\) passed, \([0-9]*\) failed$/\1 \2/p')
    right=1
    wrong=0
    if [ -n "$counts" ]; then
        right=${counts% *}
        wrong=${counts#* }
        grep '^not run' "$folder/said"
    fi
    if [ "$status" != 0 ]; then
        [ -n "$counts" ] || right=0
        [ "$wrong" != 0 ] || wrong=1
        echo "failed: $name, status $status"
        tail -n 20 "$folder/said"
    fi
    passed=$((passed + right))
    failed=$((failed + wrong))
}
