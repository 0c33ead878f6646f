# shellcheck shell=bash
# What the scripts of this folder share that run programs. A script reads it before all else:
#     . "$(dirname -- "${BASH_SOURCE[0]}")/checks.sh" || exit 1
# From there on `top` is the repository, and checks are counted in `passed` and `failed`.
set -u
top=$(cd -P -- "$(dirname -- "${BASH_SOURCE[0]}")/.." && pwd) || exit 1
passed=0 failed=0

# take_program [PROGRAM]: sets `program` to its whole path; without one, to the program that `rt ci` built.
take_program() {
    program=${1:-$top/crates/zxopt/out/zxopt}
    case $program in /*) ;; *) program=$PWD/$program ;; esac
    if ! [ -f "$program" ] || ! [ -x "$program" ]; then
        echo "tests/${0##*/}: no program at $program" >&2
        exit 1
    fi
}

# make_room: sets `room` to a new folder, which goes when the script ends.
make_room() {
    room=$(mktemp -d) || exit 1
    trap 'rm -rf -- "$room"' EXIT
}

# holds NAME WHY: counts a check, which failed where there is a reason why.
holds() {
    if [ -z "$2" ]; then
        passed=$((passed + 1))
    else
        failed=$((failed + 1))
        printf 'FAILED: %s: %s\n' "$1" "$2"
    fi
}

# tell_counts: the last line of a script, and its exit status.
tell_counts() {
    printf '%d passed, %d failed\n' "$passed" "$failed"
    ((failed == 0))
}
