# shellcheck shell=sh
# What the tests of the tool share; to be sourced by a test whose first word is the folder that has the
# programs.
#
# RUNNER, if set, is put before each call of the tool, as 'valgrind -q --error-exitcode=99'; with
# EVERY=3 only before each third call.

set -u
bin=$(cd "$1" && pwd) || exit 2
root=$(cd "$(dirname "$0")/.." && pwd) || exit 2
work=$(mktemp -d) || exit 2
trap 'rm -rf "$work"' EXIT
cd "$work" || exit 2
passed=0
failed=0
calls=0

pass() {
    passed=$((passed + 1))
}

fail() {
    failed=$((failed + 1))
    echo "FAILED: $1"
}

# bytes NAME HEX..: makes a file of bytes.
bytes() {
    name=$1
    shift
    echo "$*" | "$bin/unhex" > "$name" || fail "hex of $name"
}

# zeros NAME COUNT
zeros() {
    head -c "$2" /dev/zero > "$1"
}

# tool WORD..: runs the tool.
tool() {
    calls=$((calls + 1))
    if [ $((calls % ${EVERY:-1})) -eq 0 ]; then
        ${RUNNER:-} "$bin/moonbleat" "$@"
    else
        "$bin/moonbleat" "$@"
    fi
}

# call STATUS WORD..: runs the tool into stdout and stderr; its exit status must be STATUS.
call() {
    wanted=$1
    shift
    tool "$@" > stdout 2> stderr
    status=$?
    if [ "$status" -eq "$wanted" ]; then
        pass
    else
        fail "$*: exit status $status, not $wanted: $(head -c 300 stderr)"
    fi
}

# same WHAT ONE OTHER: two files must be equal.
same() {
    if cmp -s "$2" "$3"; then
        pass
    else
        fail "$1: $(diff "$2" "$3" | head -n 5)"
    fi
}

# says TEXT: standard error must begin so.
says() {
    case $(cat stderr) in
        "$1"*) pass ;;
        *) fail "standard error begins '$(head -c 100 stderr)', not '$1'" ;;
    esac
}

# silent: standard output must be empty.
silent() {
    if [ -s stdout ]; then
        fail "standard output is '$(head -c 100 stdout)'"
    else
        pass
    fi
}

# broken TEXT WORD..: exit status 3, nothing printed, and standard error is the text.
broken() {
    text=$1
    shift
    call 3 "$@"
    silent
    printf 'moonbleat: %s\n' "$text" > expected
    same "$*" stderr expected
}

# absent NAME: no such file, and no temporary one of that name.
absent() {
    for name in "$1" "$1".*; do
        if [ -e "$name" ]; then
            fail "$name is there"
            return
        fi
    done
    pass
}

# bits FILE: STEP ELEMENT of each bit that is set in masks.
bits() {
    od -An -v -tu1 -w34 "$1" |
        awk '{ for (e = 0; e < 256; e++) if (int($(int(e / 8) + 1) / 2 ^ (e % 8)) % 2) print NR - 1, e }'
}

# contains TEXT FILE: a file must have this text on one of its lines.
contains() {
    if grep -q -F -e "$1" "$2"; then
        pass
    else
        fail "$2 does not have '$1'"
    fi
}

# json FILTER WORD..: of the command with --json standard output must be one object on one line in which the
# filter is true, and standard error empty.
json() {
    filter=$1
    shift
    "$@" --json
    if [ "$(wc -l < stdout)" -eq 1 ] && [ ! -s stderr ] && jq -e "$filter" < stdout > answer 2>&1; then
        pass
    else
        fail "$*: not so in JSON: $filter: $(head -c 300 stdout)"
    fi
}
