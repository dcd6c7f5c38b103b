#!/bin/bash
# Tests of what is installed: the files, a consumer built through pkg-config, the manual page, the
# completion, and that nothing is left when it is taken away.
#
#   tests/install.sh      run by make, which hands on its variables

set -u
root=$(cd "$(dirname "$0")/.." && pwd) || exit 2
work=$(mktemp -d) || exit 2
trap 'rm -rf "$work"' EXIT
passed=0
failed=0

# expect WHAT COMMAND..: the command must succeed.
expect() {
    what=$1
    shift
    if "$@" > "$work/said" 2>&1; then
        passed=$((passed + 1))
    else
        failed=$((failed + 1))
        echo "FAILED: $what: $(head -c 500 "$work/said")"
    fi
}

# make_it WORD..
make_it() {
    make -s -C "$root" --no-print-directory "$@"
}

# prints TEXT COMMAND..: the command must print the text.
prints() {
    text=$1
    shift
    [ "$("$@" 2>&1)" = "$text" ]
}

prefix=$work/prefix
version=$(sed -n 's/^.define MOONBLEAT_VERSION_[A-Z]* //p' "$root/include/moonbleat.h" | paste -s -d. -)
expect 'make install' make_it install PREFIX="$prefix"
expect 'the tool' prints "moonbleat $version" "$prefix/bin/moonbleat" --version
expect 'unhex' prints 'AB' sh -c "echo '41 42 # comment' | '$prefix/bin/unhex'"
for page in SHEETS.md NIGHT.md night.png; do
    expect "docs/$page" cmp "$root/docs/$page" "$prefix/share/doc/moonbleat/$page"
done

# A consumer that knows nothing but pkg-config.
export PKG_CONFIG_PATH=$prefix/lib/pkgconfig
cp "$root/harness/example.c" "$work/consumer.c"
expect 'the version' prints "$version" pkg-config --modversion moonbleat
# shellcheck disable=SC2046
expect 'the consumer' cc -o "$work/consumer" "$work/consumer.c" $(pkg-config --cflags --libs moonbleat)
expect 'the consumer runs' prints ' 12 11 10 11 12 13 12 11
12 elements had a byte; stored: 2 3 4 5' "$work/consumer"

# The manual page has every command and option that the help has, and the formatter no complaint.
page=$prefix/share/man/man1/moonbleat.1
expect 'the manual page' prints '' sh -c "groff -man -Tascii -ww -z '$page'"
groff -man -Tascii -P-cbou -rLL=200n "$page" > "$work/page"
"$prefix/bin/moonbleat" help | sed -n 's/^  \(moonbleat [a-z].*\)/\1/p' > "$work/usage"
while read -r line; do
    expect "the manual page has: $line" grep -q -F -e "$line" "$work/page"
done < "$work/usage"
expect 'there are usages' test "$(wc -l < "$work/usage")" -ge 7

# The completion.
# complete_words WORD..: what is offered for the last word.
complete_words() {
    (
        PATH=$prefix/bin:$PATH
        # shellcheck source=/dev/null
        . "$prefix/share/bash-completion/completions/moonbleat"
        COMP_WORDS=(moonbleat "$@")
        COMP_CWORD=$#
        _moonbleat
        echo "${COMPREPLY[*]}"
    )
}
expect 'completion of commands' prints 'run run-tape' complete_words ru
expect 'completion of help' prints 'tape' complete_words help ta
expect 'completion of options' prints '--memory' complete_words check --m
expect 'completion of where' prints '--memory --element --json --help' complete_words where sheet 1 -
expect 'completion of tape' prints '--memory --masks --json --help' complete_words tape sheet -
expect 'completion of show' prints '--as --json --asm --help' complete_words show file -
expect 'completion of forms' prints 'sheet trace tape masks' complete_words show --as ''
expect 'completion of touched' prints 'touched' complete_words to
expect 'completion of --help' prints '-o --registers --hex --json --help' complete_words run -
touch "$work/sheet-file"
expect 'completion of files' prints "$work/sheet-file" complete_words check "$work/sheet-f"

expect 'make uninstall' make_it uninstall PREFIX="$prefix"
expect 'nothing is left' test -z "$(find "$prefix" -type f)"

# A staged installation has the paths of its prefix and not of its stage.
expect 'make install DESTDIR' make_it install DESTDIR="$work/stage" PREFIX=/usr
expect 'the staged paths' grep -q -x 'prefix=/usr' "$work/stage/usr/lib/pkgconfig/moonbleat.pc"
expect 'the staged tool' test -x "$work/stage/usr/bin/moonbleat"

# Programs that are missing are named before any work: here those of a path that has little.
mkdir "$work/few"
for program in sh bash make echo sed paste find sort; do
    ln -s "$(type -P "$program")" "$work/few/$program"
done
# The flags of the make that runs this do not count.
# lacks GOAL PROGRAM..: the goal fails for want of these, and nothing else is done.
lacks() {
    goal=$1
    shift
    ! MAKEFLAGS='' PATH=$work/few make_it "$goal" ARCHIVE="$work/none.a" TOOL="$work/tool" CC=cc > "$work/lacks" 2>&1 &&
        grep -q "not on the path: $*[ ;]" "$work/lacks" && [ ! -e "$work/tool" ] && [ "$(wc -l < "$work/lacks")" -eq 1 ]
}
expect 'make demo without rt' lacks demo cc python3 rt
expect 'where rt comes from' grep -q 'rt comes with the Rattle kit' "$work/lacks"
expect 'make without rt' lacks all cc rt
expect 'make lint without cppcheck' lacks lint cc cppcheck g++
expect 'make check without programs' lacks check cargo cc cppcheck g++ groff jq pkg-config python3 rt
expect 'make compare without cargo' lacks compare cargo rt
expect 'make memcheck without valgrind' lacks memcheck cargo cc jq python3 rt valgrind
expect 'make deps without programs' prints 'apt install gcc python3 jq groff pkg-config cargo g++ cppcheck valgrind git
rt is not on the path: rt comes with the Rattle kit; it proves and builds the library, and ARCHIVE=path names one that is built' \
    env MAKEFLAGS='' PATH="$work/few" make -s -C "$root" --no-print-directory deps
for program in cc python3 jq groff pkg-config cargo g++ cppcheck valgrind git rt; do
    ln -s "$work/few/sh" "$work/few/$program"
done
expect 'make deps' prints 'every package is there
rt is there' env MAKEFLAGS='' PATH="$work/few" make -s -C "$root" --no-print-directory deps

# The sources of a commit, where there is one.
if git -C "$root" rev-parse -q --verify HEAD > /dev/null 2>&1; then
    expect 'make dist' make_it dist
    expect 'the header in the sources' sh -c "tar tzf '$root/target/moonbleat-$version.tar.gz' |
        grep -q -x 'moonbleat-$version/include/moonbleat.h'"
fi

# How far a proof has come; of one that was proved before rt says nothing.
printf '%s\n' 'rt: one: begins with what a check kept in /there/crates/one' 'rt: chose --jobs 2 for one' \
    'fn one::f: proved' 'logic /kit/logic.json: libraries=16' 'statements core: modules loaded=222 checked=0' \
    'crate one: modules loaded=1 checked=2' 'logic=proved functions=1 sum=0' 'rt: chose --jobs 4 for three' \
    'error: no' 'fn three::f: not proved' 'logic=not-proved' 'rt: chose --jobs 2 for moonbleat_c' \
    'fn moonbleat_c::f: proved' 'logic=proved functions=1 target=x86_64-unknown-linux-gnu' > "$work/rt"
printf '%s\n' '# NAME: NEEDS' 'one:   # first' 'two: one' 'three: one io' 'moonbleat: three two' \
    'moonbleat_c staticlib: one moonbleat   # exports' > "$work/crates"
expect 'progress' prints 'crate 1 of 5: one proved
error: no
fn three::f: not proved
crate 2 of 5: three NOT PROVED
crate 5 of 5: moonbleat_c proved' awk -f "$root/harness/progress.awk" "$work/crates" "$work/rt"

echo "tests of the installation: $passed passed, $failed failed"
[ "$failed" -eq 0 ]
