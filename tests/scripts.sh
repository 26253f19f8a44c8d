#!/bin/sh
# Tries ./aclproxy, ./ship and ./test in a small repository of their own, with a toolchain that only pretends: its programs are
# scripts that print the text of their sources. `tests/scripts.sh`. The status is 0 where all is as expected.
# shellcheck disable=SC2016
here=$(cd "$(dirname "$0")/.." && pwd) || exit 1
if [ "$(uname -s -m)" != "Linux x86_64" ] || [ ! -e /lib64/ld-linux-x86-64.so.2 ]; then
    echo "scripts: not tried, since the shipped program is one for other machines"
    exit 0
fi
unset COSTS
room=$(mktemp -d) || exit 1
trap 'rm -rf "$room"' EXIT
trap 'exit 1' HUP INT TERM
failed=0
# same WHAT PRINTED WANTED: two texts.
same() {
    if [ "$2" = "$3" ]; then
        echo "scripts, $1: as expected"
    else
        printf '%s\n' "scripts, $1: it was" "$2" "and not" "$3"
        failed=1
    fi
}
# What the scripts may call, once without the toolchain and once with it.
mkdir -p "$room/plain" "$room/kit/toolchain/bin" "$room/top/tests" "$room/top/scripts" "$room/copies" || exit 1
export TMPDIR="$room/copies"
for tool in sh awk cat chmod cmp cp cut date dirname env find git grep head ln ls mkdir mktemp mv printf readlink rm sed sha256sum sort tail tee touch tr true uname wc xargs; do
    at=$(command -v "$tool") && case $at in /*) ln -s "$at" "$room/plain/$tool" ;; esac
done
cp -r "$room/plain" "$room/with"
cat >"$room/with/rt" <<TEXT
#!/bin/sh
echo "\$*" >>"$room/calls"
[ "\$1" != ci ] || echo crates/*/* >"$room/parts"
make_it() {
    mkdir -p crates/sq_main/out
    { echo '#!/bin/sh'; echo '[ "\$1" ] && echo "'"\$(cat crates/sq_base/src/lib.rt crates/sq_main/src/main.rt)"': \$*" || echo usage: it'; echo '# symbols'; } >crates/sq_main/out/sq_main
    chmod +x crates/sq_main/out/sq_main
}
case \$1 in
    version) echo 'pretended 1' ;;
    doc) echo "$room/kit/START-HERE.md" ;;
    ci)
        rm -rf crates/*/out
        echo 'rt: sq_base is kept: it was proved'
        make_it
        echo '== sq_main'
        [ ! -e "$room/breaks" ] || { echo '1 passed, 1 failed' && exit 1; }
        echo '2 passed, 0 failed'
        ;;
esac
TEXT
printf '%s\n' '#!/bin/sh' '# --strip-all -o TO FROM' 'sed "/^# symbols/d" "$4" >"$3"' >"$room/kit/toolchain/bin/clang"
chmod +x "$room/with/rt" "$room/kit/toolchain/bin/clang"
cp "$here/aclproxy" "$here/ship" "$here/test" "$room/top" && cp "$here/scripts/program.sh" "$room/top/scripts" && cd "$room/top" || exit 1
for it in texts scripts commands serve; do
    printf '%s\n' '#!/bin/sh' "echo $it "'"$@" >>../ran' >"tests/$it.sh"
    chmod +x "tests/$it.sh"
done
mkdir -p crates/sq_base/src crates/sq_main/src crates/tests_base/src
echo one >crates/sq_base/src/lib.rt
echo main >crates/sq_main/src/main.rt
echo test >crates/tests_base/src/lib.rt
mkdir crates/sq_base/must-fail crates/sq_base/out
echo edit >crates/sq_base/must-fail/it.edit
echo 'Handles allowed: none.' >HANDLES
printf '%s\n' 'tests_base: sq_base' 'sq_main: sq_base' 'sq_base: itoa' >crates.txt
echo out/ >.gitignore
has_git=
if command -v git >/dev/null; then
    has_git=yes
    unset GIT_DIR GIT_WORK_TREE GIT_INDEX_FILE
    export GIT_CONFIG_GLOBAL=/dev/null GIT_AUTHOR_NAME=a GIT_AUTHOR_EMAIL=a@a.example GIT_COMMITTER_NAME=a GIT_COMMITTER_EMAIL=a@a.example
    git init -q . && git add . && git commit -q -m begin
fi
# plain COMMAND .., with COMMAND ..: what it prints, its last line alone of standard error, and its status, without and with the toolchain.
run() {
    PATH=$1
    shift
    "$@" 2>"$room/errors" </dev/null
    status=$?
    tail -n 1 "$room/errors"
    echo "status $status"
}
plain() { (run "$room/plain" "$@"); }
with() { (run "$room/with" "$@"); }
# How often the toolchain was asked for more than its name and place.
asked() { grep -cvE '^(version|doc)$' "$room/calls"; }
: >"$room/calls"

no_toolchain='aclproxy: there is no toolchain to build the program with: no rt on the PATH
status 12'
same 'nothing is there' "$(plain ./aclproxy parse x)" "$no_toolchain"
same 'help' "$(plain ./aclproxy --help | sed -n '1p;$p')" 'usage: aclproxy parse CONF | replay CONF SCRIPT | verify CONF JOURNAL | migrate JOURNAL | rehearse N | serve CONF [--port P] [--workers W] [--utc-offset M]
status 0'
same 'version, not built' "$(plain ./aclproxy --version | cut -d ' ' -f 1 | grep -v commit; plain ./aclproxy --version | grep program)" 'toolchain
sources
program
status
program not built'
same 'serve, not built' "$(with ./aclproxy serve x | tail -n 1)" 'status 12'
same 'it has built nothing so far' "$(asked)" 0
same 'it builds' "$(with ./aclproxy parse x)" 'one
main: parse x
aclproxy: sq_main, crate 2 of 2
status 0'
same 'what it builds from' "$(cat "$room/parts")" 'crates/sq_base/src crates/sq_main/src'
same 'what it says of each crate' "$(with ./aclproxy --build >/dev/null; sed 's/^aclproxy: proving.*/aclproxy: proving/' "$room/errors")" 'aclproxy: proving
aclproxy: sq_base, crate 1 of 2
aclproxy: sq_main, crate 2 of 2'
count=$(asked)
same 'it is built' "$(plain ./aclproxy parse x; with ./aclproxy serve y)" 'one
main: parse x
status 0
one
main: serve y
status 0'
echo two >crates/sq_base/src/lib.rt
same 'a changed line, no toolchain' "$(plain ./aclproxy parse x)" "$no_toolchain"
same 'so far it was built once' "$(asked)" "$count"
same 'a changed line' "$(with ./aclproxy parse x | head -n 2)" 'two
main: parse x'
: >"$room/breaks"
echo three >crates/sq_base/src/lib.rt
same 'a build that fails' "$(with ./aclproxy parse x | tail -n 1)" 'status 12'
same 'a test that fails' "$(with ./test | grep -vE '^(==|rt:)' | sed 's/[0-9]* seconds/N seconds/')" 'shipped program: none
part texts: passed, N seconds
part scripts: passed, N seconds
1 passed, 1 failed
part proofs: FAILED, N seconds
FAILED: proofs
1 passed, 1 failed
status 1'
rm "$room/breaks"
# The program that `rt ci` leaves has no record, and is newer than its sources.
(PATH=$room/with rt ci >/dev/null)
count=$(asked)
same 'what rt ci left' "$(with ./aclproxy parse x; asked)" "three
main: parse x
status 0
$count"
touch -d 2001-01-01 crates/sq_main/out/sq_main
same 'what rt ci left, older than its sources' "$(plain ./aclproxy parse x)" "$no_toolchain"
touch crates/sq_main/out/sq_main

same 'shipped' "$(with ./ship | sed -E 's/[0-9a-f]{64}/SUM/'; asked)" "toolchain pretended 1
sources SUM
program SUM
status 0
$count"
same 'what is in dist' "$(ls dist; grep -c symbols crates/sq_main/out/sq_main dist/aclproxy-x86_64-linux)" 'BUILD
aclproxy-x86_64-linux
crates/sq_main/out/sq_main:1
dist/aclproxy-x86_64-linux:0'
sources=$(./aclproxy --sources)
same 'the sum, by hand' "$( (printf '%s\n' 'sq_base: itoa' 'sq_main: sq_base'; sha256sum crates/sq_base/src/lib.rt crates/sq_main/src/main.rt) | sha256sum | cut -d ' ' -f 1)" "$sources"
same 'the record' "$(sed -n 2,3p dist/BUILD)" "sources $sources
program $(sha256sum dist/aclproxy-x86_64-linux | cut -d ' ' -f 1)"
rm -rf crates/*/out
same 'the shipped program' "$(plain ./aclproxy parse x; plain ./aclproxy --version | grep -v commit)" "three
main: parse x
status 0
toolchain pretended 1
sources $sources
program shipped
status 0"
ln -s "$room/top/aclproxy" "$room/link"
same 'by a link, from another folder' "$(cd / && plain "$room/link" parse x)" 'three
main: parse x
status 0'
sed -i 's/^tests_base.*/tests_base: sq_base itoa/' crates.txt
echo 'another test' >crates/tests_base/src/lib.rt
same 'a change of tests' "$(plain ./aclproxy parse x | tail -n 1)" 'status 0'
sed -i 's/^sq_base.*/sq_base:/' crates.txt
same 'a change of what the program stands on' "$(plain ./aclproxy parse x)" "$no_toolchain"
sed -i 's/^sq_base.*/sq_base: itoa/' crates.txt
: >crates/sq_base/src/new.rt
same 'a new file' "$(plain ./aclproxy parse x)" "$no_toolchain"
rm crates/sq_base/src/new.rt
same 'as it was' "$(plain ./aclproxy parse x | tail -n 1)" 'status 0'
same 'built anyhow' "$(with ./aclproxy --build | sed "s|$room/top/||"; asked)" "built crates/sq_main/out/sq_main; stripped, it is the shipped program byte for byte
aclproxy: sq_main, crate 2 of 2
status 0
$((count + 1))"

# The gate, over the shipped program, over a program with another byte, and over one of other sources.
gate() {
    : >../ran
    with ./test | grep -vE '^(==|rt:)' | sed "s/[0-9]* seconds/N seconds/; s|$room/top/||g"
    sed "s|$room/top/||g" ../ran
}
same 'the gate' "$(gate)" 'shipped program: of these sources
part texts: passed, N seconds
part scripts: passed, N seconds
part shipped: passed, N seconds
part commands: passed, N seconds
part loopback: passed, N seconds
2 passed, 0 failed
part proofs: passed, N seconds
part bytes: passed, N seconds
2 passed, 0 failed
status 0
texts
scripts
commands dist/aclproxy-x86_64-linux
serve dist/aclproxy-x86_64-linux'
same 'what the gate built' "$(sed -n 2p crates/sq_main/out/BUILD)" "sources $sources"
cp -r dist ../dist
sed -i 's/usage: it/usage: is/' dist/aclproxy-x86_64-linux
same 'the gate, a changed byte' "$(gate | grep -v '^part .*passed')" 'shipped program: of these sources
part shipped: FAILED, N seconds
FAILED: shipped
0 passed, 1 failed
status 1
texts
scripts
commands dist/aclproxy-x86_64-linux
serve dist/aclproxy-x86_64-linux'
sed -i "s/^program .*/program $(sha256sum dist/aclproxy-x86_64-linux | cut -d ' ' -f 1)/" dist/BUILD
same 'the gate, a changed byte with its sum' "$(gate | grep -vE '^part .*passed|EOF|differ: ' | head -n 6)" 'shipped program: of these sources
2 passed, 0 failed
the shipped program is not the one that was proved and built from these sources; it says that it was built by pretended 1, and this is pretended 1. ./ship puts the right one in its place
part bytes: FAILED, N seconds
FAILED: bytes
2 passed, 0 failed'
same 'its status' "$(with ./test | tail -n 1)" 'status 1'
same 'built anyhow, a changed byte' "$(with ./aclproxy --build | sed "s|$room/top/||")" 'built crates/sq_main/out/sq_main; stripped, it is NOT the shipped program
aclproxy: sq_main, crate 2 of 2
status 12'
rm -rf dist && mv ../dist dist
echo four >crates/sq_base/src/lib.rt
same 'the gate, other sources' "$(gate)" 'shipped program: of other sources
part texts: passed, N seconds
part scripts: passed, N seconds
2 passed, 0 failed
part proofs: passed, N seconds
part commands: passed, N seconds
part loopback: passed, N seconds
2 passed, 0 failed
status 0
texts
scripts
commands crates/sq_main/out/sq_main
serve crates/sq_main/out/sq_main'
same 'what the gate built is run' "$(plain ./aclproxy parse x | head -n 1)" four
printf '%s\n' '#!/bin/sh' 'exit 1' >tests/serve.sh
same 'the gate, a part that fails' "$(gate | grep -vE '^part .*passed' | head -n 6)" 'shipped program: of other sources
2 passed, 0 failed
part loopback: FAILED, N seconds
FAILED: loopback
2 passed, 0 failed
status 1'

same 'what is left of copies' "$(ls "$room/copies")" ''

# Commits.
if [ "$has_git" ]; then
    git add . && git reset -q -- dist && git commit -q -m changes
    echo staged >other && git add other
    same 'no commit beside staged changes' "$(with ./ship --commit)" 'ship: other changes are staged: commit them first
status 1'
    git rm -q --cached other
    echo five >crates/sq_base/src/lib.rt
    same 'no commit of other sources' "$(with ./ship --commit)" 'ship: crates or crates.txt have changes that are in no commit: commit them first
status 1'
    echo four >crates/sq_base/src/lib.rt
    same 'a commit' "$(with ./ship --commit | tail -n 1; git show --format=%s --name-only)" 'status 0
The shipped program is that of these sources

dist/BUILD
dist/aclproxy-x86_64-linux'
    same 'a commit twice' "$(with ./ship --commit | tail -n 2)" 'ship: these files are committed already
status 0'
    git clone -q . ../clone
    same 'a clone' "$(cd ../clone && plain ./aclproxy parse x)" 'four
main: parse x
status 0'
else
    echo "scripts: no commit was tried, since there is no git"
fi
exit $failed
