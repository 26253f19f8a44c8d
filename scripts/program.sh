# shellcheck shell=sh
# What ./aclproxy, ./ship and ./test know of the program. It is sourced, with `top` as the folder of the repository.
#
# A record has three lines, each a word and a text: `toolchain`, what `rt version` says; `sources`, the sum of the sources that
# the program was built from; `program`, that of the program.

# shellcheck disable=SC2034,SC2154
shipped=$top/dist/aclproxy-x86_64-linux
shipped_record=$top/dist/BUILD
built=$top/crates/sq_main/out/sq_main
built_record=$top/crates/sq_main/out/BUILD

# The lines of crates.txt of the program's crate and those that it stands on, in the order of their names.
crate_lines() {
    awk -F: '
        /^[a-z]/ { split($1, head, " "); below[head[1]] = $2; line[head[1]] = $0 }
        function reach(name,    words, count, i) {
            if (!(name in below) || name in reached) return
            reached[name] = 1
            count = split(below[name], words, " ")
            for (i = 1; i <= count; i++) reach(words[i])
        }
        END { reach("sq_main"); for (name in reached) print line[name] }' "$top/crates.txt" | LC_ALL=C sort
}

# The folders of those crates that a program is built from.
source_folders() {
    crate_lines | while read -r crate _; do
        for part in src specs proofs; do
            folder=crates/${crate%:}/$part
            [ ! -d "$top/$folder" ] || echo "$folder"
        done
    done
}

# The SHA-256 of those lines and then, a line for each file in those folders in the byte order of their paths, of its SHA-256, two
# spaces and its path. Nothing where it cannot be had.
sum_of_sources() {
    (
        cd "$top" && { crate_lines && source_folders | xargs sh -c 'find "$@" -type f -exec sha256sum {} +' sh | LC_ALL=C sort -k 2; }
    ) | sha256sum | cut -d ' ' -f 1
}
sum_of() { sha256sum <"$1" | cut -d ' ' -f 1; }

# said WORD RECORD: the text that a record has for the word.
said() {
    [ ! -f "$2" ] || while read -r word text; do
        [ "$word" != "$1" ] || echo "$text"
    done <"$2"
}

# is_recorded PROGRAM RECORD SOURCES: whether the record says that this very program was built from the sources of this sum.
is_recorded() {
    [ -n "$3" ] && [ -x "$1" ] && [ "$(said sources "$2")" = "$3" ] && [ "$(said program "$2")" = "$(sum_of "$1")" ]
}
# record PROGRAM RECORD SOURCES: writes such a record, with the toolchain that is there.
record() {
    toolchain=$(rt version) && printf '%s\n' "toolchain $toolchain" "sources $3" "program $(sum_of "$1")" >"$2"
}

# Whether the shipped program runs on such a machine: it has to have the C library's loader.
is_for_this_machine() { [ "$(uname -s -m)" = "Linux x86_64" ] && [ -e /lib64/ld-linux-x86-64.so.2 ]; }
# is_shipped SOURCES, is_built SOURCES: whether the shipped program, or the one that was built here, is that of these sources.
is_shipped() { is_recorded "$shipped" "$shipped_record" "$1"; }
# A program with no record, as `rt ci` leaves one, is fresh where no source is newer.
is_built() {
    if [ -f "$built_record" ]; then
        is_recorded "$built" "$built_record" "$1"
    else
        [ -x "$built" ] && [ -z "$(cd "$top" && source_folders | xargs sh -c 'find "$@" -newer "$0"' "$built" crates.txt | head -n 1)" ]
    fi
}

# strip_to PROGRAM FILE: the program without its symbols, by the toolchain's own tool, so that the bytes are the same on each machine.
strip_to() {
    tools=$(mktemp -d) && ln -s "$(dirname "$(rt doc)")/toolchain/bin/clang" "$tools/llvm-strip" &&
        "$tools/llvm-strip" --strip-all -o "$2" "$1"
    status=$?
    rm -rf "$tools"
    return "$status"
}

# copy_program FOLDER: the crates that the program stands on, without what was made of them and without their edits that must fail, as a
# repository of their own.
copy_program() {
    mkdir -p "$1/.git" "$1/crates" && crate_lines >"$1/crates.txt" && cp "$top/HANDLES" "$1" || return 1
    crate_lines | while read -r crate _; do
        mkdir "$1/crates/${crate%:}" || exit 1
        for part in "$top/crates/${crate%:}"/*; do
            case ${part##*/} in
                out | must-fail) ;;
                *) cp -R "$part" "$1/crates/${crate%:}" || exit 1 ;;
            esac
        done
    done
}

# Proves the crates of the program and builds it, by `rt ci` over a copy of them: it begins with those that the most stands behind,
# proves as many side by side as processors and memory hold, and gives one the processors that no other waits for. What it proved it
# keeps on the machine, if it can, for the next build and for the gate. The toolchain's allocator keeps what was freed, as in ./test.
# Standard error says how far it is, and build.log has all.
build() (
    log=$top/build.log
    if ! command -v rt >/dev/null; then
        echo "aclproxy: there is no toolchain to build the program with: no rt on the PATH" >&2
        exit 1
    fi
    sources=$(sum_of_sources)
    copy=$(mktemp -d) || exit 1
    trap 'rm -rf "$copy"' EXIT
    trap 'exit 1' HUP INT TERM
    copy_program "$copy" || exit 1
    total=$(($(crate_lines | wc -l)))
    echo "aclproxy: proving the $total crates of the program and building it, which takes an hour on four processors the first time; what the toolchain says goes to $log" >&2
    {
        cd "$copy" && MIMALLOC_PURGE_DELAY=-1 rt ci 2>&1
        echo $? >"$copy/ended"
    } </dev/null | tee "$log" | awk -v total="$total" '/^== sq_|^rt: sq_[^ ]* is kept: / { count++; print "aclproxy: " $2 ", crate " count " of " total; fflush() }' >&2
    if [ "$(cat "$copy/ended")" = 0 ]; then
        if [ "$(sum_of_sources)" = "$sources" ]; then
            mkdir -p "${built%/*}" && cp "$copy/crates/sq_main/out/sq_main" "$built.new" && mv "$built.new" "$built" && record "$built" "$built_record" "$sources"
            exit
        fi
        echo "aclproxy: the sources changed while the program was built" >>"$log"
    fi
    tail -n 20 "$log" >&2
    echo "aclproxy: the build failed; $log has all of it" >&2
    exit 1
)
