#!/bin/sh
# What can be seen of the texts without a proof, in seconds: layout and spelling of the crates' files, that a type's
# name is declared once, that no function or relation takes too much, that each edit can be applied, layout of the
# other files, that scripts can be read, and that links lead to something. The status is 0 where all is well.
# `tests/texts.sh`; it takes along rt, shellcheck, perl and python3 where they are there.
cd "$(dirname "$0")/.." || exit 1
LC_ALL=C
export LC_ALL
failed=0
# none WHAT LINES: there must be no line.
none() {
    if [ -n "$2" ]; then
        printf '%s\n' "texts, $1:" "$2"
        failed=1
    else
        echo "texts, $1: none"
    fi
}
# The files of the repository, by git; where it does not tell, all but those that are made.
files=$(git ls-files --cached --others --exclude-standard 2>/dev/null | while read -r file; do [ ! -f "$file" ] || echo "$file"; done)
if [ -z "$files" ]; then
    files=$(find . -name .git -prune -o -name out -prune -o -name 'build.*' -prune -o -type f -print | sed 's|^\./||' | sort)
fi
those() { echo "$files" | grep -E "$1"; }
in_those() {
    pattern=$1
    shift
    those "$pattern" | xargs -r -d '\n' "$@"
}

# The crates' files: the toolchain's layout.
if command -v rt >/dev/null; then
    none 'files that are not in the layout (rt fmt)' "$(in_those '^crates/[^/]*/(src|specs|proofs)/.*\.(rt|antt)$' "$(dirname "$(rt doc)")/bin/rattle" fmt --check 2>&1)"
fi
# Names as docs/WORKING.md has them.
none 'names that are spelled otherwise' "$(in_those '^crates/.*/src/.*\.rt$' awk '
    { sub(/\/\/.*/, "") }
    match($0, /(^|[ (])(fn|mod|struct|enum|trait|const|static) [A-Za-z_][A-Za-z0-9_]*/) {
        count = split(substr($0, RSTART, RLENGTH), words, /[ (]/)
        kind = words[count - 1]; name = words[count]
        form = kind ~ /^(fn|mod)$/ ? "^_*[a-z][a-z0-9_]*$" : kind ~ /^(const|static)$/ ? "^([A-Z][A-Z0-9_]*|_|fn)$" : "^[A-Z][A-Za-z0-9]*$"
        if (name !~ form) print FILENAME ":" FNR ": " kind " " name
    }'
    those '/must-fail/' | grep -vE '/must-fail/[a-z0-9_]+\.edit$')"
# A type's name is declared once in the library crates. Two words stay twice, each that of a public call's own argument or
# answer: `Lines` (of a configuration's text, of an acl) and `Parts` (of a net, of a configuration).
none 'type names that are declared twice in library crates' "$(in_those '^crates/sq_[^/]*/src/.*\.rt$' awk '
    match($0, /^(pub(\([a-z]+\))? )?(struct|enum|trait|union|type) [A-Za-z][A-Za-z0-9]*/) {
        count = split(substr($0, RSTART, RLENGTH), words, " ")
        name = words[count]
        if (name in home && name != "Lines" && name != "Parts") print FILENAME ":" FNR ": " name ", as in " home[name]
        home[name] = FILENAME
    }')"
# A function or a relation that takes much takes it as one value with names: tests/sizes.py has the bounds.
if command -v python3 >/dev/null; then
    none 'functions and relations that take too much at once' "$(python3 tests/sizes.py 2>&1)"
    # Within how many columns definitions, clauses and proofs stand: tests/columns.py.
    none 'lines that are too long' "$(python3 tests/columns.py 2>&1)"
fi
# An edit replaces a line that stands once in its file; further ones apply to what the earlier ones made.
none 'edits that cannot be applied' "$(in_those '/must-fail/.*\.edit$' awk '
    function read_all(path,    text, line) {
        text = ""
        while ((getline line < path) > 0) text = text line "\n"
        close(path)
        return text
    }
    function count(text, what,    found, at) {
        found = 0
        while ((at = index(text, what)) > 0) { found++; text = substr(text, at + length(what)) }
        return found
    }
    FNR == 1 { if (edit != "" && !pairs) print edit ": no old: and new:"; edit = FILENAME; pairs = 0; path = old = ""; split("", texts) }
    /^file: / { path = edit; sub(/must-fail\/.*/, "", path); path = path substr($0, 7); if (!(path in texts)) texts[path] = read_all(path) }
    /^old: / { old = substr($0, 6) }
    /^new:/ {
        new = substr($0, 5); sub(/^ /, "", new)
        times = path == "" || old == "" ? 0 : count(texts[path], old)
        if (times != 1) { print edit ": an old: stands " times " times in " path; next }
        at = index(texts[path], old)
        texts[path] = substr(texts[path], 1, at - 1) new substr(texts[path], at + length(old))
        pairs++
    }
    END { if (edit != "" && !pairs) print edit ": no old: and new:" }')"

# The other files: lines that end in LF, with no blank before it. Data may need more.
texts='\.(md|sh|pl|py|awk|edit|svg)$|^crates\.txt$|^[^/.]*$'
none 'lines that end in a blank or CR, and files whose last line has no LF' "$(in_those "$texts" awk '
    /[ \t\r]$/ { print FILENAME ":" FNR }'
    in_those "$texts" sh -c '
    for file in "$@"; do [ ! -s "$file" ] || [ "$(tail -c 1 "$file" | od -An -tx1 | tr -d " ")" = 0a ] || echo "$file"; done' sh)"
if command -v iconv >/dev/null; then
    none 'files that are not UTF-8' "$(in_those '\.(md|sh|pl|py|awk|txt|edit|rt|antt|svg)$' sh -c '
        for file in "$@"; do iconv -f UTF-8 -t UTF-8 "$file" >/dev/null 2>&1 || echo "$file"; done' sh)"
fi

# Scripts by their first line.
scripts() { in_those '^[^/.]*$|^[^.]*/[^/.]*$|\.(sh|pl|py)$' awk -v kind="$1" 'FNR == 1 && /^#!/ && index($0, kind) { print FILENAME }'; }
none 'shell scripts that cannot be read' "$(scripts /sh | xargs -r -d '\n' -n 1 sh -n 2>&1)"
if command -v shellcheck >/dev/null; then
    none 'what shellcheck finds' "$(scripts /sh | xargs -r -d '\n' shellcheck -x -S warning 2>&1)"
fi
if command -v perl >/dev/null; then
    none 'perl that cannot be read' "$(those '\.pl$' | xargs -r -d '\n' -n 1 perl -c 2>&1 | grep -v ' syntax OK$')"
fi
if command -v python3 >/dev/null; then
    none 'python that cannot be read' "$( (scripts python3; those '\.py$') | sort -u | xargs -r -d '\n' python3 -c '
import ast, sys
for path in sys.argv[1:]:
    try:
        ast.parse(open(path, encoding="utf-8").read())
    except (SyntaxError, ValueError) as error:
        print(f"{path}: {error}")' 2>&1)"
fi

# Links in documents: to a file or folder that is there, and to a heading that it has.
none 'links that lead nowhere' "$(those '\.md$' | while read -r page; do
    grep -oE '\]\([^) ]+\)|src="[^"]+"' "$page" | sed -E 's/^\]\(//; s/\)$//; s/^src="//; s/"$//' | sort -u | while read -r link; do
        case $link in *://* | mailto:*) continue ;; esac
        file=${link%%#*}
        [ -n "$file" ] && file=$(dirname "$page")/$file || file=$page
        if [ ! -e "$file" ]; then
            echo "$page: $link"
        elif [ "$link" != "${link#*#}" ]; then
            # The name of a heading: small letters, without signs, with - for each space.
            sed -nE 's/^#+ //p' "$file" | tr 'A-Z ' 'a-z-' | sed 's/[][`().,:;!?"*\/]//g' | tr -d "'" | grep -qxF -- "${link#*#}" || echo "$page: $link"
        fi
    done
done)"
exit $failed
