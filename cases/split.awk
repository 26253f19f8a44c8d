# Splits a file of cases into what ./test runs: `awk -v to=FOLDER -f cases/split.awk FILE`. Block N gives FOLDER/N.shows
# and N.conf, and each run of a command over it N.M.wanted (what must be written, and the status) and, for `replay`,
# N.M.script, for `verify` N.M.journal, for `migrate` N.M.migrated. The status is 1 where the file has a block without a
# run or a line of no form.
#
#     == SHOWS                       begins a block; the lines behind it are squid.conf, up to the first of these:
#     => LINE                        `parse` writes this line. Where it is an error, `replay` writes it of any script.
#     MOMENT EVENT => ANSWER         `replay` is given the event, and writes the line; an error it writes alone, and ends
#     - MOMENT EVENT                 `replay` is given the event
#     + LINE                         `replay` writes this line
#     | LINE                         `verify` is given the line of a journal; `|` alone begins a journal
#     |> LINE                        `verify` writes this line; the next line of a journal begins another one
#     :+ LINE                        the line is an entry: `migrate` is given it, behind a `begin` if it is none itself,
#                                    and writes the journal of version 2
#     :- LINE                        the line is none: `migrate` is given it likewise, and says so
#     CLIENT METHOD TARGET [FIELD ..] => OUTCOME
#                                    a request of a client comes to this, or is `refused`, which ends the run. A day and
#                                    a time (`Mon 09:00`) may stand before; they may not fall within a run
#
# What stands behind the end of a run begins another one over the same squid.conf. In all of these <CR>, <TAB> and <FF>
# (two hexadecimal digits) are bytes, <a*9> is a text so many times, and <> is nothing. A line that begins with <1..9>
# stands once for each number, which is <n> in it, with <n-1>. A line that ends with <END> has no LF. A block with
# <each A B ..> in a line stands once for each of these words.

function complain(line, what) {
    print FILENAME ", line " line ": " what >"/dev/stderr"
    faulty = 1
    exit 1
}

function repeated(text, count,    all) {
    all = ""
    for (; count > 0; count = int(count / 2)) {
        if (count % 2) all = all text
        text = text text
    }
    return all
}

function digit(letter) {
    return index("0123456789ABCDEF", letter) - 1
}

# What a word in < and > stands for.
function meant(word,    cut) {
    if (word == "") return ""
    if (word == "CR") return "\r"
    if (word == "TAB") return "\t"
    if (length(word) == 2) return sprintf("%c", 16 * digit(substr(word, 1, 1)) + digit(substr(word, 2)))
    match(word, /[*][0-9]+$/)
    return repeated(substr(word, 1, RSTART - 1), substr(word, RSTART + 1) + 0)
}

function expanded(text,    front, word) {
    front = ""
    while (match(text, /<(CR|TAB|[0-9A-F][0-9A-F]|[^<*]+[*][0-9]+)?>/)) {
        word = substr(text, RSTART + 1, RLENGTH - 2)
        front = front substr(text, 1, RSTART - 1)
        text = substr(text, RSTART + RLENGTH)
        front = front meant(word)
    }
    return front text
}

# Writes a line.
function put(file, line) {
    if (line ~ /<END>$/) {
        ORS = ""
        sub(/<END>$/, "", line)
    }
    print line >file
    ORS = "\n"
}

# Writes a line of squid.conf, or its many.
function put_conf(line,    ends, number, one) {
    if (!match(line, /^<[0-9]+[.][.][0-9]+>/)) {
        put(block ".conf", expanded(line))
        return
    }
    split(substr(line, 2, RLENGTH - 2), ends, "[.][.]")
    line = substr(line, RLENGTH + 1)
    for (number = ends[1] + 0; number <= ends[2] + 0; number++) {
        one = line
        gsub(/<n>/, number, one)
        gsub(/<n-1>/, number - 1, one)
        put(block ".conf", expanded(one))
    }
}

function status(last) {
    if (last ~ /^error config /) return 2
    if (last ~ /^error script /) return 3
    if (last ~ /^error read/) return 4
    if (last ~ /^error missing /) return 7
    if (last ~ /^(differs|machine|journal) /) return 8
    return 0
}

# Begins a run of `replay`, unless one goes on. Its requests are made at moment 0, unless they say when.
function begin_run() {
    if (run != "") return
    run = sprintf("%s.%02d", block, ++runs)
    printf "" >(run ".script")
    given = checks = moment = 0
}

function give(line) {
    put(run ".script", line)
    given++
}

function want(line) {
    put(run ".wanted", line)
    last = line
    if (status(line)) end_run()
}

# Begins a journal, unless one goes on that nothing was written of.
function begin_journal() {
    if (run != "" && !told) return
    if (run != "") end_run()
    run = sprintf("%s.%02d", block, ++runs)
    printf "" >(run ".journal")
    told = 0
}

# A run of `migrate` over a journal of one line, which stands behind a `begin` unless it has that word.
function migrate(line, is_entry,    number, epoch) {
    if (run != "") end_run()
    run = sprintf("%s.%02d", block, ++runs)
    printf "" >(run ".migrated")
    number = epoch = 1
    if (line !~ /[Bb]egin/) {
        put(run ".migrated", "0 begin 0 => epoch 1")
        print "journal 2" >(run ".wanted")
        print "1 1 0 begin 0 => epoch 1" >(run ".wanted")
        number = 2
    } else if (is_entry) print "journal 2" >(run ".wanted")
    if (line ~ /^[0-9]+ reconfigure /) epoch = 2
    put(run ".migrated", line)
    last = is_entry ? (number " " epoch " " line) : ("error script " number)
    print last >(run ".wanted")
    end_run()
}

function end_run() {
    print "status " status(last) >(run ".wanted")
    close(run ".script")
    close(run ".journal")
    close(run ".migrated")
    close(run ".wanted")
    run = ""
}

# The moment of a day and a time in the first whole week since 1970-01-01, which was a Thursday.
function moment_of(day, hour, minute) {
    day = (index("SunMonTueWedThuFriSat", day) - 1) / 3 + 3
    return ((day * 24 + hour) * 60 + minute) * 60000
}

# A request by a connection of its own. Where it begins a run, `replay` writes the beginning by itself.
function request(line, outcome,    begins, client, rest) {
    begins = run == ""
    begin_run()
    if (line ~ /^[A-Z][a-z][a-z] /) {
        moment = moment_of(substr(line, 1, 3), substr(line, 5, 2), substr(line, 8, 2))
        line = substr(line, 11)
    }
    if (begins) want(moment " begin 0 => epoch 1")
    client = substr(line, 1, index(line, " ") - 1)
    rest = substr(line, index(line, " ") + 1)
    checks++
    give(moment " open " checks " " client " 4000")
    want(moment " open " checks " " client " 4000 => ok")
    give(moment " ask " checks " " rest)
    if (outcome == "refused") {
        want("error script " given)
        return
    }
    want(moment " ask " checks " " rest " => check " checks)
    give(moment " step " checks)
    want(moment " step " checks " => done")
    give(moment " take " checks)
    want(moment " take " checks " => epoch 1 " outcome)
    give(moment " close " checks)
    want(moment " close " checks " => ok")
}

# Takes a line of a block, in which each-words are replaced.
function take(line, number,    cut, given_line, answer) {
    if (line ~ /^=> /) {
        in_conf = 0
        parsed = substr(line, 4)
        print parsed >(block ".00.wanted")
    } else if (line ~ /^[|]> /) {
        if (run == "") complain(number, "nothing was given to `verify`")
        last = expanded(substr(line, 4))
        print last >(run ".wanted")
        told = 1
    } else if (line ~ /^[|]( |$)/) {
        in_conf = 0
        begin_journal()
        if (line ~ /^[|] /) put(run ".journal", expanded(substr(line, 3)))
    } else if (line ~ /^:[+-] /) {
        in_conf = 0
        migrate(expanded(substr(line, 4)), line ~ /^:[+]/)
    } else if (line ~ /^[+] /) {
        in_conf = 0
        begin_run()
        want(expanded(substr(line, 3)))
    } else if (line ~ /^- /) {
        in_conf = 0
        begin_run()
        give(expanded(substr(line, 3)))
    } else if (line ~ / => /) {
        in_conf = 0
        for (cut = length(line) - 3; substr(line, cut, 4) != " => "; cut--);
        given_line = expanded(substr(line, 1, cut - 1))
        answer = substr(line, cut + 4)
        if (given_line ~ /^([A-Z][a-z][a-z] [0-9][0-9]:[0-9][0-9] )?[0-9a-f]*[.:]/) {
            request(given_line, answer)
        } else {
            begin_run()
            give(given_line)
            want(answer ~ /^error / ? answer : given_line " => " answer)
        }
    } else if (in_conf) {
        put_conf(line)
    } else if (line != "") {
        complain(number, "neither squid.conf nor what is written")
    }
}

# Writes a block with this word in the place of <each ..>. A configuration that is refused is refused by `replay` too.
function write_block(word,    place, line) {
    block = sprintf("%s/%03d", to, ++blocks)
    print shows (word == "" ? "" : ": " word) >(block ".shows")
    close(block ".shows")
    printf "" >(block ".conf")
    in_conf = 1
    runs = 0
    run = parsed = ""
    told = 0
    for (place = 1; place <= lines; place++) {
        line = body[place]
        if (word != "" && match(line, /<each [^<>]*>/))
            line = substr(line, 1, RSTART - 1) word substr(line, RSTART + RLENGTH)
        take(line, first + place)
    }
    if (run != "") end_run()
    if (parsed != "") {
        print "status " status(parsed) >(block ".00.wanted")
        close(block ".00.wanted")
        if (status(parsed)) {
            begin_run()
            want(parsed)
        }
    }
    if (parsed == "" && runs == 0) complain(first, "a block with nothing to run")
    close(block ".conf")
}

# Ends a block: writes it once, or once for each word.
function end_block(    place, words, count) {
    if (shows == "") return
    count = 0
    for (place = 1; place <= lines; place++)
        if (match(body[place], /<each [^<>]*>/))
            count = split(substr(body[place], RSTART + 6, RLENGTH - 7), words, " ")
    if (count == 0) write_block("")
    for (place = 1; place <= count; place++) write_block(words[place])
}

/^== / {
    end_block()
    shows = substr($0, 4)
    first = NR
    lines = 0
    next
}

shows != "" { body[++lines] = $0 }

END {
    if (faulty) exit 1
    end_block()
    if (blocks == 0) complain(NR, "no block")
}
