#!/bin/sh
# Tries Squid's own helpers with the proxy, on the loopback: `tests/helpers.sh [PROGRAM]`. It needs python3, and Debian's package
# `squid` (and `libdbd-sqlite3-perl` for one of them), which need not run; HELPERS says where the helpers are, else
# /usr/lib/squid. What is not there is left out, and it says so. It ends within two minutes. The status is 0 where all is as
# expected.
set -u
here=$(cd "$(dirname "$0")" && pwd) || exit 1
program=${1:-$here/../dist/aclproxy-x86_64-linux}
case $program in /*) ;; *) program=$PWD/$program ;; esac
helpers=${HELPERS:-/usr/lib/squid}
LC_ALL=C
export LC_ALL
for tool in python3 pgrep; do
    command -v "$tool" >/dev/null || { echo "helpers: not tried, since there is no $tool"; exit 0; }
done
[ -d "$helpers" ] || { echo "helpers: not tried, since there is no $helpers"; exit 0; }
folder=$(mktemp -d) && cd "$folder" || exit 1
failed=0
server=
clean() {
    [ -z "$server" ] || kill -9 "$server" 2>/dev/null
    cd / && rm -rf "$folder"
}
trap clean EXIT
trap 'exit 1' HUP INT TERM

# same WHAT PRINTED WANTED: two texts.
same() {
    if [ "$2" = "$3" ]; then
        echo "helpers, $1: as expected"
    else
        printf '%s\n' "helpers, $1: it was" "$2" "and not" "$3"
        failed=1
    fi
}
left_out() { echo "helpers, $1: left out, since there is no ${2:-$1}"; }
has() { [ -x "$helpers/$1" ] || { left_out "$1"; return 1; }; }
# until_it TENTHS COMMAND ..: waits until the command's status is 0, as many tenths of a second at the most.
until_it() {
    tenths=$1
    shift
    until "$@" >/dev/null 2>&1; do
        [ "$tenths" -gt 0 ] || return 1
        tenths=$((tenths - 1))
        sleep 0.1
    done
}
# start: begins the proxy over `squid.conf`. stop WHAT: ends it; nothing of it or its helpers may be left, and its journal is one.
start() {
    port=$(python3 -c 'import socket; print(socket.create_server(("", 0)).getsockname()[1])')
    rm -f orders
    mkfifo orders
    "$program" serve squid.conf --port "$port" <>orders >said 2>journal &
    server=$!
    until_it 100 grep -q listening said || { echo 'helpers: the proxy does not start'; cat said; exit 1; }
}
stop() {
    echo shutdown >orders
    until_it 100 grep -q stopped said
    same "$1, its end" "$(tail -n 1 said)" stopped
    wait "$server"
    server=
    until_it 50 has_no_helper
    same "$1, what is left of it" "$(pgrep -f "$folder")" ''
    same "$1, its journal" "$("$program" verify squid.conf journal; echo "status $?")" "verified $(($(wc -l <journal) - 1))
status 0"
}
has_no_helper() { ! pgrep -f "$folder"; }
# asks ADDRESS [HOST]: what a client with this address gets: a denial, or, since nobody listens at its target, 502 where it is allowed.
asks() {
    python3 -c '
import http.client, sys
link = http.client.HTTPConnection("127.0.0.1", int(sys.argv[1]), timeout=20, source_address=(sys.argv[2], 0))
link.request("GET", "http://127.0.0.1:1/")
reply = link.getresponse()
print(reply.status, reply.read().decode().strip())' "$port" "$1" 2>&1 | tail -n 1
}
allowed='502 bad gateway'

if has ext_file_userip_acl; then
    # A mask with dots: of `/24` it would make the mask 0.0.0.24.
    printf '%s\n' '127.0.1.0/255.255.255.0 ALL' '127.0.2.2 ann' >places
    cat >squid.conf <<CONF
external_acl_type places ttl=300 %SRC %DATA $helpers/ext_file_userip_acl -f $folder/places
acl known external places
acl ann external places ann
http_access allow known
http_access allow ann
http_access deny all
CONF
    start
    same 'ext_file_userip_acl, an address of its file' "$(asks 127.0.1.7)" "$allowed"
    same 'ext_file_userip_acl, one with a name' "$(asks 127.0.2.2)" "$allowed"
    same 'ext_file_userip_acl, another' "$(asks 127.0.2.3)" '403 denied rule 3'
    same 'ext_file_userip_acl, by which rules' "$(grep -c 'allowed rule 1$' journal), $(grep -c 'allowed rule 2$' journal)" '1, 1'
    stop ext_file_userip_acl
fi

if has ext_time_quota_acl; then
    printf '%s\n' '127.0.1.1 2s / 1d' '127.0.1.2 1h / 1d' >quota
    cat >squid.conf <<CONF
external_acl_type quota ttl=0 children-max=1 %SRC $helpers/ext_time_quota_acl -b $folder/quota.db $folder/quota
acl left external quota
http_access allow left
http_access deny all
CONF
    start
    same 'ext_time_quota_acl, time that is left' "$(asks 127.0.1.1)" "$allowed"
    # It counts the time from one request to the next.
    is_used_up() { [ "$(asks 127.0.1.1)" = '403 denied rule 2' ]; }
    until_it 100 is_used_up
    same 'ext_time_quota_acl, time that is used up' "$(asks 127.0.1.1)" '403 denied rule 2'
    same 'ext_time_quota_acl, another client' "$(asks 127.0.1.2)" "$allowed"
    same 'ext_time_quota_acl, a client that its file does not name' "$(asks 127.0.1.3)" "$allowed"
    stop ext_time_quota_acl
fi

if has helper-mux && has ext_file_userip_acl; then
    printf '%s\n' '127.0.1.0/255.255.255.0 ALL' >places
    cat >squid.conf <<CONF
external_acl_type muxed concurrency=20 children-max=1 ttl=0 %SRC %DATA $helpers/helper-mux $helpers/ext_file_userip_acl -f $folder/places
acl known external muxed
http_access allow known
http_access deny all
CONF
    start
    : >got
    asking=
    for host in 1 2 3 4 5 6 7 8; do
        asks "127.0.1.$host" >>got &
        asking="$asking $!"
        asks "127.0.2.$host" >>got &
        asking="$asking $!"
    done
    for asker in $asking; do
        wait "$asker"
    done
    same 'helper-mux, sixteen clients side by side' "$(sort got | uniq -c | sed 's/^ *//')" "8 403 denied rule 2
8 $allowed"
    stop helper-mux
fi

if ! has ext_sql_session_acl; then
    :
elif ! perl -MDBD::SQLite -e 1 2>/dev/null; then
    left_out ext_sql_session_acl 'DBD::SQLite for perl'
else
    sessions() { python3 -c 'import sqlite3, sys; store = sqlite3.connect("sessions"); store.execute(sys.argv[1]); store.commit()' "$1"; }
    sessions 'create table sessions (address text primary key, name text)'
    sessions "insert into sessions values ('127.0.1.1', 'ann')"
    # The question ends with the arguments of the list, of which there are none: a space and a hyphen, 32 and 45.
    cat >squid.conf <<CONF
external_acl_type session ttl=0 children-max=1 concurrency=100 %SRC $helpers/ext_sql_session_acl --dsn DBI:SQLite:dbname=$folder/sessions --table sessions --uidcol address||char(32,45) --usercol name --cond 1
acl session external session
http_access allow session
http_access deny all
CONF
    start
    same 'ext_sql_session_acl, a session' "$(asks 127.0.1.1)" "$allowed"
    same 'ext_sql_session_acl, none' "$(asks 127.0.1.2)" '403 denied rule 2'
    sessions "insert into sessions values ('127.0.1.2', 'bob')"
    sessions "delete from sessions where address = '127.0.1.1'"
    same 'ext_sql_session_acl, one that has begun' "$(asks 127.0.1.2)" "$allowed"
    same 'ext_sql_session_acl, one that has ended' "$(asks 127.0.1.1)" '403 denied rule 2'
    stop ext_sql_session_acl
fi

if has ext_session_acl; then
    # Whether it can keep a session at all: what it says of one address, first and then.
    said=$(printf '%s\n' '0 127.0.1.1 -' '1 127.0.1.1 -' | timeout 10 "$helpers/ext_session_acl" -t 60 -b "$folder/session" 2>&1 | cut -c 1-4 | tr '\n' ' ')
    if [ "$said" = '0 ER 1 OK ' ]; then
        cat >squid.conf <<CONF
external_acl_type session ttl=60 negative_ttl=0 children-max=1 concurrency=100 %SRC $helpers/ext_session_acl -t 7200 -b $folder/session
acl session external session
http_access allow session
http_access deny all
CONF
        start
        same 'ext_session_acl, a first request' "$(asks 127.0.1.2)" '403 denied rule 2'
        same 'ext_session_acl, a second request' "$(asks 127.0.1.2)" "$allowed"
        stop ext_session_acl
    else
        echo "helpers, ext_session_acl: left out, since this one keeps no session, asked by hand too (it opens its file to read alone)"
    fi
fi

# A program that rewrites targets for Squid, where the proxy has such a directive.
if has url_fake_rewrite; then
    printf '%s\n' "url_rewrite_program $helpers/url_fake_rewrite" 'http_access allow all' >squid.conf
    if "$program" parse squid.conf >/dev/null; then
        start
        same 'url_fake_rewrite, which leaves each target as it is' "$(asks 127.0.1.1)" "$allowed"
        stop url_fake_rewrite
    else
        left_out url_fake_rewrite 'url_rewrite_program in the proxy'
    fi
fi
exit "$failed"
