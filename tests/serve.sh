#!/bin/sh
# Runs `aclproxy serve` on the loopback and compares what clients get, what it writes, how it ends, and its journal, with what
# docs/FORMATS.md and docs/OPERATING.md say of it. `tests/serve.sh [PROGRAM]`; it needs perl, and uses curl where there is one.
# The status is 0 where all is as expected. Each wait has an end, so it ends too.
set -u
here=$(cd "$(dirname "$0")" && pwd) || exit 1
program=${1:-$here/../crates/sq_main/out/sq_main}
case $program in /*) ;; *) program=$PWD/$program ;; esac
if ! command -v perl >/dev/null; then
    echo "serve: not tried, since there is no perl"
    exit 0
fi
LC_ALL=C
export LC_ALL
unset http_proxy https_proxy all_proxy no_proxy HTTPS_PROXY ALL_PROXY NO_PROXY
folder=$(mktemp -d) && cd "$folder" || exit 1
failed=0
children=
# A server that has not ended, the origins and the clock; helpers and clients end with the server.
clean() {
    [ -s status ] || children="$children $(cat server 2>/dev/null)"
    for child in $children; do
        kill "$child" 2>/dev/null
    done
    rm -rf "$folder"
}
trap clean EXIT
trap 'exit 1' HUP INT
trap 'echo "serve: it has not come to its end in five minutes"; exit 1' TERM
perl -e 'sleep 300; kill "TERM", $ARGV[0]' $$ >/dev/null 2>&1 &
children=$!

# same WHAT PRINTED WANTED: two texts.
same() {
    if [ "$2" = "$3" ]; then
        echo "serve, $1: as expected"
    else
        printf '%s\n' "serve, $1: it was" "$2" "and not" "$3" | cat -v
        failed=1
    fi
}
# same_file WHAT PRINTED WANTED: two files.
same_file() {
    if cmp -s "$2" "$3"; then
        echo "serve, $1: as expected"
    else
        echo "serve, $1: it was"
        head -c 600 "$2" | cat -v
        echo "and not"
        head -c 600 "$3" | cat -v
        failed=1
    fi
}
# until_it TENTHS COMMAND ..: waits until the command's status is 0, as many tenths of a second at the most.
until_it() {
    tenths=$1
    shift
    until "$@" 2>/dev/null; do
        [ "$tenths" -gt 0 ] || return 1
        tenths=$((tenths - 1))
        sleep 0.1
    done
}
# A file that has so many lines; one that has a text.
has_lines() { [ "$(grep -c '' "$1")" -ge "$2" ]; }
has_text() { grep -qF -- "$2" "$1"; }
has_begun() { has_lines said 1 || test -s status; }
is_gone() { ! kill -0 "$1"; }
has_deaths() { [ "$(grep -c ' died ' journal)" -gt "$1" ]; }
# A port at which nobody listens, outside of those that the system gives to clients.
# shellcheck disable=SC2016
free_port() {
    perl -MIO::Socket::INET -e 'for (1 .. 100) { my $port = 20000 + int rand 10000;
        IO::Socket::INET->new(Listen => 1, LocalAddr => "0.0.0.0", LocalPort => $port) and print($port), exit }'
}
# bounded COMMAND ..: runs it for a minute at the most.
# shellcheck disable=SC2016
bounded() { perl -e 'alarm 60; exec { $ARGV[0] } @ARGV; exit 127' "$@"; }
# For how many hundredths of a second the server has run so far, its helpers not counted.
ran() { awk '{ print $14 + $15 }' "/proc/$(cat server)/stat"; }

# start WORD ..: begins a server over these words. Its orders come from descriptor 3; what it writes goes to `said`, its journal
# to `journal`, or where `journal_to` says, its process to `server`, and at the end its status to `status`.
start() {
    rm -f orders status server
    : >said
    mkfifo orders
    # shellcheck disable=SC2016
    (sh -c 'echo $$ >server; exec "$@"' sh "$program" serve "$@" <orders >said 2>"${journal_to:-journal}"; echo $? >status) &
    exec 3>orders
    until_it 200 has_begun
    has_text said listening || { echo "serve, $*: it does not begin"; exit 1; }
}
# ends WHAT SAID STATUS TENTHS: the server ends within so many tenths of a second, having written this, with this status.
ends() {
    if until_it "$4" test -s status; then
        same "$1" "$(cat said; echo "status $(cat status)")" "$2
status $3"
    else
        echo "serve, $1: it has not ended"
        failed=1
        kill -9 "$(cat server)"
        until_it 50 test -s status
    fi
}

# Requests and what has to come of them. A text of lines is written with CR and LF.
lines() { printf '%s\r\n' "$@"; }
# own CODE PHRASE BODY [FIELD]: a reply of the proxy's own, which closes the connection unless the last word is `open`.
own() {
    lines "HTTP/1.1 $1 $2" 'Content-Type: text/plain' "Content-Length: $((${#3} + 1))"
    [ "${4:-}" = open ] || lines 'Connection: close'
    lines ''
    echo "$3"
}
# ask WHAT: sends the file `request`, and compares what comes with the file `wanted`.
ask() {
    perl "$here/client.pl" "$port" request >got 3>&-
    same_file "$1" got wanted
}
# get PATH [METHOD]: a request of an origin's path.
get() { lines "${2:-GET} http://127.0.0.1:$http$1 HTTP/1.1" 'Host: a' ''; }
# Each request that was judged counts: the journal has to have an `ask` for each of them.
judged=0

perl "$here/origin.pl" ports >/dev/null &
children="$children $!"
until_it 100 test -s ports || { echo "serve: the origins do not start"; exit 1; }
read -r http echo <ports
nobody=$(free_port)
port=$(free_port)
hello=$(lines 'HTTP/1.1 200 OK' 'Content-Length: 5' 'Via: 1.1 aclproxy' ''; printf hello)

cat >helper <<'END'
echo $$ >>pids
while read -r host path rest; do
    case $path in
    /asked/slow*) while [ ! -e go ] && [ -e helper ]; do sleep 0.1; done ;;
    esac
    case $host in
    127.0.0.1) echo OK ;;
    broken.example) echo BH ;;
    liar.example) echo 'it is known' ;;
    *) echo ERR ;;
    esac
done
END
cat >numbered <<'END'
while read -r channel path rest; do
    case $path in
    */2) echo "$channel OK" ;;
    *) echo "$channel ERR" ;;
    esac
done
END
cat >first.conf <<'END'
external_acl_type names ttl=60 children-max=1 %>rd %>rp /bin/sh helper
external_acl_type channels concurrency=4 %>rp /bin/sh numbered
external_acl_type nowhere %>rd ./no-such-helper
acl asked url_regex /asked
acl known external names
acl counted url_regex /counted
acl even external channels
acl lost url_regex /lost
acl found external nowhere
acl refused url_regex /refused
http_access deny refused
http_access deny asked !known
http_access deny counted !even
http_access deny lost !found
http_access allow localhost
END
cp first.conf squid.conf
start squid.conf --port "$port" --workers 4 --utc-offset -60
same 'its first line' "$(cat said)" "listening $port"

get /small >request
printf %s "$hello" >wanted
ask GET
judged=$((judged + 1))

get /small HEAD >request
lines 'HTTP/1.1 200 OK' 'Content-Length: 5' 'Via: 1.1 aclproxy' '' >wanted
ask HEAD
judged=$((judged + 1))

perl -e 'print "0123456789abcdef" x 655360' >big
get /big >request
{ lines 'HTTP/1.1 200 OK' 'Content-Length: 10485760' 'Via: 1.1 aclproxy' '' && cat big; } >wanted
ask 'a reply of 10 MiB'
judged=$((judged + 1))

{ lines "POST http://127.0.0.1:$http/echo HTTP/1.1" 'Host: a' 'Content-Length: 10485760' '' && cat big; } >request
ask 'POST of 10 MiB'
judged=$((judged + 1))

# The body is sent once 100 Continue has come.
lines "POST http://127.0.0.1:$http/raw HTTP/1.1" 'Host: a' 'X-Kept: a b' 'Expect: 100-Continue' 'Connection: X-Hop' 'X-Hop: 1' \
    'Transfer-Encoding: chunked' '' >one
lines '3;x=y' 'abc' '0A' '0123456789' '0' 'Trailer: 1' '' >two
lines "POST /raw HTTP/1.1" "Host: 127.0.0.1:$http" 'X-Kept: a b' 'Transfer-Encoding: chunked' 'Via: 1.1 aclproxy' \
    'X-Forwarded-For: 127.0.0.1' 'Connection: close' '' '3' 'abc' 'a' '0123456789' '0' '' >sent
{
    lines 'HTTP/1.1 100 Continue' ''
    lines 'HTTP/1.1 201 Made it' 'X-Kept: a' 'Transfer-Encoding: chunked' 'Via: 1.1 aclproxy' ''
    lines "$(printf %x "$(wc -c <sent)")"
    cat sent
    lines '' 0 ''
} >wanted
perl "$here/client.pl" "$port" one two >got 3>&-
same_file 'chunks both ways, and which fields pass' got wanted
judged=$((judged + 1))

get /chunked >request
lines 'HTTP/1.1 200 OK' 'Transfer-Encoding: chunked' 'Via: 1.1 aclproxy' '' 2 he 3 llo 0 '' >wanted
ask 'chunks of an origin'
judged=$((judged + 1))

lines "GET http://127.0.0.1:$http/chunked HTTP/1.0" '' >request
{ lines 'HTTP/1.1 200 OK' 'Via: 1.1 aclproxy' 'Connection: close' '' && printf hello; } >wanted
ask 'chunks of an origin, for a client of 1.0'
judged=$((judged + 1))

get /close >request
ask 'a reply without a length'
judged=$((judged + 1))

get /small >one
get /refused >two
{ printf %s "$hello" && own 403 Forbidden 'denied rule 1' open && printf %s "$hello"; } >wanted
perl "$here/client.pl" "$port" one two one >got 3>&-
same_file 'three requests over one connection, one of them denied' got wanted
judged=$((judged + 3))

{ lines "CONNECT 127.0.0.1:$echo HTTP/1.1" 'Host: a' '' && cat big; } >request
{ lines 'HTTP/1.1 200 Connection established' '' && cat big; } >wanted
ask 'CONNECT, and 10 MiB there and back'
judged=$((judged + 1))

get /refused HEAD >request
own 403 Forbidden 'denied rule 1' open | head -n 4 >wanted
ask 'a denial of HEAD'
judged=$((judged + 1))

lines 'GET http://127.0.0.1/asked/a HTTP/1.1' 'Host: a' '' >request
sed "s/127.0.0.1/other.example/" request >two
own 403 Forbidden 'denied rule 2' open >wanted
perl "$here/client.pl" "$port" two >got 3>&-
same_file 'a name that the helper denies' got wanted
get /asked/b >request
printf %s "$hello" >wanted
ask 'a name that the helper allows'
lines 'GET http://broken.example/asked/c HTTP/1.1' 'Host: a' '' >request
own 403 Forbidden 'denied fault 2 known Bh' open >wanted
ask 'a name at which the helper fails'
lines 'GET http://liar.example/asked/c HTTP/1.1' 'Host: a' '' >request
own 403 Forbidden 'denied fault 2 known BadReply' open >wanted
ask 'a helper that writes what is no answer'
until_it 100 is_gone "$(tail -n 1 pids)"
same 'that helper is stopped, and nothing is left of it' "$?" 0
get /lost >request
own 403 Forbidden 'denied fault 4 found NoHelper' open >wanted
ask 'a helper that is not there'
get /counted/1 >one
get /counted/2 >two
{ own 403 Forbidden 'denied rule 3' open && printf %s "$hello"; } >wanted
perl "$here/client.pl" "$port" one two >got 3>&-
same_file 'a helper with channels' got wanted
judged=$((judged + 7))

lines "GET http://127.0.0.1:$nobody/ HTTP/1.1" 'Host: a' '' >request
own 502 'Bad Gateway' 'bad gateway' >wanted
ask 'an origin that is not there'
get /nothing >request
ask 'an origin that says nothing'
get /noise >request
ask 'an origin that does not speak HTTP'
get /cut >request
{ lines 'HTTP/1.1 200 OK' 'Content-Length: 10' 'Via: 1.1 aclproxy' '' && printf hello; } >wanted
ask 'an origin that breaks off in a body'
lines "POST http://127.0.0.1:$http/echo HTTP/1.1" 'Host: a' 'Transfer-Encoding: chunked' '' 8000000000000000 '' >request
: >wanted
ask 'a client that sends no body after its head'
judged=$((judged + 5))

lines 'GET ftp://127.0.0.1/ HTTP/1.1' 'Host: a' '' >request
own 501 'Not Implemented' 'not implemented' >wanted
ask 'another scheme'
judged=$((judged + 1))

own 400 'Bad Request' 'bad request' >wanted
lines 'GET /small HTTP/1.1' 'Host: a' '' >request
ask 'a target without a host'
lines 'no head' '' >request
ask 'bytes that are no head'
lines "POST http://127.0.0.1:$http/echo HTTP/1.1" 'Host: a' 'Content-Length: 1' 'Transfer-Encoding: chunked' '' 0 '' >request
ask 'a body with two lengths'
{ lines 'GET http://127.0.0.1/ HTTP/1.1' 'Host: a' && printf 'X: %066000d\r\n\r\n' 0; } >request
own 431 'Request Header Fields Too Large' 'head too large' >wanted
ask 'a head over 65,536 bytes'

if command -v curl >/dev/null; then
    set -- --silent --show-error --max-time 60 --noproxy '' --proxy "http://127.0.0.1:$port"
    same 'curl, GET' "$(curl "$@" "http://127.0.0.1:$http/small" 3>&-)" hello
    same 'curl, POST' "$(curl "$@" --data-binary @big "http://127.0.0.1:$http/echo" 3>&- | cksum)" "$(cksum <big)"
    same 'curl, POST in chunks' "$(curl "$@" --header 'Transfer-Encoding: chunked' --data-binary @big "http://127.0.0.1:$http/echo" 3>&- | cksum)" "$(cksum <big)"
    same 'curl, through a tunnel' "$(curl "$@" --proxytunnel "http://127.0.0.1:$http/small" 3>&-)" hello
    same 'curl, a denial' "$(curl "$@" --write-out '%{http_code}' "http://127.0.0.1:$http/refused" 3>&-)" 'denied rule 1
403'
    judged=$((judged + 5))
else
    echo "serve, curl: left out, since there is none"
fi

# A request waits for the helper; another configuration comes; and then the helper answers.
get /asked/slow >slow
perl "$here/client.pl" "$port" slow >answer 3>&- &
client=$!
until_it 200 has_text journal '127.0.0.1%20/asked/slow%20-'
if [ -r "/proc/$(cat server)/stat" ]; then
    before=$(ran)
    sleep 1
    same 'a server that waits does not run' "$([ -n "$before" ] && [ $(($(ran) - before)) -lt 10 ]; echo "$?")" 0
else
    echo 'serve, a server that waits does not run: left out, since there is no /proc'
fi
echo 'http_access deny all' >squid.conf
echo reconfigure >&3
until_it 200 has_lines said 2
same 'another configuration' "$(tail -n 1 said)" 'reconfigured 2'
get /small >request
own 403 Forbidden 'denied rule 1' open >wanted
ask 'a request after it'
same 'a request that waits all along' "$(cat answer)" ''
: >go
wait "$client"
printf %s "$hello" >wanted
same_file 'it is judged by the configuration that it began with' answer wanted
judged=$((judged + 2))

printf '%s\n' '# nothing here' 'acl a src x' >squid.conf
printf '%s\n' 'an order that is none' reconfigure >&3
until_it 200 has_lines said 3
rm squid.conf
echo reconfigure >&3
until_it 200 has_lines said 4
cp first.conf squid.conf
echo reconfigure >&3
until_it 200 has_lines said 5
same 'configurations that are faulty, missing and good' "$(tail -n 3 said)" 'kept old 2 8
kept old missing
reconfigured 3'

# A helper is killed before it has a question, and then while one waits for it.
get /asked/d >request
ask 'the first configuration again'
deaths=$(grep -c ' died ' journal)
kill -9 "$(tail -n 1 pids)"
until_it 200 has_deaths "$deaths"
until_it 100 is_gone "$(tail -n 1 pids)"
same 'nothing is left of a helper that was killed' "$?" 0
get /asked/e >request
ask 'another helper in the place of one that was killed'
rm go
get /asked/slow/2 >slow
perl "$here/client.pl" "$port" slow >answer 3>&- &
client=$!
until_it 200 has_text journal '/asked/slow/2%20-'
kill -9 "$(tail -n 1 pids)"
wait "$client"
own 403 Forbidden 'denied fault 2 known Died' open >wanted
same_file 'a helper that is killed before it answers' answer wanted
: >go
get /asked/f >request
printf %s "$hello" >wanted
ask 'another helper after that'
judged=$((judged + 4))

# Another server cannot have the port.
bounded "$program" serve first.conf --port "$port" </dev/null >said2 2>journal2
same 'a port that is taken' "$(echo "status $?" && cat said2 journal2)" "status 9
error net
aclproxy: port $port: Address already in use (os error 98)"

# A connection that is idle ends with the server, within a second or two.
get /small >one
: >answer
perl "$here/client.pl" "$port" one @again one >answer 3>&- &
client=$!
until_it 200 test -s answer
echo shutdown >&3
ends 'an end by shutdown, with a client' "listening $port
reconfigured 2
kept old 2 8
kept old missing
reconfigured 3
stopped" 0 20
: >again
printf %s "$hello" >wanted
judged=$((judged + 1))
wait "$client"
same_file 'the request before the shutdown' answer wanted
exec 3>&-
until_it 20 sh -c 'for helper in $(cat pids); do kill -0 "$helper" 2>/dev/null && exit 1; done; exit 0'
same 'no helper is left' "$?" 0
same 'its journal, verified' "$(bounded "$program" verify first.conf journal; echo "status $?")" "verified $(($(wc -l <journal) - 1))
status 0"
same 'the first lines of its journal' "$(head -n 2 journal | sed 's/ [0-9]* begin/ MOMENT begin/')" 'journal 2
1 1 MOMENT begin -60 => epoch 1'
same 'the requests of its journal' "$(grep -c '^[0-9]* [0-9]* [0-9]* ask ' journal)" "$judged"

start first.conf --port "$port"
get /small >request
printf %s "$hello" >wanted
ask 'the same port again'
echo shutdown >&3
ends 'an end by shutdown, within a second' "listening $port
stopped" 0 10
exec 3>&-

# The journal, where moments and the ports of clients are left out.
written() { sed 's/^\([0-9]* [0-9]*\) [0-9]* /\1 MOMENT /; s/ open 1 127.0.0.1 [0-9]* / open 1 127.0.0.1 PORT /' journal; }
printf '%s\n' 'acl lan src 10.0.0.0/8' 'acl web port 80 443' 'http_access allow lan web' >small.conf
start small.conf --port "$port"
echo shutdown >&3
ends 'no client, and shutdown' "listening $port
stopped" 0 50
exec 3>&-
same 'no client, the journal' "$(written)" 'journal 2
1 1 MOMENT begin 0 => epoch 1'
echo 'http_access deny all' >small.conf
start small.conf --port "$port"
printf '%s\n' reconfigure shutdown >&3
ends 'no client, reconfigure and shutdown' "listening $port
reconfigured 2
stopped" 0 50
exec 3>&-
same 'no client, reconfigure, the journal' "$(written)" 'journal 2
1 1 MOMENT begin 0 => epoch 1
2 2 MOMENT reconfigure http_access%20deny%20all%0A => epoch 2'
start small.conf --port "$port"
echo acl >small.conf
printf '%s\n' reconfigure shutdown >&3
ends 'no client, reconfigure by a faulty file' "listening $port
kept old 1 3
stopped" 0 50
exec 3>&-
same 'no client, a faulty file, the journal' "$(written)" 'journal 2
1 1 MOMENT begin 0 => epoch 1'

# Three clients come at once to one worker, and each is served.
echo 'http_access deny all' >small.conf
start small.conf --port "$port" --workers 1
lines 'GET http://a.example/ HTTP/1.1' 'Host: a.example' '' >request
own 403 Forbidden 'denied rule 1' open >wanted
clients=
for client in 1 2 3; do
    perl "$here/client.pl" "$port" request >"got$client" 3>&- &
    clients="$clients $!"
done
for client in $clients; do
    wait "$client"
done
for client in 1 2 3; do
    same_file "one worker, client $client" "got$client" wanted
done
echo shutdown >&3
ends 'one worker, three clients' "listening $port
stopped" 0 50
exec 3>&-
same 'one worker, the journal' "$(written)" 'journal 2
1 1 MOMENT begin 0 => epoch 1
2 1 MOMENT open 1 127.0.0.1 PORT => ok
3 1 MOMENT ask 1 GET http://a.example/ Host:a.example => check 1
4 1 MOMENT step 1 => done
5 1 MOMENT take 1 => epoch 1 denied rule 1
6 1 MOMENT close 1 => ok
7 1 MOMENT open 1 127.0.0.1 PORT => ok
8 1 MOMENT ask 1 GET http://a.example/ Host:a.example => check 2
9 1 MOMENT step 2 => done
10 1 MOMENT take 2 => epoch 1 denied rule 1
11 1 MOMENT close 1 => ok
12 1 MOMENT open 1 127.0.0.1 PORT => ok
13 1 MOMENT ask 1 GET http://a.example/ Host:a.example => check 3
14 1 MOMENT step 3 => done
15 1 MOMENT take 3 => epoch 1 denied rule 1
16 1 MOMENT close 1 => ok'

# Names of hosts are looked up: one of this machine, one that is no name but to the system, and one that there is nowhere.
printf '%s\n' 'dst_lookup on' 'http_access deny to_localhost' 'http_access allow localhost' >lookups.conf
start lookups.conf --port "$port" --workers 2
lines "GET http://localhost:$http/small HTTP/1.1" 'Host: a' '' >one
lines "GET http://127.1:$http/small HTTP/1.1" 'Host: a' '' >two
{ own 403 Forbidden 'denied rule 1' open && own 403 Forbidden 'denied rule 1' open; } >wanted
perl "$here/client.pl" "$port" one two >got 3>&-
same_file 'names of this machine that are looked up' got wanted
lines 'GET http://none.invalid/ HTTP/1.1' 'Host: a' '' >request
own 403 Forbidden 'denied fault 1 to_localhost%20lookup Bh' open >wanted
ask 'a name that does not resolve'
echo shutdown >&3
ends 'an end after look-ups' "listening $port
stopped" 0 100
exec 3>&-
same 'look-ups, the journal verified' "$(bounded "$program" verify lookups.conf journal; echo "status $?")" "verified $(($(wc -l <journal) - 1))
status 0"
same 'look-ups, what was answered' "$(sed -n 's/^[0-9]* [0-9]* [0-9]* line [0-9]* //p' journal)" 'OK => reply 1 ok
OK => reply 2 ok
BH => reply 3 bh'

# Streams that are closed from the start: no socket and no file takes their numbers.
same 'no standard input' "$(bounded "$program" serve small.conf --port "$port" 2>journal <&-; echo "status $?")" "listening $port
stopped
status 0"
same 'no standard input, the journal' "$(written)" 'journal 2
1 1 MOMENT begin 0 => epoch 1'
same 'no standard output' "$(bounded "$program" serve small.conf --port "$port" 2>journal </dev/null >&-; echo "status $?")" 'status 5'
same 'no standard output, the journal' "$(written)" 'journal 2
1 1 MOMENT begin 0 => epoch 1'
same 'no standard error' "$(bounded "$program" serve small.conf --port "$port" </dev/null 2>&-; echo "status $?")" 'error journal
status 6'

# 40,960 bytes and a head, where none are there at first and 20,000 come in a second: that takes over two seconds.
cat >port.conf <<END
http_port $port
delay_pools 1
delay_class 1 1
delay_parameters 1 20000/20000
delay_access 1 allow localhost
delay_initial_bucket_level 0
http_access allow localhost
END
start port.conf
{ lines "POST http://127.0.0.1:$http/echo HTTP/1.1" 'Host: a' 'Content-Length: 40960' '' && head -c 40960 big; } >request
{ lines 'HTTP/1.1 200 OK' 'Content-Length: 40960' 'Via: 1.1 aclproxy' '' && head -c 40960 big; } >wanted
began=$(date +%s%N)
ask 'a client in a delay pool'
same 'it took over two seconds' "$(($(date +%s%N) - began > 2000000000))" 1
exec 3>&-
ends 'an end of its orders; the port of the file' "listening $port
stopped" 0 50

# Two clients of one tag: the bucket is theirs together, whatever they ask for.
cat >tagger <<'END'
while read -r host rest; do echo 'OK tag=gold'; done
END
cat >tags.conf <<'END'
external_acl_type customers ttl=60 children-max=1 %>rd /bin/sh tagger
acl customer external customers
delay_pools 1
delay_class 1 5
delay_parameters 1 20000/40000
delay_access 1 allow localhost
http_access allow localhost customer
END
start tags.conf --port "$port" --workers 2
get /big >request
began=$(date +%s%N)
clients=
for client in 1 2; do
    perl "$here/client.pl" "$port" request >"got$client" 3>&- &
    clients="$clients $!"
done
sleep 10
together=$(($(wc -c <got1) + $(wc -c <got2)))
passed=$((($(date +%s%N) - began) / 1000000000 + 1))
for client in $clients; do
    kill "$client"
done
same 'two clients of one tag get no more than its bucket had and gained' "$((together <= 20000 + 20000 * passed))" 1
same 'they get most of it, and each gets its part' "$((together >= 160000)) $(($(wc -c <got1) >= 60000)) $(($(wc -c <got2) >= 60000))" '1 1 1'
echo shutdown >&3
ends 'two clients of one tag' "listening $port
stopped" 0 50
exec 3>&-

# A program that rewrites: it sends one host's client elsewhere, puts another target in the place of one, and leaves the rest. Where it
# dies, says that it is broken, or writes what is no answer, the request goes on as it came.
cat >rewriter <<END
echo \$\$ >>rewriters
while read -r url rest; do
    echo "\$url \$rest" >>rewritten
    case \$url in
    http://old.example/*) echo 'OK url="http://new.example/"' ;;
    http://moved.example/*) echo 'OK status=308 url="http://new.example/"' ;;
    http://site.example/*) echo 'OK rewrite-url="http://127.0.0.1:$http/raw"' ;;
    */dies) exit ;;
    */broken) echo 'BH message="no table"' ;;
    */liar) echo 'it is known' ;;
    *) echo ERR ;;
    esac
done
END
cat >rewriter.conf <<'END'
url_rewrite_program /bin/sh rewriter
url_rewrite_children 1
acl refused url_regex /refused
http_access deny refused
http_access allow localhost
END
cp rewriter.conf squid.conf
start squid.conf --port "$port" --workers 2
lines 'GET http://old.example/x HTTP/1.1' 'Host: a' '' >request
lines 'HTTP/1.1 302 Found' 'Location: http://new.example/' 'Content-Length: 0' 'Connection: close' '' >wanted
ask 'a program that sends a client elsewhere'
same 'what it is asked' "$(cat rewritten)" 'http://old.example/x 127.0.0.1/- - GET'
lines 'GET http://moved.example/x HTTP/1.1' 'Host: a' '' >request
lines 'HTTP/1.1 308 Permanent Redirect' 'Location: http://new.example/' 'Content-Length: 0' 'Connection: close' '' >wanted
ask 'and says with which status'
lines 'GET http://site.example/x HTTP/1.1' 'Host: site.example' 'X-Kept: a b' '' >request
lines "GET /raw HTTP/1.1" "Host: 127.0.0.1:$http" 'X-Kept: a b' 'Via: 1.1 aclproxy' 'X-Forwarded-For: 127.0.0.1' 'Connection: close' '' >sent
{
    lines 'HTTP/1.1 201 Made it' 'X-Kept: a' 'Transfer-Encoding: chunked' 'Via: 1.1 aclproxy' ''
    lines "$(printf %x "$(wc -c <sent)")"
    cat sent
    lines '' 0 ''
} >wanted
ask 'a program that puts another target in the place of one'
printf %s "$hello" >wanted
for path in small dies small broken liar small; do
    get "/$path" >request
    ask "a program that rewrites, and leaves /$path"
done
until_it 100 is_gone "$(head -n 1 rewriters)"
same 'nothing is left of a program that died' "$?" 0
same 'each that died was started again' "$(wc -l <rewriters)" 3
asked=$(wc -l <rewritten)
get /refused >request
own 403 Forbidden 'denied rule 1' open >wanted
ask 'a request that is denied'
{ lines "CONNECT 127.0.0.1:$echo HTTP/1.1" 'Host: a' '' && echo there; } >request
{ lines 'HTTP/1.1 200 Connection established' '' && echo there; } >wanted
ask 'a tunnel'
same 'of neither the program is asked' "$(wc -l <rewritten)" "$asked"
echo 'http_access allow localhost' >squid.conf
echo reconfigure >&3
until_it 200 has_lines said 2
lines 'GET http://old.example/x HTTP/1.1' 'Host: a' '' >request
lines 'HTTP/1.1 302 Found' 'Location: http://new.example/' 'Content-Length: 0' 'Connection: close' '' >wanted
ask 'a program that rewrites is that of the beginning'
echo shutdown >&3
ends 'a program that rewrites' "listening $port
reconfigured 2
stopped" 0 50
exec 3>&-
until_it 20 sh -c 'for program in $(cat rewriters); do kill -0 "$program" 2>/dev/null && exit 1; done; exit 0'
same 'no program that rewrites is left' "$?" 0
same 'the journal beside it, verified' "$(bounded "$program" verify rewriter.conf journal; echo "status $?")" "verified $(($(wc -l <journal) - 1))
status 0"
sed -i 's/^url_rewrite_program .*/url_rewrite_program .\/no-such-program/' rewriter.conf
start rewriter.conf --port "$port"
get /small >request
printf %s "$hello" >wanted
ask 'a program that rewrites, and is not there'
echo shutdown >&3
ends 'a program that is not there' "listening $port
stopped" 0 50
exec 3>&-

# A journal that fails at once, and one that fails later.
bounded "$program" serve first.conf --port "$port" </dev/null >said2 2>/dev/full
same 'a journal that cannot be written' "$(echo "status $?" && cat said2)" 'status 6
error journal'
mkfifo cut
head -c 400 cut >/dev/null &
children="$children $!"
journal_to='cut'
start first.conf --port "$port"
until_it 100 sh -c 'perl "$0/client.pl" "$1" request >got; grep -q "^HTTP/1.1 500 " got' "$here" "$port" 3>&-
own 500 'Internal Server Error' 'journal stopped' >wanted
same_file 'a request as the journal fails' got wanted
ask 'a request after that'
echo 'any order' >&3
ends 'a journal that fails later' "listening $port
error journal" 6 100
exec 3>&-
exit $failed
