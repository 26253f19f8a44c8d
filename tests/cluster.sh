#!/bin/sh
# Puts 200 clients, and 40 of IPv6, over four processes, as examples/cluster shows it, in network namespaces of its own: `tests/cluster.sh [PROGRAM]`.
# It needs python3, iproute2, nftables and util-linux, and root or the right to make namespaces; where one of these is not
# there it is left out, and says so. node and keepalived are used where they are there. `tests/cluster.sh --measure [PROGRAM]`
# measures requests and tunnels with one, two and four processes instead. The status is 0 where all is as expected.
set -u
here=$(cd "$(dirname "$0")" && pwd) || exit 1
top=$(dirname "$here")
example=$top/examples/cluster
measure=
if [ "${1:-}" = --measure ]; then
    measure=1
    shift
fi
program=${1:-$top/dist/aclproxy-x86_64-linux}
case $program in /*) ;; *) program=$PWD/$program ;; esac
LC_ALL=C
export LC_ALL
failed=0
# same WHAT PRINTED WANTED: two texts.
same() {
    if [ "$2" = "$3" ]; then
        echo "cluster, $1: as expected"
    else
        printf '%s\n' "cluster, $1: it was" "$2" "and not" "$3"
        failed=1
    fi
}
left_out() { echo "cluster, $1: left out, since there is no $2"; }

if [ -z "${CLUSTER_INSIDE:-}" ]; then
    if [ -z "$measure" ]; then
        if command -v node >/dev/null; then
            # Each of four proxies has some of 200 clients; a client has one list, of all four.
            same 'proxy.pac' "$(node -e '
                const fs = require("fs"), vm = require("vm");
                vm.runInThisContext(fs.readFileSync(process.argv[1], "utf8"));
                const first = {}, lists = new Set();
                for (let host = 1; host <= 200; host++) {
                    globalThis.myIpAddress = () => "10.77.0." + host;
                    const list = FindProxyForURL("http://a.example/", "a.example");
                    if (list !== FindProxyForURL("https://b.example/", "b.example")) lists.add("another");
                    lists.add([...list.split("; ")].sort().join("; "));
                    first[list.split("; ")[0]] = (first[list.split("; ")[0]] ?? 0) + 1;
                }
                console.log(Object.keys(first).length, Math.min(...Object.values(first)) >= 20, [...lists].join(" | "));
            ' "$example/proxy.pac")" '4 true PROXY 10.77.1.11:3128; PROXY 10.77.1.12:3128; PROXY 10.77.1.13:3128; PROXY 10.77.1.14:3128'
        else
            left_out proxy.pac node
        fi
        if command -v keepalived >/dev/null; then
            same keepalived.conf "$(keepalived --config-test --use-file="$example/keepalived.conf" 2>&1; echo "status $?")" 'status 0'
        else
            left_out keepalived.conf keepalived
        fi
    fi
    for tool in python3 ip ss nft unshare nsenter; do
        command -v "$tool" >/dev/null || { left_out 'all else' "$tool"; exit "$failed"; }
    done
    if unshare --net true 2>/dev/null; then
        CLUSTER_INSIDE=$failed unshare --net "$0" ${measure:+--measure} "$program"
    elif unshare --user --map-root-user --net true 2>/dev/null; then
        CLUSTER_INSIDE=$failed unshare --user --map-root-user --net "$0" ${measure:+--measure} "$program"
    else
        left_out 'all else' 'network namespace'
        exit "$failed"
    fi
    exit
fi
failed=$CLUSTER_INSIDE

folder=$(mktemp -d) && cd "$folder" || exit 1
children=
clean() {
    for child in $children; do
        kill -9 "$child" 2>/dev/null
    done
    cd / && rm -rf "$folder"
}
trap clean EXIT
trap 'exit 1' HUP INT
trap 'echo "cluster: it has not come to its end in five minutes"; exit 1' TERM
python3 -c 'import os, sys, time; time.sleep(300); os.kill(int(sys.argv[1]), 15)' $$ >/dev/null 2>&1 &
children=$!
# until_it TENTHS COMMAND ..: waits until the command's status is 0, as many tenths of a second at the most.
until_it() {
    tenths=$1
    shift
    until "$@" >/dev/null 2>&1; do
        [ "$tenths" -gt 0 ] || return 1
        tenths=$((tenths - 1))
        sleep 0.1
    done
}

# This namespace is the site's machine; the clients have one of their own, at the other end of a wire.
unshare --net sleep 300 &
network=$!
children="$children $network"
is_apart() { [ "$(readlink "/proc/$network/ns/net")" != "$(readlink /proc/self/ns/net)" ]; }
until_it 50 is_apart || exit 1
inside() { nsenter --target "$network" --net "$@"; }
ip link set lo up
if ! ip link add site type veth peer name clients netns "$network" 2>/dev/null; then
    left_out 'all else' 'pair of veth devices'
    exit "$failed"
fi
ip addr add 10.77.1.1/16 dev site && ip addr add fd77::1:1/64 dev site nodad && ip link set site up
for host in $(seq 200); do
    echo "addr add 10.77.0.$host/16 dev clients"
done >addresses
for host in $(seq 40); do
    printf 'addr add fd77::%x/64 dev clients nodad\n' "$host"
done >>addresses
inside ip -batch "$folder/addresses" && inside ip link set clients up || exit 1
python3 "$here/cluster.py" origin >/dev/null &
children="$children $!"
listen() { ss --no-header --listening --tcp --numeric "( sport = :8000 or sport = :443 )" | grep -c LISTEN | grep -qx 2; }
until_it 100 listen || { echo 'cluster: the origins do not start'; exit 1; }

# start PORT: a process of the site, in a folder of its own.
start() {
    mkdir "$1" && cp "$example/squid.conf" "$1" && mkfifo "$1/orders"
    # It reads and writes its end of the pipe, so that this does not wait for another.
    "$program" serve "$1/squid.conf" --port "$1" --workers 64 <>"$1/orders" >"$1/said" 2>"$1/journal" &
    echo $! >"$1/server"
    children="$children $!"
    until_it 100 grep -q listening "$1/said" || { echo "cluster: the process at port $1 does not begin"; exit 1; }
}
# stop PORT: orders its end, and waits for it.
stop() {
    echo shutdown >"$1/orders"
    until_it 300 grep -q stopped "$1/said" || { echo "cluster: the process at port $1 does not end"; failed=1; }
}

if [ -n "$measure" ]; then
    # Three rounds of some ten seconds for each number of processes, so that what else the machine does meets all alike.
    for count in 1 2 4 1 2 4 1 2 4; do
        ports=$(seq 4001 $((4000 + count)))
        sed "s/mod 4/mod $count/" "$example/aclproxy.nft" >rules
        nft -f rules || exit 1
        for port in $ports; do start "$port"; done
        # Port 25 is denied, so there the proxy is alone with its clients.
        echo "processes $count: denials a second $(inside python3 "$here/cluster.py" rate 25 3)," \
            "requests a second $(inside python3 "$here/cluster.py" rate 8000 3)," \
            "tunnels at the same time $(inside python3 "$here/cluster.py" tunnels 200 3)"
        for port in $ports; do stop "$port" && rm -rf "$port"; done
    done
    exit "$failed"
fi

nft -f "$example/aclproxy.nft" || exit 1
for port in 4001 4002 4003 4004; do start "$port"; done
same 'what clients get' "$(inside python3 "$here/cluster.py" clients)" "requests 1: 200 of 200 with their own address
requests 1, of IPv6: 40 of 40 with their own address
requests 2: 200 of 200 with their own address
requests 2, of IPv6: 40 of 40 with their own address
connections of one client: 16 allowed, then 403 denied rule 1
tunnels at the same time: 200 of 200
a process's own port: refused"
for port in 4001 4002 4003 4004; do stop "$port"; done

# Of each journal, which addresses it has.
for port in 4001 4002 4003 4004; do
    awk '$4 == "open" { print $6 }' "$port/journal" | sort -u >"$port/seen"
    entries=$(($(wc -l <"$port/journal") - 1))
    same "the journal of the process at port $port" "$("$program" verify "$port/squid.conf" "$port/journal"; echo "status $?")" "verified $entries
status 0"
    # By chance alone a process has 50 of them; so few are some five deviations off.
    [ "$(wc -l <"$port/seen")" -ge 20 ] || { echo "cluster: the process at port $port had $(wc -l <"$port/seen") clients"; failed=1; }
done
same 'how many clients were seen' "$(cat 400?/seen | sort -u | wc -l)" 240
same 'how many were seen by more than one process' "$(cat 400?/seen | sort | uniq -d | wc -l)" 0
# Two requests of each, a tunnel of each of IPv4, and the seventeen of one.
same 'how many requests were judged' "$(cat 400?/journal | awk '$4 == "ask"' | wc -l)" 697
if [ -x "$top/tools/bin/aclproxyctl" ]; then
    ACLPROXY=$program python3 "$top/tools/bin/aclproxyctl" log 4001/journal 4002/journal 4003/journal 4004/journal >log
    sort --numeric-sort --stable --check log || failed=1
    same 'one access log of all' "$(wc -l <log), $(grep -c TCP_DENIED log), $(grep -oE ' (10\.77\.0|fd77:)[.:][0-9a-f]+ ' log | sort -u | wc -l)" '697, 1, 240'
else
    left_out 'one access log of all' aclproxyctl
fi
exit "$failed"
