#!/bin/sh
# Tries real clients over the proxy, on the loopback: `tests/clients.sh [PROGRAM]`. It needs python3 and openssl, and uses what is
# there of curl, wget, apt, git, Python's requests, node and chromium; what is not, it leaves out and says so (Debian has all as
# curl wget apt dpkg-dev git python3-requests nodejs chromium). BYTES says how long the long bodies are, else 1000000000. Each
# client has some minutes at the most. The status is 0 where all is as expected.
set -u
here=$(cd "$(dirname "$0")" && pwd) || exit 1
program=${1:-$here/../dist/aclproxy-x86_64-linux}
case $program in /*) ;; *) program=$PWD/$program ;; esac
bytes=${BYTES:-1000000000}
LC_ALL=C
export LC_ALL
unset http_proxy https_proxy all_proxy no_proxy HTTP_PROXY HTTPS_PROXY ALL_PROXY NO_PROXY
for tool in python3 openssl; do
    command -v "$tool" >/dev/null || { echo "clients: not tried, since there is no $tool"; exit 0; }
done
folder=$(mktemp -d) && cd "$folder" || exit 1
failed=0
children=
clean() {
    for child in $children; do
        kill "$child" 2>/dev/null
    done
    cd / && rm -rf "$folder"
}
trap clean EXIT
trap 'exit 1' HUP INT TERM

# same WHAT PRINTED WANTED: two texts.
same() {
    if [ "$2" = "$3" ]; then
        echo "clients, $1: as expected"
    else
        printf '%s\n' "clients, $1: it was" "$2" "and not" "$3"
        failed=1
    fi
}
left_out() { echo "clients, $1: left out, since there is no ${2:-$1}"; }
# until_it TENTHS COMMAND ..: waits until the command's status is 0, as many tenths of a second at the most.
until_it() {
    tenths=$1
    shift
    until "$@" >/dev/null 2>&1; do
        [ "$tenths" -gt 0 ] || return 1
        tenths=$((tenths - 1))
        sleep 0.1
    done
}
# there TOOL: whether it is there; and then its version is written.
there() {
    command -v "$1" >/dev/null || { left_out "$1"; return 1; }
    echo "clients, $1 is $("$1" --version 2>&1 | grep -o '[0-9][0-9]*\.[0-9][0-9.]*' | head -n 1)"
}

openssl req -x509 -newkey rsa:2048 -nodes -keyout key.pem -out cert.pem -days 2 -subj /CN=origin -addext subjectAltName=IP:127.0.0.1 2>/dev/null || exit 1
mkdir files git
python3 "$here/clients_origin.py" "$folder" 2>origin.log &
children=$!
until_it 100 test -s ports || { echo 'clients: the origin does not start'; cat origin.log; exit 1; }
read -r http https <ports

# A browser asks others besides, whom nobody is to meet: only this machine may be reached.
cat >squid.conf <<'CONF'
acl refused url_regex /refused
acl denied dstdomain denied.example
acl loop dst 127.0.0.0/8
http_access deny refused
http_access deny denied
http_access deny !loop
http_access allow localhost
CONF
port=$(python3 -c 'import socket; link = socket.create_server(("", 0)); print(link.getsockname()[1])')
mkfifo orders
"$program" serve squid.conf --port "$port" --workers 64 <>orders >said 2>journal &
server=$!
children="$children $server"
until_it 200 grep -q listening said || { echo 'clients: the proxy does not start'; exit 1; }
proxy=http://127.0.0.1:$port
plain=http://127.0.0.1:$http
secure=https://127.0.0.1:$https

# What the long bodies are, by another hand than the origin's.
cat >body.py <<'PYTHON'
import random, sys
block = random.Random(1).randbytes(1_048_573)
left = int(sys.argv[1])
while left:
    piece = block[:left]
    sys.stdout.buffer.write(piece)
    left -= len(piece)
PYTHON
cat >crc.py <<'PYTHON'
import sys, zlib
count, check = 0, 0
while piece := sys.stdin.buffer.read(1 << 20):
    count, check = count + len(piece), zlib.crc32(piece, check)
print(count, f"{check:08x}")
PYTHON
long=$(python3 body.py "$bytes" | python3 crc.py)
short=$(python3 body.py 3000000 | python3 crc.py)
python3 body.py 3000000 >short

if there curl; then
    set -- timeout 300 curl --silent --show-error --noproxy '' --proxy "$proxy" --cacert cert.pem
    same 'curl, GET' "$("$@" "$plain/")" hello
    same 'curl, HEAD' "$("$@" --head --output /dev/null --write-out '%{http_code} %header{content-length}' "$plain/bytes/77")" '200 77'
    same 'curl, three requests over one connection' "$("$@" "$plain/" "$plain/bytes/0" "$plain/" --write-out '%{num_connects}\n' | tr '\n' ' ')" 'hello 1 0 hello 0 '
    same 'curl, HTTP/1.0' "$("$@" --http1.0 "$plain/")" hello
    same 'curl, POST' "$("$@" --data-binary @short "$plain/sink")" "$short"
    "$@" --verbose --header 'Expect: 100-continue' --data-binary @short "$plain/expect" >answer 2>heads
    same 'curl, Expect: 100-continue' "$(grep -c '^< HTTP/1.1 100 Continue' heads) $(cat answer)" '1 no'
    same 'curl, a range' "$("$@" --range 1000000-1099999 "$plain/bytes/3000000" | cksum)" "$(tail -c +1000001 short | head -c 100000 | cksum)"
    same 'curl, the last bytes' "$("$@" --range -7 "$plain/bytes/3000000" | cksum)" "$(tail -c 7 short | cksum)"
    head -c 2000000 short >part
    same 'curl, a download that goes on' "$("$@" --continue-at - --output part --write-out '%{http_code} ' "$plain/bytes/3000000"; cksum <part)" "206 $(cksum <short)"
    same 'curl, https' "$("$@" "$secure/")" hello
    same 'curl, POST by https' "$("$@" --data-binary @short "$secure/sink")" "$short"
    same 'curl, a denial' "$("$@" --write-out '%{http_code}' "$plain/refused")" 'denied rule 1
403'
    same 'curl, a tunnel that is denied' "$("$@" --write-out '%{http_connect}' https://denied.example/ 2>/dev/null; echo ", status $?")" '403, status 56'
    began=$(date +%s)
    same "curl, $bytes bytes to the client" "$("$@" "$plain/bytes/$bytes" | python3 crc.py)" "$long"
    same "curl, $bytes bytes to the origin, in chunks" "$(python3 body.py "$bytes" | "$@" --upload-file - "$plain/sink")" "$long"
    same "curl, $bytes bytes to the client, by https" "$("$@" "$secure/bytes/$bytes" | python3 crc.py)" "$long"
    echo "clients, curl: the three long bodies took $(($(date +%s) - began)) seconds"
fi

if there wget; then
    set -- timeout 120 wget --quiet --no-config --tries=1 -e use_proxy=yes -e "http_proxy=$proxy" -e "https_proxy=$proxy" --ca-certificate=cert.pem
    same 'wget, GET' "$("$@" --output-document=- "$plain/")" hello
    same 'wget, https' "$("$@" --output-document=- "$secure/")" hello
    same 'wget, POST' "$("$@" --output-document=- --post-file=short "$plain/sink")" "$short"
    head -c 1000000 short >./3000000
    same 'wget, a download that goes on' "$("$@" --continue "$plain/bytes/3000000"; cksum <./3000000)" "$(cksum <short)"
    same 'wget, a page and its pictures' "$("$@" --page-requisites --directory-prefix=pages "$plain/page"; find pages -path '*/picture/*' -type f | wc -l)" 12
    same 'wget, a denial' "$("$@" --output-document=- "$plain/refused"; echo "status $?")" 'status 8'
fi

if there git; then
    # No configuration of this machine or its user counts.
    unset GIT_SSL_CAINFO GIT_SSL_CAPATH GIT_SSL_NO_VERIFY
    export GIT_CONFIG_NOSYSTEM=1 GIT_CONFIG_GLOBAL="$folder/gitconfig"
    export GIT_AUTHOR_NAME=a GIT_AUTHOR_EMAIL=a@a.example GIT_COMMITTER_NAME=a GIT_COMMITTER_EMAIL=a@a.example GIT_TERMINAL_PROMPT=0
    git config --global init.defaultBranch main
    git config --global http.proxy "$proxy"
    git config --global http.sslCAInfo "$folder/cert.pem"
    git init --quiet --bare git/one.git
    git init --quiet first && cp short first/one && git -C first add one && git -C first commit --quiet --message=one
    git -C first remote add origin "$plain/git/one.git"
    # Over a megabyte, so git sends it in chunks.
    same 'git, push' "$(timeout 60 git -C first push --quiet origin main 2>&1; git -C git/one.git rev-parse main)" "$(git -C first rev-parse main)"
    same 'git, clone' "$(timeout 60 git clone --quiet "$plain/git/one.git" second 2>&1; cksum <second/one)" "$(cksum <short)"
    echo two >first/two && git -C first add two && git -C first commit --quiet --message=two
    same 'git, push of more' "$(timeout 60 git -C first push --quiet origin main 2>&1; git -C git/one.git rev-parse main)" "$(git -C first rev-parse main)"
    same 'git, fetch' "$(timeout 60 git -C second fetch --quiet 2>&1; git -C second rev-parse origin/main)" "$(git -C first rev-parse main)"
    same 'git, clone by https' "$(timeout 60 git clone --quiet "$secure/git/one.git" third 2>&1; cat third/two)" two
    same 'git, a denial' "$(timeout 60 git clone --quiet "$plain/refused.git" fourth 2>&1 | grep -o 'error: 403')" 'error: 403'
fi

if ! command -v dpkg-deb >/dev/null; then
    left_out apt dpkg-deb
elif there apt-get; then
    mkdir -p made/DEBIAN made/usr/share/doc/one state/lists/partial cache/archives/partial
    printf '%s\n' 'Package: one-of-aclproxy' 'Version: 1' 'Architecture: all' 'Maintainer: a <a@a.example>' 'Description: a package' >made/DEBIAN/control
    cp short made/usr/share/doc/one/short
    dpkg-deb --root-owner-group --build made files/one.deb >/dev/null
    {
        dpkg-deb --field files/one.deb
        printf '%s\n' 'Filename: ./one.deb' "Size: $(wc -c <files/one.deb)" "SHA256: $(sha256sum <files/one.deb | cut -d ' ' -f 1)"
    } >files/Packages
    apt() {
        timeout 120 apt-get --quiet=2 -o Dir::State="$folder/state" -o Dir::State::status=/dev/null -o Dir::Cache="$folder/cache" \
            -o Dir::Etc::sourcelist="$folder/sources" -o Dir::Etc::sourceparts=/dev/null -o Dir::Etc::parts=/dev/null -o APT::Sandbox::User='' \
            -o Acquire::http::Proxy="$proxy" -o Acquire::https::Proxy="$proxy" -o Acquire::https::CAInfo="$folder/cert.pem" \
            -o Acquire::Languages=none -o Acquire::Retries=0 -o Acquire::Check-Date=false "$@" 2>&1
    }
    for repository in "$plain" "$secure"; do
        echo "deb [trusted=yes] $repository/files ./" >sources
        rm -f one-of-aclproxy_*
        same "apt, a repository at ${repository%%:*}" "$(apt update && apt download one-of-aclproxy; cksum <one-of-aclproxy_1_all.deb)" "$(cksum <files/one.deb)"
    done
    same 'apt, the same once more, which has not changed' "$(apt update; echo "status $?")" 'status 0'
    echo "deb [trusted=yes] $plain/refused ./" >sources
    same 'apt, a denial' "$(apt update | grep -o '403  *Forbidden' | sort -u)" '403  Forbidden'
fi

cat >with_urllib.py <<'PYTHON'
import ssl, sys, urllib.error, urllib.request
proxy, plain, secure = sys.argv[1:]
context = ssl.create_default_context(cafile="cert.pem")
opener = urllib.request.build_opener(urllib.request.ProxyHandler({"http": proxy, "https": proxy}), urllib.request.HTTPSHandler(context=context))
print(opener.open(plain + "/", timeout=60).read().decode().strip())
print(opener.open(secure + "/", timeout=60).read().decode().strip())
print(opener.open(plain + "/sink", data=open("short", "rb").read(), timeout=60).read().decode().strip())
try:
    opener.open(plain + "/refused", timeout=60)
except urllib.error.HTTPError as fault:
    print(fault.code, fault.read().decode().strip())
try:
    opener.open("https://denied.example/", timeout=60)
except urllib.error.URLError as fault:
    print(fault.reason)
PYTHON
echo "clients, python3 is $(python3 --version | cut -d ' ' -f 2)"
same 'urllib: http, https, POST and denials' "$(timeout 120 python3 with_urllib.py "$proxy" "$plain" "$secure" 2>&1)" "hello
hello
$short
403 denied rule 1
Tunnel connection failed: 403 Forbidden"
cat >with_lengths.py <<'PYTHON'
# A long body whose length is told, made while it is sent.
import http.client, random, sys
proxy, target, left = sys.argv[1], sys.argv[2], int(sys.argv[3])
block = random.Random(1).randbytes(1_048_573)
def pieces(left):
    while left:
        yield block[:left]
        left -= min(left, len(block))
link = http.client.HTTPConnection(proxy.removeprefix("http://"), timeout=120)
link.request("PUT", target, body=pieces(left), headers={"Content-Length": str(left)})
print(link.getresponse().read().decode().strip())
PYTHON
same "http.client, $bytes bytes to the origin, with their length" "$(timeout 300 python3 with_lengths.py "$proxy" "$plain/sink" "$bytes" 2>&1)" "$long"

cat >with_requests.py <<'PYTHON'
import sys, requests
proxy, plain, secure = sys.argv[1:]
session = requests.Session()
session.trust_env = False
session.proxies = {"http": proxy, "https": proxy}
session.verify = "cert.pem"
body = open("short", "rb").read()
print(session.get(plain + "/", timeout=60).text.strip())
print(session.get(secure + "/", timeout=60).text.strip())
print(session.post(plain + "/sink", data=body, timeout=60).text.strip())
# Of unknown length, so it goes in chunks.
print(session.post(plain + "/sink", data=(body[at : at + 9999] for at in range(0, len(body), 9999)), timeout=60).text.strip())
reply = session.get(plain + "/bytes/3000000", headers={"Range": "bytes=5-9"}, timeout=60)
print(reply.status_code, reply.content == body[5:10])
reply = session.get(plain + "/refused", timeout=60)
print(reply.status_code, reply.text.strip())
try:
    session.get("https://denied.example/", timeout=60)
except requests.exceptions.ProxyError as fault:
    print("403" in str(fault))
PYTHON
# The one of the package is the system's Python's, where there is another one first.
for python in python3 /usr/bin/python3; do
    requests=$("$python" -c 'import requests; print(requests.__version__)' 2>/dev/null) && break
done
if [ -n "$requests" ]; then
    echo "clients, requests is $requests"
    same 'requests: http, https, POST, chunks, a range and denials' "$(timeout 120 "$python" with_requests.py "$proxy" "$plain" "$secure" 2>&1)" "hello
hello
$short
$short
206 True
403 denied rule 1
True"
else
    left_out requests
fi

cat >with_node.js <<'NODE'
// node has no proxy of its own: requests name the whole target, and a tunnel is a CONNECT that it upgrades to TLS.
const http = require("http"), https = require("https"), tls = require("tls"), fs = require("fs");
const [proxy, plain, secure] = process.argv.slice(2).map(text => new URL(text));
const agent = new http.Agent({ keepAlive: true, maxSockets: 1 });
function ask(method, path, body) {
    return new Promise((resolve, reject) => {
        const request = http.request({ host: proxy.hostname, port: proxy.port, method, path, agent, headers: { Host: plain.host } }, reply => {
            let text = "";
            reply.on("data", piece => text += piece).on("end", () => resolve(reply.statusCode + " " + text.trim())).on("error", reject);
        });
        request.on("error", reject).end(body);
    });
}
function connect(host) {
    return new Promise((resolve, reject) => {
        http.request({ host: proxy.hostname, port: proxy.port, method: "CONNECT", path: host }).on("connect", (reply, socket) => resolve([reply.statusCode, socket])).on("error", reject).end();
    });
}
(async () => {
    console.log(await ask("GET", plain + ""));
    console.log(await ask("POST", plain + "sink", fs.readFileSync("short")));
    console.log(await ask("GET", plain + "refused"));
    const [status, socket] = await connect(secure.host);
    const link = tls.connect({ socket, ca: fs.readFileSync("cert.pem"), host: "127.0.0.1" });
    await new Promise((resolve, reject) => link.on("secureConnect", resolve).on("error", reject));
    https.get({ createConnection: () => link, host: "127.0.0.1", path: "/" }, reply => {
        reply.on("data", piece => console.log(status, String(piece).trim())).on("end", async () => {
            const [denied, other] = await connect("denied.example:443");
            console.log(denied);
            other.destroy();
            process.exit(0);
        });
    });
})().catch(fault => { console.log("fault", fault); process.exit(1); });
NODE
if there node; then
    same 'node: http, POST, a tunnel and denials' "$(timeout 120 node with_node.js "$proxy" "$plain" "$secure" 2>&1)" "200 hello
200 $short
403 denied rule 1
200 hello
403"
fi

chromium=
for name in chromium chromium-browser google-chrome; do
    command -v "$name" >/dev/null && chromium=$name && break
done
if [ -n "$chromium" ] && there "$chromium"; then
    # browse NAME WORD ..: a browser of its own, which asks the proxy for what is on this machine too.
    cat >browse <<BROWSE
#!/bin/sh
profile=$folder/browser-\$1
shift
exec timeout 90 $chromium --headless=new --no-sandbox --disable-gpu --disable-dev-shm-usage --disable-background-networking --no-first-run \\
    --user-data-dir="\$profile" --proxy-server=$proxy '--proxy-bypass-list=<-loopback>' --ignore-certificate-errors "\$@" 2>browser.log
BROWSE
    chmod 755 browse
    reported() { grep -q "^$1:" reports; }
    for origin in "$plain" "$secure"; do
        scheme=${origin%%:*}
        # In a tunnel the proxy sees no path, and denies none.
        denied='403 denied rule 1'
        [ "$scheme" = http ] || denied='200 hello'
        ./browse "$scheme" "$origin/page" >/dev/null &
        browser=$!
        until_it 600 reported "$scheme"
        kill "$browser" 2>/dev/null
        wait "$browser" 2>/dev/null
        same "chromium, a page with pictures, a WebSocket, POST and a denial by $scheme" "$(grep "^$scheme:" reports)" "$scheme: pictures 12 socket same post 300000 denied $denied"
    done
    same 'chromium, a page that is denied' "$(./browse denied --dump-dom "$plain/refused" | grep -o 'denied rule 1')" 'denied rule 1'
    # It has no page to show then, and says why on its standard error.
    ./browse tunnel --dump-dom https://denied.example/ >/dev/null
    same 'chromium, a tunnel that is denied' "$(grep -o 'ERR_TUNNEL_CONNECTION_FAILED' browser.log | head -n 1)" ERR_TUNNEL_CONNECTION_FAILED
else
    left_out chromium
fi

# Connections that a client has left open end with it, so the proxy ends by itself; and its journal is one.
echo shutdown >orders
until_it 300 grep -q stopped said
same 'its end' "$(tail -n 1 said)" stopped
same 'its journal' "$("$program" verify squid.conf journal; echo "status $?")" "verified $(($(wc -l <journal) - 1))
status 0"
exit "$failed"
