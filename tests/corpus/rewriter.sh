# Answers by a word of the path: where a request goes on is a target of 127.0.0.1 with the port that was asked for.
exec 2>/dev/null
while read -r url rest; do
    port=${url#*//*:}
    port=${port%%/*}
    case $url in
    */elsewhere*) echo 'OK url="http://c.example/?a=b"' ;;
    */both*) echo "OK rewrite-url=\"http://127.0.0.1:$port/new\" url=\"http://c.example/\"" ;;
    */301*) echo 'OK status=301 url="http://c.example/"' ;;
    */302*) echo 'OK url="http://c.example/" status=302' ;;
    */303*) echo 'OK status=303 url="/d"' ;;
    */307*) echo 'OK status=307 url="https://c.example:8443/#d"' ;;
    */308*) echo 'OK status=308 url=~' ;;
    */200*) echo 'OK status=200 url="http://c.example/"' ;;
    */empty*) echo 'OK url=""' ;;
    */other*) echo "OK rewrite-url=\"http://127.0.0.1:$port/new\"" ;;
    */spelt*) echo "OK rewrite-url=\"HTTP://127.0.0.1:$port?q\"" ;;
    */named*) echo "OK rewrite-url=\"http://LocalHost:$port/\"" ;;
    */nobody*) echo "OK rewrite-url=\"http://[::1]:$port/new\"" ;;
    */short*) echo "OK rewrite-url=\"http://127.1:$port/new\"" ;;
    */hexadecimal*) echo "OK rewrite-url=\"http://0x7f000001:$port/new\"" ;;
    */mapped*) echo "OK rewrite-url=\"http://[::ffff:127.0.0.1]:$port/new\"" ;;
    */absolute*) echo "OK rewrite-url=\"http://localhost.:$port/new\"" ;;
    */ftp*) echo "OK rewrite-url=\"ftp://127.0.0.1:$port/new\"" ;;
    */nonsense*) echo 'OK rewrite-url=nonsense' ;;
    */path*) echo 'OK rewrite-url=/new' ;;
    */fragment*) echo "OK rewrite-url=\"http://127.0.0.1:$port/new#c\"" ;;
    */authority*) echo "OK rewrite-url=127.0.0.1:$port" ;;
    */err*) echo "ERR rewrite-url=\"http://127.0.0.1:$port/new\"" ;;
    */bh*) echo 'BH url="http://c.example/"' ;;
    */liar*) echo 'it is known' ;;
    */dies*) exit ;;
    *) echo OK ;;
    esac
done
