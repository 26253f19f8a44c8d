# Answers by the path: a question is one line, the path and a `-`.
exec 2>/dev/null
while read -r path rest; do
    case $path in
    /ok*) echo OK ;;
    /err*) echo ERR ;;
    /bh*) echo BH ;;
    /bad*) echo 'it is known' ;;
    /die*) exit 0 ;;
    /fits*) printf 'OK %065533d\n' 0 ;;
    /over*) printf 'OK %065534d\n' 0 ;;
    /much*) printf 'OK %0200000d\n' 0 ;;
    *) echo ERR ;;
    esac
done
