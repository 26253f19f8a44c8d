# A helper for tests/chaos.py, in shell and without channels: by a word in the question it answers, says it is broken, or ends.
echo $$ >>pids
while read -r key; do
    case $key in
    *do-err*) echo "ERR message=\"$key\"" ;;
    *do-bh*) echo "BH message=\"$key\"" ;;
    *do-exit*) exit 0 ;;
    *do-bad*) echo "none" ;;
    *) echo "OK message=\"$key\"" ;;
    esac
done
