"""A helper for tests/chaos.py: helper.py NAME CONCURRENCY

What it does with a question is said by a word in the key, `do-WORD`. Of `do-table` it looks into the file `table`, which has a
number in its first line and then words of keys that it answers with OK. Each answer tells the key and that number.
"""

import os
import select
import sys
import time


def main() -> None:
    channels = int(sys.argv[2]) > 0
    with open("pids", "a") as pids:
        pids.write(f"{os.getpid()}\n")
    held = b""
    late: list[bytes] = []

    def put(text: bytes) -> None:
        os.write(1, text)

    while True:
        while b"\n" not in held:
            if late and not select.select([0], [], [], 0.03)[0]:
                # In another order than that of the questions.
                for text in reversed(late):
                    put(text)
                late = []
                continue
            more = os.read(0, 65536)
            if not more:
                return
            held += more
        line, held = held.split(b"\n", 1)
        front = b""
        key = line
        if channels:
            front, key = line.split(b" ", 1)
            front += b" "
        number, _, listed = open("table", "rb").read().partition(b"\n")
        at = key.find(b"do-")
        do, _, rest = key[at + 3 :].partition(b".") if at >= 0 else (b"ok", b"", b"")
        variant = rest.split(b" ", 1)[0].split(b"/", 1)[0]
        told = b' message="' + key + b'" log=g' + number + b"\n"
        ok, err = front + b"OK" + told, front + b"ERR" + told
        again = front + b'OK message="again"\n'
        if do == b"table":
            put(ok if variant in listed.split() else err)
        elif do == b"ok":
            put(ok)
        elif do == b"err":
            put(err)
        elif do == b"bh":
            put(front + b"BH" + told)
        elif do == b"tag":
            # What most of them name changes with the table.
            fixed = {b"5": b'"of ERR"', b"6": b"", b"7": b'"\\"first\\"\\n" tag=second'}
            tag = fixed.get(variant, b"t%d" % ((int(variant) + int(number)) % 3))
            put((err if variant == b"5" else ok)[:-1] + (b" tag=" + tag if tag else b"") + b"\n")
        elif do == b"late":
            if channels:
                late.append(ok if variant[-1:] in b"02468" else err)
                if len(late) > 2:
                    for text in reversed(late):
                        put(text)
                    late = []
            else:
                time.sleep(0.02)
                put(ok if variant[-1:] in b"02468" else err)
        elif do == b"slow":
            time.sleep(0.2)
            put(ok)
        elif do == b"stall":
            time.sleep(1.5)
            put(err)
        elif do == b"trickle":
            for byte in ok:
                put(bytes([byte]))
                time.sleep(0.001)
        elif do == b"cr":
            put(ok[:-1] + b"\r\n")
        elif do == b"bad":
            put(front + b"what do you want?\n")
        elif do == b"twice":
            put(ok + again)
        elif do == b"stray":
            put(b"77 OK message=\"stray\"\n")
        elif do == b"long":
            put(front + b'OK message="' + b"x" * 70000 + b'"\n')
        elif do == b"half":
            put(front + b"O")
            return
        elif do == b"flood":
            put(b"".join(front + b"no %d\n" % n for n in range(200)))
        elif do == b"noise":
            put(bytes(range(1, 256)).replace(b"\n", b"") * 3 + b"\n")
        elif do == b"exit":
            return
        else:
            put(err)


if __name__ == "__main__":
    try:
        main()
    except (BrokenPipeError, KeyboardInterrupt):
        pass
