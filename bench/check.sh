#!/usr/bin/env bash
# Times `check` beside `LC_ALL=C wc -w` on the same bytes, on four inputs: MSI followed by newlines up to 1,048,576
# bytes, a text of 512 core lines with as many words as a line may have, a text at each limit, with 16 cache lines, 16
# dir lines of 80 words, 32 messages and 512 core, take and row lines, and the text at the limits of bench/limits.awk
# with as many more core lines of 80 words as there may be. The second and the third break a rule of the shape in line
# 1, and the last keeps the shape up to the first of its additional lines, which is line 105. Run it once the program is
# proved and built. Each is run often, and the fastest run counts.
cd "$(dirname "$0")/.." || exit 2
program=crates/protogen/out/protogen
[ -x "$program" ] || { echo "bench: build the program first, by ./protogen" >&2; exit 2; }
folder=$(mktemp -d)
trap 'rm -rf "$folder"' EXIT
{ cat protocols/msi.txt; head -c "$((1048576 - $(stat -c %s protocols/msi.txt)))" /dev/zero | tr '\0' '\n'; } >"$folder/newlines"
awk 'BEGIN {
    state = "Sabcdefghijklmnopqrstuvw"; reply = "Dabcdefghijklmnopqrstuvw"
    print "protocol P\ncache " state " shared read\nrequest GetS read\nreply " reply " data"
    for (line = 0; line < 512; line++) {
        printf "core %s load GetS", state
        for (pair = 0; pair < 38; pair++) printf " %s %s", reply, state
        print ""
    }
    print "end"
}' >"$folder/lines"
awk 'function name(letter, number) { return sprintf("%sabcdefghijklmnopqrstu%02d", letter, number) }
BEGIN {
    print "protocol P"
    for (k = 0; k < 16; k++) print "cache " name("S", k) " owner write"
    for (k = 0; k < 16; k++) {
        printf "dir %s owned", name("S", k)
        for (state = 0; state < 77; state++) printf " %s", name("S", state % 16)
        print ""
    }
    for (k = 0; k < 10; k++) print "request " name("R", k) " read"
    for (k = 0; k < 11; k++) print "forward " name("F", k) " drop"
    for (k = 0; k < 11; k++) print "reply " name("D", k) " data"
    for (k = 0; k < 400; k++) {
        printf "core %s load %s", name("S", k % 16), name("R", k % 10)
        for (pair = 0; pair < 38; pair++) printf " %s %s", name("D", (k + pair) % 11), name("S", pair % 16)
        print ""
    }
    for (k = 0; k < 56; k++) print "take " name("S", k % 16) " " name("F", k % 11) " " name("D", k % 11) " " name("S", k % 16)
    for (k = 0; k < 56; k++) print "row " name("S", k % 16) " " name("R", k % 10) " other " name("F", k % 11) " " name("S", k % 16)
    print "end"
}' >"$folder/limits"
awk -v more=357 -f bench/limits.awk >"$folder/shape"
PYTHONPATH=bench PYTHONDONTWRITEBYTECODE=1 python3 - "$program" "$folder/newlines" "$folder/lines" "$folder/limits" "$folder/shape" <<'PYTHON'
import os, sys
from fastest import fastest, words
program = sys.argv[1]
for path in sys.argv[2:]:
    check = fastest([program, "check"], path, 200, (0, 1))
    wc, size = words(path, 200)
    print(f"{os.path.basename(path)} ({size} bytes): check {check * 1000:.2f} ms, wc -w {wc * 1000:.2f} ms, ratio {check / wc:.2f}")
PYTHON
