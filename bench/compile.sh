#!/usr/bin/env bash
# Times `compile --mode stall` and `compile --mode defer` on MOESI and on the text at the limits of bench/limits.awk,
# beside `LC_ALL=C wc -w` on the output. Run it once the program is proved and built. Each is run often, and the fastest
# run counts.
cd "$(dirname "$0")/.." || exit 2
program=crates/protogen/out/protogen
[ -x "$program" ] || { echo "bench: build the program first, by ./protogen" >&2; exit 2; }
folder=$(mktemp -d)
trap 'rm -rf "$folder"' EXIT
cp protocols/moesi.txt "$folder/moesi"
awk -f bench/limits.awk >"$folder/limits"
for name in moesi limits; do
    "$program" check <"$folder/$name" >/dev/null || { echo "bench: the text '$name' breaks a rule" >&2; exit 1; }
    for mode in stall defer; do
        out=$folder/$name-$mode
        "$program" compile --mode "$mode" <"$folder/$name" >"$out" || { echo "bench: compile --mode $mode on '$name' ended with status $?" >&2; exit 1; }
        [ "$(tail -n 1 "$out")" = end ] || { echo "bench: compile --mode $mode on '$name' wrote no table text" >&2; exit 1; }
    done
done
PYTHONPATH=bench PYTHONDONTWRITEBYTECODE=1 python3 - "$program" "$folder" <<'PYTHON'
import os, sys
from fastest import fastest, words
program, folder = sys.argv[1:]
for name, text in (("moesi", "MOESI"), ("limits", "a text at the limits")):
    for mode in ("stall", "defer"):
        path = os.path.join(folder, name)
        out = f"{path}-{mode}"
        with open(out) as lines:
            kinds = [line.split()[0] for line in lines]
        run = fastest([program, "compile", "--mode", mode], path, 100, (0,))
        wc, size = words(out, 100)
        print(f"{text} ({kinds.count('state')} states, {kinds.count('on')} rows, {size} bytes out): "
              f"compile --mode {mode} {run * 1000:.2f} ms, wc -w {wc * 1000:.2f} ms, ratio {run / wc:.2f}")
PYTHON
