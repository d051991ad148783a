#!/usr/bin/env bash
# Times `run` on scripts of 1,024 to 16,384 operations over 64 blocks and 32 cores, on MSI in both modes, and tells the
# events in a second and the ratio to `LC_ALL=C wc -w` on the input and the output together. Run it once the program is
# proved and built, with nothing beside it. Each is run often, and the fastest run counts.
cd "$(dirname "$0")/.." || exit 2
program=crates/protogen/out/protogen
[ -x "$program" ] || { echo "bench: build the program first, by ./protogen" >&2; exit 2; }
folder=$(mktemp -d)
trap 'rm -rf "$folder"' EXIT
for mode in stall defer; do
    for operations in 1024 2048 4096 8192 16384; do
        name=$folder/$mode-$operations
        { cat protocols/msi.txt; awk -v operations="$operations" -f bench/script.awk; } >"$name"
        "$program" run --mode "$mode" --seed 1 <"$name" >"$name.out" || { echo "bench: $name" >&2; exit 1; }
        cat "$name" "$name.out" >"$name.both"
        awk -v operations="$operations" -f bench/events.awk "$name.out" >"$name.events"
    done
done
PYTHONPATH=bench PYTHONDONTWRITEBYTECODE=1 python3 - "$program" "$folder" <<'PYTHON'
import os, sys
from fastest import fastest, words
program, folder = sys.argv[1:]
for mode in ("stall", "defer"):
    for operations in (1024, 2048, 4096, 8192, 16384):
        path = os.path.join(folder, f"{mode}-{operations}")
        run = fastest([program, "run", "--mode", mode, "--seed", "1"], path, 20, (0,))
        wc, size = words(path + ".both", 20)
        with open(path + ".events") as file:
            events = int(file.read())
        print(f"{mode}, {operations} operations, {events} events ({size} bytes in and out): run {run * 1000:.1f} ms, {events / run / 1e6:.2f} million events a second, wc -w {wc * 1000:.2f} ms, ratio {run / wc:.1f}")
PYTHON
