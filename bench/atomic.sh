#!/usr/bin/env bash
# Times `atomic` on scripts of 1,024 to 16,384 operations over 64 blocks and 32 cores, on MSI and on MOESI, beside
# `LC_ALL=C wc -w` on the input and the output together. Run it once the program is proved and built. Each is run often,
# and the fastest run counts.
cd "$(dirname "$0")/.." || exit 2
program=crates/protogen/out/protogen
[ -x "$program" ] || { echo "bench: build the program first, by ./protogen" >&2; exit 2; }
folder=$(mktemp -d)
trap 'rm -rf "$folder"' EXIT
for protocol in msi moesi; do
    for operations in 1024 2048 4096 8192 16384; do
        name=$folder/$protocol-$operations
        { cat "protocols/$protocol.txt"; awk -v operations="$operations" -f bench/script.awk; } >"$name"
        "$program" atomic <"$name" >"$name.out" || { echo "bench: $name" >&2; exit 1; }
        cat "$name" "$name.out" >"$name.both"
    done
done
PYTHONPATH=bench PYTHONDONTWRITEBYTECODE=1 python3 - "$program" "$folder" <<'PYTHON'
import os, sys
from fastest import fastest, words
program, folder = sys.argv[1:]
for protocol in ("msi", "moesi"):
    for operations in (1024, 2048, 4096, 8192, 16384):
        path = os.path.join(folder, f"{protocol}-{operations}")
        run = fastest([program, "atomic"], path, 100, (0,))
        wc, size = words(path + ".both", 100)
        print(f"{protocol}, {operations} operations ({size} bytes in and out): atomic {run * 1000:.2f} ms, wc -w {wc * 1000:.2f} ms, ratio {run / wc:.2f}")
PYTHON
