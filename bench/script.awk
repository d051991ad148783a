# Writes a script of `operations` drawn operations over 32 cores and 64 blocks: loads, stores and evicts as 4 : 3 : 1.
function draw(n) { x = (x * 1103515245 + 12345) % 2147483648; return int(x / 65536) % n }

BEGIN {
    print "cores 32\nblocks 64"
    x = 1
    for (k = 0; k < operations; k++) {
        core = draw(32); block = draw(64); kind = draw(8)
        if (kind < 4) print "op " core " load " block
        else if (kind < 7) print "op " core " store " block " " k
        else print "op " core " evict " block
    }
    print "done"
}
