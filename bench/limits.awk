# A text at the limits. It has 14 cache states, 16 directory states and 32 messages, each with a name of 24 characters.
# Twelve of the cache states are owners and eleven of these may only read, so that a store begins in thirteen states.
# Each owner may be sent a share, a keep and a drop, so that each operation may have each tag. A load may get each of 24
# replies and ends in thirteen states; a store that began as out may get each of them too. It keeps the rules of the
# form and of the shape; with `-v more=N` it has N more core lines, of 80 words each, for a load that already has a
# line.
function name(letter, number) { return sprintf("%sabcdefghijklmnopqrstu%02d", letter, number) }
# Owners are numbered from 1 to 12, and the last may write. The first 12 replies answer a drop, and a load then ends in
# that owner; with each other reply it ends shared.
function owner(k) { return name(k < 12 ? "R" : "M", k) }
function reply(k) { return name("D", k) }
BEGIN {
    out = name("I", 0); shared = name("S", 0)
    read = name("Q", 1); write = name("Q", 2); clean = name("Q", 3); dirty = name("Q", 4)
    inv = name("F", 1); share = name("F", 2); keep = name("F", 3); drop = name("F", 4)
    idle = name("H", 0); by_share = name("H", 12); by_keep = name("H", 13); by_drop = name("H", 14); mixed = name("H", 15)
    print "protocol " name("P", 0)
    print "cache " out " out none"
    print "cache " shared " shared read"
    for (k = 1; k <= 12; k++) print "cache " owner(k) " owner " (k < 12 ? "read" : "write")
    print "dir " idle " idle"
    for (k = 1; k <= 11; k++) print "dir " name("H", k) " shared"
    for (k = 1; k <= 12; k++) owners = owners " " owner(k)
    print "dir " by_share " owned" owners
    print "dir " by_keep " owned" owners
    print "dir " by_drop " owned" owners
    sub(" " owner(12), "", owners)
    print "dir " mixed " mixed" owners
    print "request " read " read"
    print "request " write " write"
    print "request " clean " clean"
    print "request " dirty " dirty"
    print "forward " inv " inv"
    print "forward " share " share"
    print "forward " keep " keep"
    print "forward " drop " drop"
    for (k = 1; k <= 24; k++) print "reply " reply(k) " data"
    for (k = 1; k <= 24; k++) {
        loads = loads " " reply(k) " " (k <= 12 ? owner(k) : shared)
        of_out = of_out " " reply(k) " " owner(12)
        if (k != 12 && k != 13) of_shared = of_shared " " reply(k) " " owner(12)
    }
    for (k = 1; k <= 14; k++) again = again " " reply(k) " " owner(12)
    print "core " out " load " read loads
    print "core " out " store " write of_out
    print "core " shared " load hit"
    print "core " shared " store " write of_shared
    print "core " shared " evict " clean
    for (k = 1; k <= 12; k++) {
        print "core " owner(k) " load hit"
        print "core " owner(k) " store " (k < 12 ? write " AckCount " owner(12) : "hit")
        print "core " owner(k) " evict " dirty
    }
    for (k = 1; k <= more; k++) print "core " out " load " read loads again
    print "take " shared " " inv " " out
    for (k = 1; k <= 12; k++) {
        print "take " owner(k) " " share " " reply(12 + k) " " shared
        print "take " owner(k) " " keep " " reply(12 + k) " " owner(k < 12 ? k : 1)
        print "take " owner(k) " " drop " " reply(k) " " out
    }
    print "row " idle " " read " other " reply(13) " " name("H", 1)
    print "row " idle " " write " other " reply(13) " " by_share
    for (k = 1; k <= 11; k++) {
        state = name("H", k)
        print "row " state " " read " other " reply(13 + k) " " state
        print "row " state " " write " other " reply(13 + k) " " by_keep
        print "row " state " " write " sharer " reply(13 + k) " " by_drop
        print "row " state " evict sharer last " idle
        print "row " state " evict sharer more " state
    }
    for (k = 12; k <= 15; k++) {
        state = name("H", k)
        if (k == 12) print "row " state " " read " other " share " " name("H", 1)
        else if (k == 14) print "row " state " " read " other " drop " " by_drop
        else print "row " state " " read " other " keep " " mixed
        print "row " state " " write " other " drop " " by_keep
        if (k == 15) print "row " state " " write " sharer " drop " " by_drop
        print "row " state " " write " owner count " by_share
        print "row " state " evict owner last " idle
        if (k == 15) {
            print "row " state " evict owner more " name("H", 1)
            print "row " state " evict sharer last " by_keep
            print "row " state " evict sharer more " mixed
        }
    }
    print "end"
}
