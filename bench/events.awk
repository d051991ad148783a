# Counts the events of a run on MSI, from the histories that it printed: each operation of the script is begun, each
# request reaches the directory, and each forward, acknowledgement of an evict and reply that it causes is delivered.
# `operations` is the number of operations.
BEGIN { events = operations }

/^block / { owner = ""; split("", sharers); next }

/^stale / { events += 2; next }

/^txn / {
    core = $3
    if ($4 == "load") {
        events += owner == "" ? 2 : 4
        if (owner != "") { sharers[owner] = 1; owner = "" }
        sharers[core] = 1
    } else if ($4 == "store") {
        events += owner == "" ? 2 : 3
        for (other in sharers) if (other != core) events += 2
        split("", sharers)
        owner = core
    } else {
        events += 2
        if (owner == core) owner = ""
        delete sharers[core]
    }
}

END { print events }
