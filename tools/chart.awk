# The reader of histories for tools/chart. All is kept until the line `end`, so that nothing is written of what is refused.
function refuse(why) {
    print "chart: line " NR ": " why > "/dev/stderr"
    refused = 1
    exit 1
}

function put(core, text) {
    core = substr(core, 2) + 0
    if (core > last_core) last_core = core
    cell[stamp, core] = cell[stamp, core] (cell[stamp, core] == "" ? "" : ", ") text
}

function finish_block(  line, core, k) {
    if (!open) return
    line = "| request |"
    for (core = 0; core <= last_core; core++) line = line " core " core " |"
    out = out "**block " block "**\n\n" line "\n|---|"
    for (core = 0; core <= last_core; core++) out = out "---|"
    out = out "\n"
    for (k = first; k <= stamp; k++) {
        line = "| " k " |"
        for (core = 0; core <= last_core; core++) line = line " " cell[k, core] " |"
        gsub(/  \|/, " |", line)
        out = out line "\n"
    }
    out = out "\n"
}

ended { refuse("there is a line after `end`") }

/^block [0-9]+$/ {
    finish_block()
    open = 1; block = $2; stamp = 0; first = 1; last_core = 0
    split("", cell)
    next
}

/^end$/ { finish_block(); ended = 1; next }

!open { refuse("no block is named yet") }

/^txn [0-9]+ c[0-9]+ (load|store|evict)$/ {
    if ($2 != stamp + 1) refuse("this is not request " stamp + 1)
    stamp = $2 + 0
    put($3, toupper($4))
    next
}

/^stale [0-9]+ c[0-9]+$/ {
    if ($2 != stamp + 1) refuse("this is not request " stamp + 1)
    stamp = $2 + 0
    put($3, "EVICT (stale)")
    next
}

/^acc [0-9]+ c[0-9]+ (load|store) [0-9]+$/ {
    if ($2 != stamp) refuse("the access is not one of request " stamp)
    if (stamp == 0) first = 0
    put($3, $4 " " $5)
    next
}

{ refuse("this is no line of a history") }

END {
    if (refused) exit 1
    if (!ended) { print "chart: there is no line `end`" > "/dev/stderr"; exit 1 }
    printf "%s", out
}
