# The program of tools/diagram, which reads by tools/tables.awk. `side` is "on" for the caches and "at" for the
# directory.

END {
    check_end()
    print "flowchart TB"
    print "    %% " title ": " (side == "on" ? "caches" : "directory")
    print "    classDef stable stroke-width:3px"
    print "    classDef transient stroke-dasharray:4 3"
    for (k = 1; k <= state_count[side]; k++) {
        number[states[side, k]] = k
        print "    s" k node(states[side, k])
    }
    for (k = 1; k <= row_count[side]; k++) {
        edge = "s" number[row_state[side, k]] SUBSEP "s" number[row_next[side, k]]
        label = row_input[side, k] ": " row_acts[side, k]
        if (edge in labels) labels[edge] = labels[edge] "<br/>" label
        else {
            edges[++edge_count] = edge
            labels[edge] = label
        }
    }
    for (k = 1; k <= edge_count; k++) {
        split(edges[k], ends, SUBSEP)
        print "    " ends[1] " -->|\"" labels[edges[k]] "\"| " ends[2]
    }
}

# A stable state is round and has a strong line; a transient one is a box with a broken line. The names of stable states
# have no `_`, and those of transient states have one.
function node(state) {
    return state ~ /_/ ? "[\"" state "\"]:::transient" : "([\"" state "\"]):::stable"
}
