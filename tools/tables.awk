# Reads the text of a protocol's tables (docs/TABLES.md) on standard input, for tools/grid and tools/diagram. It leaves
#
#     title                        the protocol and the mode
#     states[side, n], state_count[side]
#                                  the states of a side in their order; "on" is the caches, "at" the directory
#     known[side, state]           whether the side has that state
#     row_state[side, n], row_input[side, n], row_acts[side, n], row_next[side, n], row_count[side]
#                                  its rows in their order
#
# What is no table text is refused: nothing is written, a message goes to standard error, and the status is 1. A tool
# prints nothing before its END block, and begins that with `check_end()`.

NR == 1 {
    if ($1 != "table" || NF != 3) refuse("its first line is no table line")
    title = $2 ", " $3
    next
}
ended { refuse("line " NR " stands after the end line") }
$1 == "end" && NF == 1 { ended = 1; next }
$1 == "state" && NF == 2 { add_state("on", $2); next }
$1 == "home" && NF == 2 { add_state("at", $2); next }
($1 == "on" || $1 == "at") && NF >= 6 && $(NF - 1) == "->" { add_row($1, $2, $3, $NF); next }
{ refuse("line " NR " is in no form") }

function refuse(why) {
    print tool ": this is no table text: " why > "/dev/stderr"
    refused = 1
    exit 1
}

function check_end() {
    if (refused) exit 1
    if (!ended) refuse("it has no end line")
}

function add_state(side, state) {
    if ((side, state) in known) refuse("line " NR " declares a state again")
    states[side, ++state_count[side]] = state
    known[side, state] = 1
}

function add_row(side, state, input, onward,    acts, k) {
    if (!((side, state) in known) || !((side, onward) in known)) refuse("line " NR " has a state that isn't declared")
    if ((side, state, input) in has_row) refuse("line " NR " has the state and the input of another row")
    has_row[side, state, input] = 1
    acts = $4
    for (k = 5; k < NF - 1; k++) acts = acts " " $k
    k = ++row_count[side]
    row_state[side, k] = state
    row_input[side, k] = input
    row_acts[side, k] = acts
    row_next[side, k] = onward
}
