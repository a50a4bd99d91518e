# Where the time of .ci/run went, as tables. Read are what rt ci said, and then a line for each step: the clock when it began and when it
# ended, what processors had spent before it and after it, in seconds, and the command. rt says no seconds of a proof or of an edit; it
# says which crates it has proved in this run, and which had passed on this machine before, with the same files.

FNR == NR && /^rt: [A-Za-z0-9_]+ proved$/ {
    crate[++crates] = $2
    proved[$2] = "now"
    here++
}

FNR == NR && /^rt: [A-Za-z0-9_]+ is kept: / {
    crate[++crates] = $2
    proved[$2] = "before"
}

FNR == NR && /^rt: must-fail .*: refused, as it must be/ {
    split($3, part, "/")
    edits[part[1]]++
    all_edits++
}

FNR < NR {
    if (!steps++) first = $1
    last = $2
    clock = $2 - $1
    spent = $4 - $3
    sub(/^[^ ]+ [^ ]+ [^ ]+ [^ ]+ /, "")
    step[steps] = sprintf("| %s | %d | %d |", $0, clock, spent)
    if (/^scripts\/test-/) tests += spent
    if ($0 == "rt ci") proofs = clock
}

END {
    print "| Crate | Proved | Its edits |"
    print "|---|---|---|"
    for (k = 1; k <= crates; k++) printf "| %s | %s | %d |\n", crate[k], proved[crate[k]], edits[crate[k]]
    printf "| all %d | %d now | %d |\n\n", crates, here, all_edits
    print "| Step | By the clock, s | Of processors, s |"
    print "|---|---|---|"
    for (k = 1; k <= steps; k++) print step[k]
    printf "\ntime: proofs and edits %d s by the clock; tests %d s of processors; in all %d s by the clock\n", proofs, tests, last - first
}
