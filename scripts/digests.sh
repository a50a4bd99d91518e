# shellcheck shell=sh disable=SC2034,SC2154
# Digests: what a program of tests/digest prints of all that the library answers in so many cases. It is for sh, read by `.` after
# helpers.sh, and not run.

# The digest that is written down, if there is one of so many cases.
expected_digest() { grep " in $1 cases; " "$root/tests/digest/EXPECTED" || true; } # CASES

is_digest() { # CASES TEXT
    printf '%s\n' "$2" | grep -qxE "[0-9a-f]{16} of [1-9][0-9]* numbers in $1 cases; returned( [0-9]+:[0-9]+)+"
}

# Runs such a program: its digest, in $digest. It has to end by itself, and well.
find_digest() { # CASES COMMAND..
    digest_cases=$1
    shift
    digest=$("$@" "$digest_cases") && is_digest "$digest_cases" "$digest"
}

# Tells the digest that another library is linked. A program that crashes, or that is ended, tells nothing by its digest.
tells_another() { # CASES REFERENCE COMMAND..
    reference_digest=$2
    digest_cases=$1
    shift 2
    find_digest "$digest_cases" "$@" && [ "$digest" != "$reference_digest" ]
}

# ---- a module that is spoiled

# The module with the first comparison of a function inverted. A function goes by its own name, in whatever crate it stands; there has to be one
# of that name.
spoil_module() { # MODULE FUNCTION
    awk -v wanted="$2" '
        BEGIN {
            count = split("eq ne ult uge ule ugt slt sge sle sgt", word, " ")
            for (k = 1; k < count; k += 2) { other[word[k]] = word[k + 1]; other[word[k + 1]] = word[k] }
        }
        /^define / {
            match($0, /@[^(]*\(/)
            name = substr($0, RSTART + 1, RLENGTH - 2)
            gsub(/"|.*::/, "", name)
            inside = name == wanted
            found += inside
        }
        inside && $3 == "icmp" && !inverted { inverted = sub("icmp " $4, "icmp " other[$4]) }
        { print }
        END { exit !(found == 1 && inverted) }' "$1"
}
