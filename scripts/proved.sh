# shellcheck shell=sh disable=SC2034,SC2154
# What dist/ has, and of which sources it was made. It is for sh, read by `.` in scripts/targets.sh, and not run.
#
# dist/ has what was proved, so that nobody needs the Rattle kit to use it. dist/PROVED has the sum of each of its files, as sha256sum
# writes them, and before these, as comments, the kit that proved them, how much was proved, and the sums of the sources. A file
# of dist/ is taken where both are as PROVED says, and where PROVE=yes is not in the environment: the gate sets that.

dist=$root/dist

# ---- sums

sum_command=sha256sum
command -v sha256sum >/dev/null || sum_command='shasum -a 256'

# The sum of standard input, and whether the files that a list of sums names are as it says.
sum_of_input() { $sum_command | cut -d ' ' -f 1; }
sums_hold() { grep -v '^#' "$1" | $sum_command -c >/dev/null 2>&1; } # FILE

# One sum of all files below these paths, by their names and their bytes, the same on every machine. What rt leaves in a crate is none.
# shellcheck disable=SC2086
sum_below() { # PATH..
    (cd "$root" && find "$@" -path 'crates/*/out' -prune -o -type f -print | LC_ALL=C sort | tr '\n' '\0' | xargs -0 $sum_command) | sum_of_input
}

# The sources: all that is proved, and the edits that must fail. And a line for each crate, of its name and its sum.
sources_sum() { sum_below crates crates.txt; }
crate_sums() {
    for crate in "$root"/crates/*/; do
        crate=$(basename "$crate")
        echo "$crate $(sum_below "crates/$crate")"
    done
}

# ---- whether dist/ can be used

# What PROVED says after a word.
proved_word() { sed -n "s/^# $1: //p" "$dist/PROVED"; } # WORD

# The crates that are others than dist/ was made of, as a list.
differing_crates() {
    {
        sed -n 's/^# crate \([^:]*\): \([0-9a-f]*\),.*/\1 \2/p' "$dist/PROVED"
        crate_sums
    } | LC_ALL=C sort | uniq -u | cut -d ' ' -f 1 | uniq | sed 's|^|crates/|' | paste -s -d ' ' -
}

# What is said where the sources are others than dist/ was made of.
difference() {
    differing=$(differing_crates)
    echo "dist/ was made of other sources than these: ${differing:-crates.txt}"
}

# Has dist/ a file, is it whole, and is it of the sources that are there. If not, $reason says what is wrong, and is empty where
# nothing was to be expected.
dist_has() { # FILE
    reason=''
    if [ -n "${PROVE-}" ] || [ ! -e "$dist/PROVED" ]; then return 1; fi
    line=$(grep "^[0-9a-f]*  $1\$" "$dist/PROVED") || return 1
    if [ ! -r "$dist/$1" ] || [ "${line%% *}" != "$(sum_of_input <"$dist/$1")" ]; then
        reason="dist/$1 is not the file that dist/PROVED names"
    elif [ "$(proved_word sources)" != "$(sources_sum)" ]; then
        reason=$(difference)
    fi
    [ -z "$reason" ]
}

# Sees to it that a file of dist/ can be taken, or that there is the kit to prove what it was made of.
needs_proved() { # FILE
    dist_has "$1" || has_kit || die "${reason:-dist/ has no $1}, and there is no command rt to prove anew: $how_to_have_kit"
}
