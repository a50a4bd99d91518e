# shellcheck shell=sh disable=SC2034,SC2154
# The programs that look for what goes wrong, with inputs by chance: what scripts/fuzz and scripts/test-fuzz have in common. It is for sh,
# read by `.` after helpers.sh and targets.sh, and not run. build_fuzzers sets
#   calls      makes every call of the header, in buffers beside pages that cannot be touched
#   guarded    the command with what looks for wrong reads and overflows, run by tests/fuzz/command.py
# What was found once stands in $found, a file for each case.

found=$root/tests/fuzz/found

# Compiles C of ours without a warning.
compile_c() { # PROGRAM WORD..
    made=$1
    shift
    gcc -std=c99 -O1 -g -Wall -Wextra -Wpedantic -Wconversion -Werror -Iinclude -o "$made" "$@"
}

build_fuzzers() {
    needs python3 python3
    needs gcc gcc libc6-dev
    choose_target "$(this_machine)"
    needs_target
    build_for_target
    calls=$out/calls guarded=$out/guarded
    compile_c "$calls" -Itests/fuzz/calls tests/fuzz/calls/*.c "$library"
    compile_c "$guarded" -fsanitize=address,undefined -fno-sanitize-recover=all command/*.c "$library"
}

# Cases of the command: SEED CASES SECONDS FOLDER, or --replay FILE..
command_cases() { python3 tests/fuzz/command.py "$guarded" "$@"; }
