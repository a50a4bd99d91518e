# shellcheck shell=sh disable=SC2034,SC2154
# What the scripts have in common. It is for sh, read by `.`, and not run. The comment at a script's head is what it says on --help.
# Set here:
#   name      the script's own name, for what it says
#   root      the repository's folder
#   archive   where the library is that rt writes, for x86-64: the crate bisquemop_c
# A script that installs, compiles or builds sets
#   out       a folder for what it makes

name=$(basename -- "$0")
root=$(CDPATH='' cd -- "$(dirname -- "$0")/.." && pwd)
archive=$root/target/staticlib/libbisquemop.a
passed=0 failed=0

# ---- what a script says, and the words that it is given

say() { printf '%s: %s\n' "$name" "$*" >&2; }
die() { say "$*"; exit 2; }

usage() { sed -n -e 1d -e '/^#/!q' -e 's/^# \{0,1\}//p' "$0"; }
help() { usage; exit 0; }
wrong_words() { usage >&2; exit 2; }

# The words of a script that takes none.
no_words() { # WORD..
    case ${1-} in -h | --help) help ;; esac
    [ $# -eq 0 ] || wrong_words
}

# The words of a script that takes one at most, which is no option. A - alone is none either.
one_word() { # WORD..
    case ${1-} in
    -h | --help) help ;;
    -?*) wrong_words ;;
    esac
    [ $# -le 1 ] || wrong_words
}

# An option that has a value, at the front of the words that are left, and one whose value is a number.
has_value() { [ $# -ge 2 ] || wrong_words; }
has_number() { case ${2-} in '' | *[!0-9]*) wrong_words ;; esac; }

# ---- what has to be there

# Runs a command whose words matter only where it fails.
quietly() { # LOG COMMAND..
    log=$1
    shift
    "$@" >"$log" 2>&1 && return 0
    cat "$log" >&2
    say "failed: $*"
    exit 1
}

may_install() { [ "$(id -u)" = 0 ] && command -v apt-get >/dev/null; }

# A package of Debian's for x86-64 on another machine ends in :amd64. None is removed for another.
install_now() { # PACKAGE..
    case "$* " in *:amd64\ *) dpkg --add-architecture amd64 || return ;; esac
    apt-get update && DEBIAN_FRONTEND=noninteractive apt-get install -y --no-install-recommends --no-remove "$@"
}

# Installs Debian packages, or says which ones are missing.
install_packages() { # WHAT PACKAGE..
    missing=$1
    shift
    may_install || die "there is no $missing: install the Debian packages $*"
    say "installing $*"
    mkdir -p "$out"
    if ! install_now "$@" >"$out/packages.log" 2>&1; then
        tail -n 5 "$out/packages.log" >&2
        die "could not install the Debian packages $*"
    fi
}

# Sees to it that a command is there.
needs() { # COMMAND PACKAGE..
    command -v "$1" >/dev/null || install_packages "$@"
    command -v "$1" >/dev/null || die "there is no command $1"
}

# The first program of a name on the PATH with which a command succeeds that is given its path; nothing, where there is none.
first_with() { # NAME COMMAND..
    called=$1
    shift
    printf '%s\n' "$PATH" | tr : '\n' | while read -r folder; do
        [ -x "$folder/$called" ] || continue
        ! "$@" "$folder/$called" </dev/null >/dev/null 2>&1 || { printf '%s\n' "$folder/$called" && break; }
    done
}

# Debian's packages of Rust. Debian 12 has newer ones for its browsers, which are no neighbours of the older ones.
rust_packages() {
    if dpkg -s rustc >/dev/null 2>&1 || ! apt-cache show rustc-web >/dev/null 2>&1; then
        echo 'cargo rustfmt rust-clippy'
    else
        echo 'cargo-web rustfmt-web rust-web-clippy'
    fi
}

# The compilers of the header, for this machine.
needs_compilers() {
    needs gcc gcc libc6-dev
    needs g++ g++
    needs clang clang
    needs clang++ clang
}

has_kit() { command -v rt >/dev/null; }
how_to_have_kit="put the Rattle kit's bin folder on the PATH"
needs_kit() { has_kit || die "there is no command rt: $how_to_have_kit"; }

# Finds the kit, in $kit, and its tools, in $tools.
find_kit() {
    needs_kit
    kit=$(dirname "$(rt doc)")
    tools=$kit/toolchain
}

# Proves and builds the library for C that rt writes, for x86-64, unless that is done already, and shows how far that is.
build_library() {
    needs_kit
    needs make make
    make -s -C "$root" PROVE=yes library >&2 || exit 1
}

# ---- the programs of the repository

build_program() { # NAME
    mkdir -p "$out"
    "$root/scripts/build" "$1" </dev/null || exit
}

# Runs a program for x86-64 that needs nothing but this machine, and one that scripts/build has made.
emulated() { ${emulator:+"$emulator"} "$@"; } # PROGRAM WORD..
run_program() { # NAME WORD..
    program=$1
    shift
    "$root/target/programs/$program" "$@"
}

# Runs a command in the repository's folder.
in_root() { (cd "$root" && "$@"); }

# ---- tests

pass() { passed=$((passed + 1)); }
fail() { # WHAT
    failed=$((failed + 1))
    say "failed: $*"
}

# One test: a command that succeeds, or a text that is the one expected.
holds() { # WHAT COMMAND..
    what=$1
    shift
    if "$@"; then pass; else fail "$what"; fi
}
same() { # WHAT EXPECTED GOT
    if [ "$3" = "$2" ]; then pass; else fail "$(printf '%s: expected\n%s\ngot\n%s' "$1" "$2" "$3")"; fi
}

# What a command prints, and how it ends where that is not well.
output() { "$@" || echo "(status $?)"; } # COMMAND..

# Ends a program of tests well, and is its last line 'N passed, 0 failed', with something passed. What it says is left in a file.
all_passes() { # LOG COMMAND..
    log=$1
    shift
    status=0
    "$@" >"$log" 2>&1 || status=$?
    case $status,$(tail -n 1 "$log") in
    0,'0 passed'*) ;;
    0,*[0-9]' passed, 0 failed') return 0 ;;
    esac
    tail -n 20 "$log" >&2
    say "its status is $status: $*"
    return 1
}

# Calls a function for each of some words, as many side by side as there are processors, each with a folder of its own as $out. Then
# shows what each of them said, in the order of the words, and adds what it counted.
side_by_side() { # FUNCTION WORD..
    rm -rf "$out/beside"
    mkdir -p "$out/beside"
    lanes=''
    for _ in $(seq "${RT_JOBS:-$(nproc)}"); do
        lane "$@" &
        lanes="$lanes $!"
    done
    # shellcheck disable=SC2086
    wait $lanes || true
    shift
    for word; do add_beside "$(plain_name "$word")" "$word"; done
}
plain_name() { printf '%s\n' "$1" | tr / .; } # WORD

# A lane takes the words that no other has taken.
lane() { # FUNCTION WORD..
    function=$1
    shift
    for word; do
        folder=$out/beside/$(plain_name "$word")
        mkdir "$folder" 2>/dev/null || continue
        call_beside "$function" "$word" >"$folder.log" 2>&1 &
        wait $! || true
    done
}
call_beside() { # FUNCTION WORD
    set -e
    out=$folder passed=0 failed=0
    "$1" "$2"
    echo "$passed $failed" >"$out/counted"
}

add_beside() { # NAME WORD
    cat "$out/beside/$1.log" >&2
    if [ -s "$out/beside/$1/counted" ]; then
        read -r more fewer <"$out/beside/$1/counted"
        passed=$((passed + more)) failed=$((failed + fewer))
    else
        fail "$2 came to no end"
    fi
}

# Makes a folder of links to every command of the PATH but those that are named, as patterns.
link_commands() { # FOLDER BUT..
    links=$1
    shift
    rm -rf "$links"
    mkdir -p "$links"
    # the first of two that have one name is the one that is run
    printf '%s\n' "$PATH" | tr ':' '\n' | while read -r place; do ln -s "$place"/* "$links" 2>/dev/null || true; done
    # shellcheck disable=SC2086
    for but; do rm -f "$links"/$but; done
}

# Copies crates of the repository, without what rt has left in them.
copy_crates() { # FOLDER CRATE..
    to_copy=$1
    shift
    for each; do
        mkdir -p "$to_copy/crates/$each"
        for part in "$root/crates/$each"/*; do
            case $part in */out | */'*') ;; *) cp -R "$part" "$to_copy/crates/$each" ;; esac
        done
    done
}

# Removes a copy of the repository in which rt has worked. rt takes what it has built in one copy for another one, as long as there is the
# stamp: so the stamps go first, and never a part of what they stand for alone.
remove_copy() { # FOLDER
    rm -f "$1"/crates/*/out/rlib/stamp
    rm -rf "$1"
}

# Removes from a folder of what was tried what rt ci refuses in a repository: links, and sources that no crate has.
leave_to_rt() { # FOLDER
    find "$1" -path '*/out/rlib/stamp' -delete 2>/dev/null || true
    find "$1" \( -type l -o -name '*.rt' -o -name '*.antt' \) -delete 2>/dev/null || true
}

# The last line of a script that tests, and its exit status.
finish() {
    [ ! -d "${out-}" ] || leave_to_rt "$out"
    printf '%s passed, %s failed\n' "$passed" "$failed"
    [ "$failed" -eq 0 ]
}
