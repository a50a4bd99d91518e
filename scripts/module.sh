# shellcheck shell=sh disable=SC2034,SC2154
# The module of the proved code, from which the library is compiled for every machine. It is for sh, read by `.` after helpers.sh and
# targets.sh, and not run.
#
# rt compiles for x86-64: once it has proved the library, the crate bisquemop_c, it hands one LLVM module of it to the kit's clang. A
# stand-in for the kit keeps a copy of that module, and is the kit in all else. Less what names x86-64 or a path, the module is kept in target/module with
# its sum, that of the archive that rt wrote, and that of the sources: they belong together. Where nothing is proved here, the module
# is the one of dist/, and there is no such archive.

module=$root/target/module/bisquemop.ll

# Makes a folder of links to everything in the kit, but its clang is a script that keeps the module and then runs the kit's own. rt takes
# the folder that it lies in for the kit, whatever links lead to it: so there is a copy of it.
make_stand_in() { # FOLDER
    link_all "$kit" "$1" bin toolchain
    link_all "$kit/bin" "$1/bin" rt rtlib.py
    cp "$(readlink -f "$(command -v rt)")" "$1/bin/rt"
    [ ! -e "$kit/bin/rtlib.py" ] || cp "$kit/bin/rtlib.py" "$1/bin"
    link_all "$tools" "$1/toolchain" bin
    stand_in=$1/toolchain/bin
    link_all "$tools/bin" "$stand_in" clang
    ln -s "$tools/bin/clang" "$stand_in/of-the-kit"
    cat >"$stand_in/clang" <<'END'
#!/bin/sh
here=$(dirname -- "$0")
for word; do
    case $word in
    *.bc)
        [ ! -e "$here/module.bc" ] || { echo 'a second module was handed to clang' >&2 && exit 1; }
        cp -- "$word" "$here/module.bc" || exit
        ;;
    esac
done
exec "$(readlink "$here/of-the-kit")" "$@"
END
    chmod +x "$stand_in/clang"
}

# Makes one in a new folder, which is $room. It lies outside the repository, where rt refuses links.
use_stand_in() {
    find_kit
    room=$(mktemp -d)
    make_stand_in "$room/kit"
}

# Links to all in a folder but some names.
link_all() { # FROM TO BUT..
    linked_from=$1 linked_to=$2
    shift 2
    mkdir -p "$linked_to"
    for file in "$linked_from"/*; do
        case " $* " in *" ${file##*/} "*) ;; *) ln -s "$file" "$linked_to" ;; esac
    done
}

# The module that the stand-in has kept, as text in which neither a machine nor a path is named. Each call's answer is marked signext, as
# C compilers do it on riscv64: there a number of 32 bits fills a register of 64. On the other machines the mark changes nothing.
# A hint that LLVM knows by a new name since version 21 gets its old one, which all know. So does the address of a pointer as a number:
# LLVM 19 has ptrtoint alone, which gives the same number. A comment on the line says so, by which rt's own module is had again.
write_module() { # FILE
    [ -s "$stand_in/module.bc" ] || die "rt handed no module to clang: this kit is another than this script knows"
    quietly "$out/module.log" "$tools/bin/clang" --target=x86_64-unknown-linux-gnu -S -emit-llvm -O0 -Xclang -disable-llvm-passes \
        -x ir "$stand_in/module.bc" -o "$out/named.ll"
    sed -e '/^; ModuleID = /d' -e '/^target datalayout = /d' -e '/^target triple = /d' -e 's/ "target-cpu"="[^"]*"//' \
        -e 's/captures(none)/nocapture/g' -e 's/ = ptrtoaddr \(ptr .*\)$/ = ptrtoint \1 ; ptrtoaddr/' \
        -e 's/^define noundef i32 @bisquemop_/define noundef signext i32 @bisquemop_/' "$out/named.ll" >"$1"
    ! grep -q 'captures(' "$1" || die "rt's module has a hint that LLVM 19 does not know: captures(..)"
}

# Has the library's module calls, and is the answer of each marked.
marks_every_call() { # FILE
    calls=$(grep -c '^define [^@]*@bisquemop_' "$1") && [ "$calls" = "$(grep -c '^define [^@]* signext i32 @bisquemop_' "$1")" ]
}

# Puts a module to target/module. The sums come last: without them it is nothing.
put_module() { # FILE SOURCES-SUM FILE-BESIDES..
    put=$1 sources=$2
    shift 2
    mkdir -p "$(dirname "$module")"
    rm -f "$(dirname "$module")/sums"
    mv "$put" "$module"
    # shellcheck disable=SC2086
    {
        echo "# sources: $sources"
        in_root $sum_command target/module/bisquemop.ll "$@"
    } >"$out/sums"
    mv "$out/sums" "$(dirname "$module")/sums"
}

# Puts the archive that rt wrote to $archive: its object has the library's name there, and not the crate's.
put_archive() {
    rm -rf "$out/archive"
    mkdir -p "$out/archive" "$(dirname "$archive")"
    (cd "$out/archive" && "$tools/bin/llvm-ar" x "$root/crates/bisquemop_c/out/libbisquemop_c.a") || exit 2
    mv "$out/archive/bisquemop_c.o" "$out/archive/bisquemop.o"
    quietly "$out/ar.log" "$tools/bin/llvm-ar" rcs "$out/archive/libbisquemop.a" "$out/archive/bisquemop.o"
    mv "$out/archive/libbisquemop.a" "$archive"
}

# Keeps the module that was proved beside the archive that rt wrote.
keep_module() { # SOURCES-SUM
    write_module "$out/bisquemop.ll"
    marks_every_call "$out/bisquemop.ll" || die "the calls in rt's module are not written as this script knows them"
    put_archive
    put_module "$out/bisquemop.ll" "$1" target/staticlib/libbisquemop.a
}

# Takes the module of dist/.
take_module() {
    cp "$dist/bisquemop.ll" "$out/bisquemop.ll"
    put_module "$out/bisquemop.ll" "$(proved_word sources)"
    say "the library is taken from dist/, which was made of these sources: $(proved_word proved)"
}

# Is the module there with all that was put with it, and of the sources that are there; and, where PROVE is set, was it proved here.
module_is_whole() {
    sums=$root/target/module/sums
    [ -r "$sums" ] && in_root sums_hold "$sums" && grep -qx "# sources: $(sources_sum)" "$sums" || return 1
    [ -z "${PROVE-}" ] || grep -q '  target/staticlib/' "$sums"
}
