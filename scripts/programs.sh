# shellcheck shell=sh disable=SC2034,SC2154
# The programs of the repository, listing, pages, month and replay. It is for sh, read by `.` after helpers.sh, targets.sh and
# module.sh, and not run.
#
# rt makes them for x86-64. dist/ has the modules of those that people run, and these are compiled for this machine. Either way
# a program is put to target/programs.

programs='listing pages month'

# Where rt leaves a program, and its object, NAME.o.
made_by_rt() { echo "crates/$1/out/$1"; } # NAME

# Takes a program that rt has made, which rt ci will remove.
put_made() { # NAME
    mkdir -p target/programs
    rm -f "target/programs/$1.sums"
    cp "$(made_by_rt "$1")" "$out/program"
    mv "$out/program" "target/programs/$1"
}

# ---- from dist/

# Compiles a program of dist/ for this machine, unless that is done. It asks the system by devices/linux/os.c.
take_program() { # NAME
    taken=target/programs/$1
    if [ -r "$taken.sums" ] && sums_hold "$taken.sums"; then return 0; fi
    choose_target "$(this_machine)"
    case $target in aarch64-linux | x86_64-linux) ;; *) die "the programs are for Linux on x86-64 and on 64-bit Arm" ;; esac
    find_compiler
    needs_target
    rm -f "$taken.sums"
    mkdir -p target/programs
    compile_ir "dist/$1.ll" "$out/$1.o" -O3 -fPIE
    compile_program "$out/$1" devices/linux/os.c "$out/$1.o"
    mv "$out/$1" "$taken"
    $sum_command "dist/$1.ll" devices/linux/os.c "$taken" >"$out/$1.sums"
    mv "$out/$1.sums" "$taken.sums"
    say "$1 is taken from dist/, which was made of these sources"
}

# ---- the modules of programs that are proved here

# A module is known by its object: it is what rt's clang was handed if it gives what rt has written.
compile_as_rt() { # MODULE OBJECT
    choose_target x86_64-linux
    told_as_rt=$(echo "$told" | sed 's/-fPIC/-fPIE/')
    # shellcheck disable=SC2086
    compile_ir "$1" "$2" -O3 $told_as_rt -Xclang -fmerge-functions -mllvm -mergefunc-use-aliases
}
gives_object() { # MODULE NAME
    sed 's/ = ptrtoint \(ptr .*\) ; ptrtoaddr$/ = ptrtoaddr \1/' "$1" >"$out/$2.rt.ll"
    compile_as_rt "$out/$2.rt.ll" "$out/$2.o" && cmp -s "$out/$2.o" "$(made_by_rt "$2").o"
}

# Keeps the module that the stand-in was handed, and the program.
keep_program() { # NAME
    put_made "$1"
    mkdir -p target/module
    write_module "$out/$1.ll"
    mv "$out/$1.ll" "target/module/$1.ll"
}
