# shellcheck shell=sh disable=SC2034,SC2154
# The machines that the library is compiled for. It is for sh, read by `.` after helpers.sh, and not run.
# choose_target NAME [FOR] sets
#   target     the name
#   made_for   what the library is made for: speed, or size
#   library    where the library for it is when it is built
#   triple     what LLVM calls it
#   told       what clang is told besides
#   cc         the C compiler for programs that are linked with the library, and cc_packages, Debian's packages of it
#   runs       the command that runs such programs here, and runs_packages; empty on the machine itself, and `none` where
#              programs cannot be run

# shellcheck source=scripts/proved.sh
. "$root/scripts/proved.sh"

# A line for each: name; LLVM's triple; what clang is told besides; C compiler; its packages; what runs programs; its package.
target_table() {
    sed -e 's/ *| */|/g' <<'END'
x86_64-linux | x86_64-unknown-linux-gnu | -march=x86-64 -fPIC -mllvm -no-x86-call-frame-opt | x86_64-linux-gnu-gcc | gcc-x86-64-linux-gnu libc6-dev-amd64-cross | qemu-x86_64 | qemu-user
aarch64-linux | aarch64-unknown-linux-gnu | -fPIC | aarch64-linux-gnu-gcc | gcc-aarch64-linux-gnu libc6-dev-arm64-cross | qemu-aarch64 | qemu-user
armv7-linux | armv7-unknown-linux-gnueabihf | -fPIC | arm-linux-gnueabihf-gcc | gcc-arm-linux-gnueabihf libc6-dev-armhf-cross | qemu-arm | qemu-user
riscv64-linux | riscv64-unknown-linux-gnu | -fPIC | riscv64-linux-gnu-gcc | gcc-riscv64-linux-gnu libc6-dev-riscv64-cross | qemu-riscv64 | qemu-user
cortex-m4 | thumbv7em-none-eabi | -mcpu=cortex-m4 | arm-none-eabi-gcc | gcc-arm-none-eabi libnewlib-arm-none-eabi | qemu-system-arm | qemu-system-arm
cortex-m4f | thumbv7em-none-eabihf | -mcpu=cortex-m4 | arm-none-eabi-gcc | gcc-arm-none-eabi libnewlib-arm-none-eabi | qemu-system-arm | qemu-system-arm
cortex-m0plus | thumbv6m-none-eabi | -mcpu=cortex-m0plus | arm-none-eabi-gcc | gcc-arm-none-eabi libnewlib-arm-none-eabi | qemu-system-arm | qemu-system-arm
cortex-m33 | thumbv8m.main-none-eabi | -mcpu=cortex-m33+nodsp+nofp | arm-none-eabi-gcc | gcc-arm-none-eabi libnewlib-arm-none-eabi | qemu-system-arm | qemu-system-arm
riscv32imc | riscv32-unknown-none-elf | -march=rv32imc -mabi=ilp32 | clang | clang lld libnewlib-dev | qemu-riscv32 | qemu-user
wasm32 | wasm32-unknown-unknown | -O2 -mllvm -inline-threshold=190 | clang | clang lld wasi-libc libclang-rt-dev-wasm32 | node | nodejs
aarch64-android | aarch64-linux-android21 | -fPIC | clang | clang | none |
arm64-ios | arm64-apple-ios13.0 | -fPIC | clang | clang | none |
arm64-macos | arm64-apple-macos11.0 | -fPIC | clang | clang | none |
x86_64-macos | x86_64-apple-macos10.12 | -fPIC -mllvm -no-x86-call-frame-opt | clang | clang | none |
x86_64-windows | x86_64-pc-windows-msvc | -mllvm -no-x86-call-frame-opt | clang | clang | none |
END
}

target_names() { target_table | cut -d '|' -f 1 | paste -s -d ' ' -; }
target_field() { target_table | awk -F '|' -v name="$target" -v field="$1" '$1 == name { print $field }'; } # FIELD

# The machine that this runs on, as a target.
this_machine() {
    case $(uname -m) in
    armv7*) echo armv7-linux ;;
    *) echo "$(uname -m)-linux" ;;
    esac
}

choose_target() { # NAME [FOR]
    target=$1 made_for=${2:-speed}
    triple=$(target_field 2)
    [ -n "$triple" ] || die "there is no target '$target': choose one of $(target_names)"
    case $made_for in
    speed) library=$root/target/$target/libbisquemop.a ;;
    size) library=$root/target/$target-size/libbisquemop.a ;;
    *) die "a library is made for speed or for size, and not for '$made_for'" ;;
    esac
    told=$(target_field 3) cc=$(target_field 4) cc_packages=$(target_field 5) runs=$(target_field 6) runs_packages=$(target_field 7)
    if [ "$target" = "$(this_machine)" ]; then cc=gcc cc_packages='gcc libc6-dev' runs='' runs_packages=''; fi
}

# Has the machine no system that programs are run by.
is_bare() { case $triple in *-none-*) ;; *) return 1 ;; esac; }

# ---- what compiles: the kit's clang, or where there is no kit one of a version that reads the module

oldest_clang=19

# Finds it, in $clang, with what makes archives, in $llvm_ar, and sees to it that it knows the target.
find_compiler() {
    if has_kit; then find_kit_compiler; else find_other_compiler; fi
    "$clang" --target="$triple" -c -x ir -o /dev/null /dev/null 2>/dev/null || die "$this_clang does not compile for $target ($triple)"
}

find_kit_compiler() {
    find_kit
    clang=$tools/bin/clang llvm_ar=$tools/bin/llvm-ar this_clang='the clang of this Rattle kit'
    { [ -x "$clang" ] && [ -x "$llvm_ar" ]; } || die "the kit has no clang and llvm-ar in $tools/bin"
}

# Those that are looked at, in this order. CLANG names another one.
find_other_compiler() {
    looked_at=${CLANG:-clang clang-19 clang-20 clang-21 clang-22 clang-23}
    find_new_clang || install_packages "clang of version $oldest_clang or later$(old_clang)" clang-19 llvm-19
    find_new_clang || die "there is no clang of version $oldest_clang or later$(old_clang)"
    this_clang="$clang (version $(clang_version "$clang"))"
    llvm_ar=$("$clang" --print-prog-name=llvm-ar)
    command -v "$llvm_ar" >/dev/null || [ "$target" != "$(this_machine)" ] || llvm_ar='ar'
    needs "$llvm_ar" llvm-19
}
find_new_clang() {
    for clang in $looked_at; do
        version=$(clang_version "$clang")
        [ "${version:-0}" -lt $oldest_clang ] || return 0
    done
    return 1
}
clang_version() { "$1" --version 2>/dev/null | sed -n 's/.*clang version \([0-9]*\).*/\1/p'; } # CLANG
old_clang() { # the one that there is, in words
    for clang in $looked_at; do
        version=$(clang_version "$clang")
        [ -z "$version" ] || { echo ", and $clang is version $version" && return; }
    done
}

# ---- the library

# What clang is told to make it small. What is handed to it is no C: functions have to be marked besides, to be compiled so to the end.
for_size='-Os -mllvm -force-attribute=optsize'

# What the object says of itself besides, as a line of the module: that its calls are the same where a project passes floating point numbers
# in registers and where it does not, since none has such a number.
marks() { case $target in cortex-m33) echo 'module asm ".eabi_attribute Tag_ABI_VFP_args, 3"' ;; esac; }

# What rt tells its clang besides, since each of these steps of LLVM is known to compile some correct code wrongly.
as_rt='-mllvm -disable-machine-licm -mllvm -disable-postra-machine-licm -mllvm -sink-common-insts=false'

# Compiles a module for the target to an object.
compile_ir() { # MODULE OBJECT WORD..
    compiled=$1 object=$2
    shift 2
    # shellcheck disable=SC2086
    quietly "$object.log" "$clang" --target="$triple" --no-default-config "$@" -ffunction-sections -fdata-sections $as_rt \
        -mllvm -trap-unreachable -mllvm -no-trap-after-noreturn -fno-crash-diagnostics -Werror -Wno-override-module -c -x ir "$compiled" \
        -o "$object"
    rm -f "$object.log"
}

# Compiles a module for the target to an archive, as rt has it compiled for x86-64, unless the table says otherwise: a browser loads the
# library, and -O2 keeps it below 64 kB. What goes wrong leaves the archive as it was.
compile_module() { # MODULE ARCHIVE
    new=$(dirname "$2")/new.$$
    rm -rf "$new"
    mkdir -p "$new"
    { cat "$1" && marks; } >"$new/module.ll"
    small=''
    [ "$made_for" = speed ] || small=$for_size
    # shellcheck disable=SC2086
    compile_ir "$new/module.ll" "$new/bisquemop.o" -O3 $told $small
    quietly "$new/ar.log" "$llvm_ar" rcs "$new/libbisquemop.a" "$new/bisquemop.o"
    mv "$new/libbisquemop.a" "$2"
    rm -rf "$new"
}

# Links the library for wasm32 to one module of WebAssembly, which imports nothing. The kit's linker does so when it is called by this name.
# The stack comes first in memory, so that what would pass its end is stopped. Nothing in the module says when, where or by what it was
# linked: one kit gives the same bytes on every machine.
link_wasm() { # ARCHIVE WASM
    find_kit
    [ -x "$tools/bin/ld.lld" ] || die "the kit has no ld.lld in $tools/bin"
    new=$(dirname "$2")/new.$$
    mkdir -p "$new"
    ln -s "$tools/bin/ld.lld" "$new/wasm-ld"
    exports=$(sed -n 's/^uint32_t \(bisquemop_[a-z_]*\)(.*/--export=\1/p' "$root/include/bisquemop.h")
    # shellcheck disable=SC2086
    quietly "$new/link.log" "$new/wasm-ld" --no-entry --stack-first -z stack-size=65536 --strip-all --export=__heap_base $exports \
        "$1" -o "$new/bisquemop.wasm"
    chmod 644 "$new/bisquemop.wasm"
    mv "$new/bisquemop.wasm" "$2"
    rm -rf "$new"
}

# Builds the library for the target, from dist/ or from what is proved first, unless that is done already.
build_for_target() {
    needs_proved bisquemop.ll
    needs make make
    make -s -C "$root" TARGET="$target" FOR="$made_for" library >&2 || exit 1
}

# ---- programs that are linked with it. They are compiled in the repository's folder

# What the C compiler is told to make programs that run_for_target runs.
program_words() {
    case $target in
    "$(this_machine)") ;;
    *-linux) echo '-static' ;;
    cortex-m4f) echo "-mcpu=cortex-m4 -mfloat-abi=hard -mfpu=fpv4-sp-d16 -mthumb $(newlib_words)" ;;
    cortex-*) echo "$told -mthumb $(newlib_words)" ;;
    riscv32imc) echo "--target=$triple $told -ffreestanding -ffunction-sections $(newlib_of_debian)" ;;
    wasm32) echo '--target=wasm32-wasi' ;;
    *) echo "--target=$triple -ffreestanding" ;;
    esac
}

# gcc's own stdint.h does not tell newlib's inttypes.h that there are numbers of 64 bits, newlib's does: so its folder comes first. The
# compiler knows where it is.
newlib_words() {
    echo '#include <newlib.h>' | "$cc" -E -x c - 2>/dev/null | sed -n 's|^# 1 "\(.*\)/newlib\.h".*|-isystem \1|p'
}
# The compiler for riscv32imc is not newlib's own, and is told by Debian.
newlib_of_debian() { dpkg -L libnewlib-dev 2>/dev/null | sed -n 's|^\(.*\)/newlib\.h$|-isystem \1|p'; }

# What it links besides. $memory is a map of a machine's memory: one of its own in devices, or else of the Cortex-M4.
memory=emulator
start_words() {
    case $target in
    cortex-*)
        echo "--specs=rdimon.specs -nostartfiles -Ldevices/$target -Ldevices/cortex-m4 -T $memory.ld -Wl,--no-warn-execstack" \
            devices/cortex-m4/start.c
        ;;
    riscv32imc) echo '-fuse-ld=lld -nostdlib -Wl,--gc-sections devices/riscv32imc/start.c' ;;
    esac
}

# Does the C compiler make programs for the target; where none can be run here, does it compile.
makes_programs() {
    if [ "$runs" = none ]; then
        # shellcheck disable=SC2046
        "$cc" $(program_words) -x c -fsyntax-only /dev/null 2>/dev/null
    else
        # shellcheck disable=SC2046
        printf 'int main(void) { return 0; }\n' | "$cc" $(program_words) -o "$out/nothing" -x c - -x none $(start_words) 2>/dev/null
    fi
}

# Sees to it that there is a C compiler for the target, and what runs its programs.
needs_target() {
    mkdir -p "$out"
    # shellcheck disable=SC2086
    makes_programs || install_packages "C compiler for $target" $cc_packages
    makes_programs || die "$cc makes no programs for $target"
    [ -z "$runs_packages" ] || needs "$runs" "$runs_packages"
}

# Compiles C, with any warning an error, to a program or to an object.
compile_program() { # PROGRAM WORD..
    # shellcheck disable=SC2046
    quietly "$out/cc.log" "$cc" -std=c99 -O2 -Wall -Wextra -Wpedantic -Werror $(program_words) $(start_words) -o "$@"
}
compile_object() { # OBJECT WORD..
    # shellcheck disable=SC2046
    quietly "$out/cc.log" "$cc" -std=c99 -O2 -Wall -Wextra -Wpedantic -Wconversion -Werror $(program_words) -c -o "$@"
}

# Runs a program that was compiled for the target. $emulator_words is what its emulator is told besides.
emulator_words=''
# shellcheck disable=SC2046,SC2086
run_for_target() { # PROGRAM WORD..
    case $runs in
    '') "$@" ;;
    node) node --no-warnings --experimental-wasi-unstable-preview1 "$root/devices/wasm32/run.mjs" "$@" ;;
    qemu-system-arm)
        program=$1 words=arg=$(basename "$1")
        shift
        for word; do words=$words,arg=$word; done
        qemu-system-arm -M $(board) -nographic -monitor none -serial none $emulator_words \
            -semihosting-config "enable=on,target=native,$words" -kernel "$program"
        ;;
    qemu-riscv32) qemu-riscv32 -cpu lowrisc-ibex $emulator_words "$@" ;;
    *) "$runs" $emulator_words "$@" ;;
    esac
}

# The board of qemu-system-arm that has the machine. The one with a Cortex-M0, which knows no other instructions than a Cortex-M0+, has
# memory for tests if it is told so.
board() {
    case $target in
    cortex-m0plus) echo 'microbit -global nrf51-soc.flash-size=1048576 -global nrf51-soc.sram-size=16777216' ;;
    cortex-m33) echo mps2-an505 ;;
    *) echo mps2-an386 ;;
    esac
}
