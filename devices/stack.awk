# How much stack each call of the library can use, found over the call graph in its machine code. scripts/footprint runs it:
#
#   llvm-objdump -d -r --no-show-raw-insn --no-print-imm-hex FILE.. | awk -v depths='FUNCTION:DEPTH ..' -f devices/stack.awk
#
# Prints `stack BYTES CALL` for each public call, `way CALL FUNCTION BYTES` for each function on the way that takes most, and
# `besides FUNCTION` for a function that is called and is not in the files: what that takes is not counted.
#
# A function takes all that its instructions lower the stack pointer by, and then the most that a function takes that it calls or
# jumps to, or what it uses below the pointer if that is more. The compiler's own numbers (-fstack-usage) do without what x86-64 pushes
# for a call. An instruction that writes the pointer and is not known here is an error; so is a call through a register, and so
# is recursion, unless `depths` has how many of the function can be on the stack at once.

BEGIN {
    count = split(depths, given, " ")
    for (k = 1; k <= count; k++) {
        colon = match(given[k], /:[0-9]+$/)
        depth_of[substr(given[k], 1, colon - 1)] = substr(given[k], colon + 1) + 0
    }
    since_pointer = 9
}

function wrong(what) {
    printf "stack.awk: %s: %s\n", current, what >"/dev/stderr"
    failed = 1
}

# ---- what a line of the disassembly is

/file format/ {
    machine = $NF ~ /x86-64/ ? "x86" : $NF ~ /aarch64|arm64/ ? "arm64" : $NF ~ /littlearm/ ? "arm" : ""
    if (machine == "") machine = $NF ~ /riscv/ ? "riscv" : $NF ~ /wasm/ ? "wasm" : ""
    if (machine == "") wrong("a machine that is not known: " $NF)
    next
}

/^[0-9a-f]+ <.*>:$/ {
    label = substr($0, index($0, "<") + 1)
    sub(/>:$/, "", label)
    if (is_within(label)) next
    take_named()
    current = plain(label)
    frame[current] += 0
    next
}

# A relocation names what the instruction before it calls, in place of what stands in the instruction, or on wasm32 the stack pointer.
/^\t\t+[0-9a-f]+: / {
    if ($2 ~ /CALL|PLT32|JUMP2[46]|_JAL|RELOC_BRANCH|FUNCTION_INDEX/ || ($2 ~ /AMD64_REL32/ && is_jump)) {
        waiting = ""
        calls(plain($3))
    }
    if ($3 ~ /^__stack_pointer/ && word == "global.get") since_pointer = 0
    next
}

/^ *[0-9a-f]+:/ {
    sub(/^ *[0-9a-f]+:[ \t]*/, "")
    sub(/[ \t]*(#+|@|\/\/|;) .*$/, "")
    take_named()
    after_auipc = (word == "auipc")
    word = $1
    rest = $0
    sub(/^[^ \t]+[ \t]*/, "", rest)
    instruction()
}

# Whether a label is no function's name but stands within one.
function is_within(label) { return label ~ /^(\.L|\$|CODE$)/ }

# A name without what a section, a machine's format or an offset puts around it.
function plain(text) {
    sub(/[-+]0x[0-9a-f]+$/, "", text)
    sub(/\+0$/, "", text)
    sub(/^\.text\./, "", text)
    sub(/^_bisquemop/, "bisquemop", text)
    return text
}

function calls(callee) {
    if (is_within(callee) || (current, callee) in edge) return
    edge[current, callee] = 1
    callees[current] = callees[current] SUBSEP callee
}

# ---- what an instruction does

function instruction() {
    is_jump = word ~ /^(call|j|b|cb|tb|tail)/
    if (machine == "wasm") return wasm()
    if (is_indirect()) wrong("a call through a register: " word " " rest)
    if (is_jump && match(rest, /<.*>$/)) waiting = substr(rest, RSTART + 1, RLENGTH - 2)
    if (writes_pointer()) frame[current] += lowered()
    note_below()
}

# A name that stands in an instruction itself, of another function, or of this one where it calls itself, waits for the next line: where
# that is a relocation the name means nothing.
function take_named() {
    if (waiting == "") return
    if (plain(waiting) != current) calls(plain(waiting))
    else if (waiting !~ /\+0x/ && word ~ /^(call|bl|jal)/) calls(current)
    waiting = ""
}

# After auipc a jump of RISC-V goes where the relocation says.
function is_indirect() {
    if (machine == "x86") return word ~ /^call/ && rest ~ /\*/
    if (machine == "arm64") return word == "blr"
    if (machine == "arm") return word == "blx" && rest ~ /^r[0-9]/
    return word == "jalr" && !after_auipc
}

function writes_pointer() {
    if (machine == "x86") return word ~ /^(push|pop|leave|enter)/ || rest ~ /, %[er]sp$/ && word !~ /^(cmp|test)/
    if (machine == "riscv") return rest ~ /^sp,/ && word !~ /^(s[bhwd]|fs[wd])$/
    if (rest ~ /^sp,/) return word !~ /^(cmp|cmn|stm|ldm)/
    return word ~ /^v?(push|pop)/ || rest ~ /^sp!|\[sp.*\]!|\[sp\],/
}

# By how many bytes an instruction that writes the stack pointer lowers it.
function lowered() {
    if (machine == "x86") return lowered_x86()
    if (machine == "riscv") return lowered_riscv()
    return lowered_arm()
}

function unknown() {
    wrong("an instruction that writes the stack pointer and is not known: " word " " rest)
    return 0
}

function lowered_x86() {
    if (word ~ /^push/) return 8
    if (word == "subq" && rest ~ /^\$[0-9]+,/) return number(rest, "$")
    if (word ~ /^pop/ || word == "addq" && rest ~ /^\$[0-9]+,/) return 0
    return unknown()
}

function lowered_riscv() {
    if (word == "addi" && rest ~ /^sp, sp, -[0-9]+$/) return number(rest, "-")
    if (word == "addi" && rest ~ /^sp, sp, [0-9]+$/) return 0
    return unknown()
}

# Of 32 and of 64 bits.
function lowered_arm() {
    if (word ~ /^(push|vpush|stmdb|stmfd)/) return listed(rest)
    if (rest ~ /\[sp, #-[0-9]+\]!/) return number(rest, "#-")
    if (word ~ /^(pop|vpop|ldm)/ || rest ~ /\[sp\], #[0-9]/) return 0
    if (rest !~ /^sp, (sp, )?#[0-9]+(, lsl #12)?$/) return unknown()
    if (word ~ /^subs?w?(\.w)?$/) return number(rest, "#") * (rest ~ /lsl/ ? 4096 : 1)
    if (word ~ /^adds?w?(\.w)?$/) return 0
    return unknown()
}

# The number that stands after a sign.
function number(text, sign) { return substr(text, index(text, sign) + length(sign)) + 0 }

# The bytes of a list of registers.
function listed(list,    registers) {
    sub(/^.*\{/, "", list)
    if (list ~ /-/) wrong("a list of registers that is not known: " list)
    return split(list, registers, ",") * (list ~ /^d/ ? 8 : list ~ /^q/ ? 16 : 4)
}

# A function that calls none may use some bytes below the pointer and leave that where it is.
function note_below(    bytes) {
    if (!match(rest, /-[0-9]+\(%rsp|-[0-9]+\(sp\)|\[sp, #-[0-9]+\]$/)) return
    bytes = number(substr(rest, RSTART), "-")
    if (bytes > below[current]) below[current] = bytes
}

# The stack that wasm32 keeps in its memory: the pointer is read, and a constant taken from it.
function wasm() {
    if (word == "call_indirect") wrong("a call through a table")
    since_pointer++
    if (since_pointer == 1) taken = rest + 0
    if (since_pointer == 2) frame[current] += taken
    if (since_pointer == 1 && word != "i32.const" || since_pointer == 2 && word != "i32.sub") unknown()
}

# ---- over the graph

END {
    take_named()
    for (name in frame)
        if (name ~ /^bisquemop_/) {
            current = name
            printf "stack %d %s\n", return_address() + most(name), name
            for (step = name; step != ""; step = heaviest[step]) printf "way %s %s %d\n", name, step, frame[step]
        }
    for (name in outside) print "besides " name
    exit failed
}

# What a call puts on the stack by itself.
function return_address() { return machine == "x86" ? 8 : 0 }

function most(name,    list, count, k, called, largest) {
    if (name in found) return found[name]
    open[name] = 1
    largest = below[name] + 0
    count = split(substr(callees[name], 2), list, SUBSEP)
    for (k = 1; k <= count; k++) {
        if (list[k] == name && name in depth_of) continue
        called = reached(list[k])
        if (called > largest) {
            largest = called
            heaviest[name] = list[k]
        }
    }
    delete open[name]
    return found[name] = frame_of(name) + largest
}

# What a function that is called takes, with what calling it takes.
function reached(name) {
    if (name in open) {
        wrong("recursion through " name ", whose depth is not given")
        return 0
    }
    if (name in frame) return return_address() + most(name)
    outside[name] = 1
    return 0
}

# A function that calls itself stands on the stack as often as its depth.
function frame_of(name) { return name in depth_of ? depth_of[name] * (frame[name] + return_address()) : frame[name] }
