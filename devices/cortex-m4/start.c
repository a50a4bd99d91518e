/*
 * Starts a C program on a bare Cortex-M4, or on another Cortex-M, that has newlib's semihosting: its words, its output and
 * its exit status are those of the emulator or debugger that runs it. A fault ends it with status 1.
 *
 *   arm-none-eabi-gcc -mcpu=cortex-m4 -mthumb --specs=rdimon.specs -nostartfiles -L devices/cortex-m4 -T emulator.ld \
 *       devices/cortex-m4/start.c PROGRAM.c libbisquemop.a -o PROGRAM
 *   qemu-system-arm -M mps2-an386 -nographic -monitor none -serial none \
 *       -semihosting-config enable=on,target=native,arg=PROGRAM,arg=WORD -kernel PROGRAM
 */
#include <stdint.h>
#include <stdlib.h>

enum {
    SEMIHOSTING_WRITE_TEXT = 0x04,
    SEMIHOSTING_COMMAND_LINE = 0x15,
    SEMIHOSTING_EXIT = 0x18,
    STOPPED_BY_FAULT = 0x20024,
    LINE_ROOM = 256,
    WORDS_ROOM = 16
};

/* Where the linker put things: sections.ld. */
extern uint32_t stack_top[], data_kept[], data_begin[], data_end[], bss_begin[], bss_end[];

int main(int argc, char **argv);
void initialise_monitor_handles(void); /* newlib's: opens the standard streams */
void _fini(void);                      /* what newlib's exit runs last */
void reset(void);

static uintptr_t semihosting(uintptr_t operation, uintptr_t argument)
{
    register uintptr_t r0 __asm__("r0") = operation;
    register uintptr_t r1 __asm__("r1") = argument;
    __asm__ volatile("bkpt 0xAB" : "+r"(r0) : "r"(r1) : "memory");
    return r0;
}

/* The words that the program is run with, cut at blanks. */
static int read_words(char **words)
{
    static char line[LINE_ROOM];
    const uintptr_t block[] = {(uintptr_t)line, sizeof line};
    int count = 0;
    if (semihosting(SEMIHOSTING_COMMAND_LINE, (uintptr_t)block) != 0) {
        return 0;
    }
    for (char *at = line; *at != 0 && count < WORDS_ROOM; at++) {
        if (*at == ' ') {
            *at = 0;
        } else if (at == line || at[-1] == 0) {
            words[count++] = at;
        }
    }
    return count;
}

void _fini(void)
{
}

/* Where the C compiler may use floating point registers, they are switched on first: on these machines they are off. */
static void switch_on_registers(void)
{
#ifdef __ARM_FP
    volatile uint32_t *access = (volatile uint32_t *)0xE000ED88;
    *access |= UINT32_C(0xF) << 20;
    __asm__ volatile("dsb\n\tisb" ::: "memory");
#endif
}

void reset(void)
{
    static char *words[WORDS_ROOM + 1];
    const uint32_t *from = data_kept;
    switch_on_registers();
    for (uint32_t *to = data_begin; to < data_end; to++) {
        *to = *from++;
    }
    for (uint32_t *to = bss_begin; to < bss_end; to++) {
        *to = 0;
    }
    initialise_monitor_handles();
    exit(main(read_words(words), words));
}

static void fault(void)
{
    semihosting(SEMIHOSTING_WRITE_TEXT, (uintptr_t) "a fault stopped the program\n");
    semihosting(SEMIHOSTING_EXIT, STOPPED_BY_FAULT);
    for (;;) {
    }
}

/* What the machine reads first: the stack, where to begin, and what to do on a fault. There are no interrupts. */
union vector {
    uint32_t *stack;
    void (*handler)(void);
};
__attribute__((section(".vectors"), used)) static const union vector vectors[16] = {
    {.stack = stack_top}, {.handler = reset}, {.handler = fault}, {.handler = fault},
    {.handler = fault},   {.handler = fault}, {.handler = fault},
};
