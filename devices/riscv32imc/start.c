/*
 * Starts a C program on a RISC-V of 32 bits for which there is no C library here, as the one of an ESP32-C3, and has what tests/digest
 * needs of such a library. The program runs under qemu-riscv32: its words, its output and its exit status are those of the emulator,
 * which is asked by Linux's calls.
 *
 *   clang --target=riscv32-unknown-none-elf -march=rv32imc -mabi=ilp32 -ffreestanding -isystem /usr/include/newlib -fuse-ld=lld \
 *       -nostdlib devices/riscv32imc/start.c PROGRAM.c libbisquemop.a -o PROGRAM
 *   qemu-riscv32 -cpu rv32,a=false,f=false,d=false PROGRAM WORD
 */
#include <stdarg.h>
#include <stddef.h>
#include <stdint.h>
#include <stdio.h>
#include <stdlib.h>
#include <string.h>

enum { LINUX_WRITE = 64, LINUX_EXIT = 93, STANDARD_OUTPUT = 1, DIGITS_ROOM = 24 };

int main(int argc, char **argv);
void begin(intptr_t *stack);
uint64_t __udivdi3(uint64_t number, uint64_t by);
uint64_t __umoddi3(uint64_t number, uint64_t by);

static intptr_t ask_linux(intptr_t call, intptr_t first, intptr_t second, intptr_t third)
{
    register intptr_t a7 __asm__("a7") = call;
    register intptr_t a0 __asm__("a0") = first;
    register intptr_t a1 __asm__("a1") = second;
    register intptr_t a2 __asm__("a2") = third;
    __asm__ volatile("ecall" : "+r"(a0) : "r"(a1), "r"(a2), "r"(a7) : "memory");
    return a0;
}

/* The first instruction. On the stack stand how many words there are, and then the words. */
__asm__(
    ".globl _start\n"
    "_start:\n"
    "    mv a0, sp\n"
    "    andi sp, sp, -16\n"
    "    call begin\n");

void begin(intptr_t *stack)
{
    int status = main((int)stack[0], (char **)(stack + 1));
    ask_linux(LINUX_EXIT, status, 0, 0);
    for (;;) {
    }
}

/* ---- memory and numbers */

void *memcpy(void *to, const void *from, size_t count)
{
    for (size_t i = 0; i < count; i++) {
        ((char *)to)[i] = ((const char *)from)[i];
    }
    return to;
}

void *memmove(void *to, const void *from, size_t count)
{
    if ((uintptr_t)to <= (uintptr_t)from) {
        return memcpy(to, from, count);
    }
    for (size_t i = count; i > 0; i--) {
        ((char *)to)[i - 1] = ((const char *)from)[i - 1];
    }
    return to;
}

void *memset(void *to, int byte, size_t count)
{
    for (size_t i = 0; i < count; i++) {
        ((char *)to)[i] = (char)byte;
    }
    return to;
}

size_t strlen(const char *text)
{
    size_t count = 0;
    while (text[count] != 0) {
        count++;
    }
    return count;
}

/* Bit by bit, as on paper. What is left goes to *rest. */
static uint64_t divide(uint64_t number, uint64_t by, uint64_t *rest)
{
    uint64_t quotient = 0;
    *rest = 0;
    for (int bit = 63; bit >= 0; bit--) {
        uint64_t carried = *rest >> 63;
        *rest = *rest << 1 | (number >> bit & 1);
        if (carried || *rest >= by) {
            *rest -= by;
            quotient |= UINT64_C(1) << bit;
        }
    }
    return quotient;
}

uint64_t __udivdi3(uint64_t number, uint64_t by)
{
    uint64_t rest;
    return divide(number, by, &rest);
}

uint64_t __umoddi3(uint64_t number, uint64_t by)
{
    uint64_t rest;
    divide(number, by, &rest);
    return rest;
}

/* Digits alone, to the base 10. */
unsigned long strtoul(const char *text, char **end, int base)
{
    unsigned long number = 0;
    (void)end;
    (void)base;
    for (; '0' <= *text && *text <= '9'; text++) {
        number = 10 * number + (unsigned long)(*text - '0');
    }
    return number;
}

/* ---- what is printed */

static void put(const char *text, size_t count)
{
    ask_linux(LINUX_WRITE, STANDARD_OUTPUT, (intptr_t)text, (intptr_t)count);
}

static void put_number(uint64_t number, unsigned base, size_t width, char fill)
{
    char digits[DIGITS_ROOM];
    size_t at = sizeof digits;
    do {
        digits[--at] = "0123456789abcdef"[number % base];
        number /= base;
    } while (number > 0);
    while (sizeof digits - at < width && at > 0) {
        digits[--at] = fill;
    }
    put(digits + at, sizeof digits - at);
}

/* A number of so many l: two are 64 bits. */
static uint64_t next_number(va_list *values, int longs)
{
    return longs > 1 ? va_arg(*values, uint64_t) : va_arg(*values, unsigned long);
}

/* Numbers with no sign, to the base 10 or 16, and texts. */
int printf(const char *form, ...)
{
    va_list values;
    va_start(values, form);
    for (; *form != 0; form++) {
        if (*form != '%') {
            put(form, 1);
            continue;
        }
        char fill = *++form == '0' ? '0' : ' ';
        size_t width = strtoul(form, NULL, 10);
        int longs = 0;
        while ('0' <= *form && *form <= '9') {
            form++;
        }
        for (; *form == 'l'; form++) {
            longs++;
        }
        if (*form == 's') {
            const char *text = va_arg(values, const char *);
            put(text, strlen(text));
        } else {
            put_number(next_number(&values, longs), *form == 'x' ? 16 : 10, width, fill);
        }
    }
    va_end(values);
    return 0;
}
