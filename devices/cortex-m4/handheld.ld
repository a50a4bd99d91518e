/* The memory of a small handheld. The machine mps2-an386 of qemu-system-arm has more, at the same places. */
MEMORY
{
    CODE (rx) : ORIGIN = 0, LENGTH = 128K
    RAM (rw) : ORIGIN = 0x20000000, LENGTH = 16K
}
INCLUDE sections.ld
