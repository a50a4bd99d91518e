/* The memory of the machine microbit of qemu-system-arm, which has a Cortex-M0, where it is told to have so much. */
MEMORY
{
    CODE (rx) : ORIGIN = 0, LENGTH = 1M
    RAM (rw) : ORIGIN = 0x20000000, LENGTH = 16M
}
INCLUDE sections.ld
