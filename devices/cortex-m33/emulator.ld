/* The memory of the machine mps2-an505 of qemu-system-arm, as it is seen when that starts, in its secure state. */
MEMORY
{
    CODE (rx) : ORIGIN = 0x10000000, LENGTH = 4M
    RAM (rw) : ORIGIN = 0x80000000, LENGTH = 16M
}
INCLUDE sections.ld
