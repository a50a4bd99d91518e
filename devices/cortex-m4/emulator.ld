/* All the memory of the machine mps2-an386 of qemu-system-arm, for tests that need room. */
MEMORY
{
    CODE (rx) : ORIGIN = 0, LENGTH = 4M
    RAM (rw) : ORIGIN = 0x21000000, LENGTH = 16M
}
INCLUDE sections.ld
