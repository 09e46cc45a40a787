/* What image.ld says of the port's memory: all of it that a reset clears, and what a reset leaves. */
SECTIONS
{
    .port.bss : { bss_start = .; *port/*.o(.bss .bss.* COMMON) bss_end = .; }
    .port.kept : { kept_start = .; *(.kept) kept_end = .; }
    data_start = .; data_end = .; data_load = .;
}
INSERT BEFORE .bss;
