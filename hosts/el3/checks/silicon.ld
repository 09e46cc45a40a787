/* The port's code, in which instructions are replaced. */
SECTIONS
{
    .port : { port_start = .; *port/*.o(.text.reset) *port/*.o(.text .text.*) port_end = .; }
}
INSERT BEFORE .text;
