/* Where the functions of the programs begin, by the linker's script of tools/release-static.
 *
 * How fast turns run depends on where the jumps of the functions lie that run them: 'Where its
 * jumps lie' in docs/MAINTAINING.md. So each function begins at a multiple of 32: the places of its
 * jumps then depend on it alone, and not on what is linked before it. The bursts in this list begin
 * 8, 16 or 24 past one, where they have fewer slow jumps. The number in a name stands for the
 * types, the route and what ends the burst: #cd02.. and #689b.. run to a turn, without mapping and
 * with it, #ce7b.. and #be7f.. to an address, #1933.. to a write with mapping on, and #a7d3.. as a
 * register is tested without it.
 *
 * bench/jumps tells which place is the best for each burst. To try another one, change the number
 * in its line or give it a line, run tools/release-static, and count again. */
SECTIONS
{
    .text.bursts : SUBALIGN(8) {
        . = ALIGN(32) + 8; *(".text.pdp_cpu::*::burst::<#cd02*")
        . = ALIGN(32) + 16; *(".text.pdp_cpu::*::burst::<#689b*")
        . = ALIGN(32) + 8; *(".text.pdp_cpu::*::burst::<#ce7b*")
        . = ALIGN(32) + 16; *(".text.pdp_cpu::*::burst::<#be7f*")
        . = ALIGN(32) + 24; *(".text.pdp_cpu::*::burst::<#1933*")
        . = ALIGN(32) + 24; *(".text.pdp_cpu::*::burst::<#a7d3*")
    }
    .text : SUBALIGN(32) { *(.text .text.*) }
}
INSERT BEFORE .init;
