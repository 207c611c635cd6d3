"""The numbers and names of the machine: the drives of the RK11, the vectors of the devices and
their delays."""

LARGEST_WORD = 0o177777

# A drive of the RK11: its cylinders, the surfaces of each, the sectors on each of these, and the
# words of one.
CYLINDERS, SURFACES, SECTORS, SECTOR_WORDS = 203, 2, 12, 256
DRIVE_WORDS = CYLINDERS * SURFACES * SECTORS * SECTOR_WORDS

# The devices that interrupt, by their vectors.
INTERRUPTS = {
    0o60: "keyboard",
    0o64: "printer",
    0o70: "reader",
    0o74: "punch",
    0o100: "clock",
    0o220: "disk",
}
# The vectors of traps, and those of them that the word of an instruction alone doesn't tell.
TRAPS = {
    0o4: "odd address, no memory, stack limit",
    0o10: "reserved instruction",
    0o14: "BPT and T bit",
    0o20: "IOT",
    0o30: "EMT",
    0o34: "TRAP",
    0o250: "memory management",
}
OPERAND_TRAPS = (0o4, 0o10, 0o250)
# How many turns an operation of a device takes, and the period of the clock, if no `delay` says so.
DELAYS = {"printer": 1, "reader": 4, "punch": 4, "disk": 10, "clock": 0}

# The I/O page: where it begins on the bus and, without mapping, in a program's addresses. Its
# registers by their physical addresses.
IO_PAGE, IO_PAGE_OF_PROGRAMS = 0o760000, 0o160000
PAGES = range(8)
NAMES_IN_THE_IO_PAGE = {
    **{0o772300 + 2 * it: f"KPDR{it}" for it in PAGES},
    **{0o772340 + 2 * it: f"KPAR{it}" for it in PAGES},
    **{0o777600 + 2 * it: f"UPDR{it}" for it in PAGES},
    **{0o777640 + 2 * it: f"UPAR{it}" for it in PAGES},
    **dict(zip(range(0o777400, 0o777414, 2), ("RKDS", "RKER", "RKCS", "RKWC", "RKBA", "RKDA"))),
    **dict(zip(range(0o777550, 0o777560, 2), ("PRS", "PRB", "PPS", "PPB"))),
    **dict(zip(range(0o777560, 0o777570, 2), ("TKS", "TKB", "TPS", "TPB"))),
    **dict(zip(range(0o777570, 0o777600, 2), ("SWR", "SR0", "SR1", "SR2"))),
    **{0o777546: "LKS", 0o777776: "PS"},
}
