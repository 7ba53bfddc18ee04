"""Segments behind the sixteenth, whose blocks the program does not count. It takes each for the segment
a multiple of sixteen before it. What it says by the number of a block is made right here."""
import os

from stopped_cluster.check_output import Fault
from stopped_cluster.page_check import PAGE, SEGMENT, ZEROS, checksum_of, stored_checksum


def may_be_right(stored, expected, before):
    """Whether a checksum may be that of a page so many blocks behind the one that another is expected of.
    A block's number goes in by XOR, and the rest by 65535 is stored. So each bit of before adds its value
    or takes it away. There are mostly two such sums, and as many of 65,535 wrong pages pass."""
    sums = {expected - 1}
    for bit in range(before.bit_length()):
        if before >> bit & 1:
            sums = {(it + value) % 65535 for it in sums for value in (1 << bit, -1 << bit)}
    return stored != 0 and (stored - 1) % 65535 in sums


def checksum_fault(path, before, block):
    """The fault of a page whose checksum is not that of its block, or nothing."""
    with open(path, "rb") as file:
        page = os.pread(file.fileno(), PAGE, block % SEGMENT * PAGE)
    stored, expected = (stored_checksum(page), checksum_of(page, before + block)) if len(page) == PAGE else (0, 0)
    if page == ZEROS or stored == expected:
        return None
    return Fault(0, block, "checksum", f"checksum {stored} expected {expected}", {"checksum": stored, "expected": expected})


def own_faults(path, before, faults):
    """The faults of a segment, of those that the program tells as of so many blocks before."""
    right = {it.block for it in faults if it.kind == "checksum"
             and may_be_right(it.facts["checksum"], it.facts["expected"], before)}
    for it in faults:
        if it.kind == "checksum":
            if it.block not in right:
                yield checksum_fault(path, before, it.block) or it
        elif it.kind != "misplaced" or (it.block not in right and it.facts["misplaced"] != before + it.block):
            yield it


def faults_untold(path, before, blocks, faults):
    """The pages whose checksum is right for so many blocks before, and so is wrong. Most that the program
    tells no checksum of are new."""
    told = {it.block for it in faults if it.kind == "checksum"}
    return [fault for block in blocks if block not in told and (fault := checksum_fault(path, before, block))]
