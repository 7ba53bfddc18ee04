"""Visibility maps that mark blocks behind the end of their relation: it has lost an end or a segment."""
from stopped_cluster.page_check import PAGE, SEGMENT, checksum_of, is_sane, stored_checksum

HEADER, BLOCKS_OF_A_BYTE = 24, 4
BLOCKS_OF_A_PAGE = (PAGE - HEADER) * BLOCKS_OF_A_BYTE


def last_marked(raw, checksums):
    """The last block that a map marks, or -1. Damaged pages mark nothing: they are told by themselves."""
    for number in reversed(range(len(raw) // PAGE)):
        page = raw[number * PAGE : (number + 1) * PAGE]
        marks = page[HEADER:].rstrip(b"\0")
        if marks and is_sane(page) and (not checksums or checksum_of(page, number) == stored_checksum(page)):
            return number * BLOCKS_OF_A_PAGE + (len(marks) - 1) * BLOCKS_OF_A_BYTE + (marks[-1].bit_length() - 1) // 2
    return -1


def marked_past_the_end(files, checksums):
    """Each map of one segment that marks a block which its relation does not have: (map, blocks, block)."""
    for path, sizes in files.sizes.items():
        main = files.sizes.get(path[: -len("_vm")])
        if not path.endswith("_vm") or not sizes.get(0) or not main or None in main.values():
            continue
        last = max(main)
        blocks = last * SEGMENT + -(-main[last] // PAGE)  # a torn block has a line of its own
        try:
            with open(f"{files.data}/{path}", "rb") as file:
                raw = file.read()
        except OSError:
            continue
        # A checksum in Python takes a millisecond, so it is looked at where there is something to tell.
        if last_marked(raw, False) >= blocks and (block := last_marked(raw, checksums)) >= blocks:
            yield path, blocks, block
