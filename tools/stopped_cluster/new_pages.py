"""New pages before others of a table. A server leaves some where sessions extend a table together, so
they are no damage by themselves. A page that the disk has lost looks the same."""
import collections, mmap, os

from stopped_cluster.page_check import PAGE, SEGMENT, ZEROS
from stopped_cluster.relation_files import FORK, segment_name

UPPER, SPECIAL = 14, 16
# So many ranges of blocks are named.
MOST_RANGES = 8

# segments: (number, path, blocks) of each, up to the last page that is not new. after: how many new
# pages follow. in_table: that last page has no special space, as those of an index have.
Used = collections.namedtuple("Used", "segments after in_table")


def is_new(file, block):
    """Where pd_upper is not 0, the rest of a page need not be read."""
    return os.pread(file, 2, block * PAGE + UPPER) == bytes(2) and os.pread(file, PAGE, block * PAGE) == ZEROS


def used_blocks(path, blocks):
    """How many blocks of a file there are up to the last page that is not new, and the special of that one."""
    file = os.open(path, os.O_RDONLY)
    try:
        while blocks and is_new(file, blocks - 1):
            blocks -= 1
        return blocks, os.pread(file, 2, (blocks - 1) * PAGE + SPECIAL) if blocks else b""
    finally:
        os.close(file)


def used_part(data, first, sizes):
    """The part of a relation that ends with its last page that is not new."""
    segments = [(number, segment_name(first, number), sizes[number] // PAGE) for number in sorted(sizes)
                if sizes[number] >= PAGE]
    after, special = 0, b""
    while segments and not special:
        number, path, blocks = segments.pop()
        used, special = used_blocks(f"{data}/{path}", blocks)
        after += blocks - used
        segments += [(number, path, used)] * (used > 0)
    return Used(segments, after, int.from_bytes(special, "little") == PAGE and not FORK.search(first))


def new_blocks(path, blocks):
    """The new ones among the first blocks of a file. Of most pages two bytes alone are read."""
    with open(path, "rb") as file, mmap.mmap(file.fileno(), 0, access=mmap.ACCESS_READ) as pages:
        low, high = (pages[at : blocks * PAGE : PAGE] for at in (UPPER, UPPER + 1))
        empty = [block for block, upper in enumerate(zip(low, high)) if upper == (0, 0)]
        return [it for it in empty if pages[it * PAGE : (it + 1) * PAGE] == ZEROS]


def used_parts(files):
    """The part of each relation that ends with its last page that is not new."""
    return [used_part(files.data, first, sizes) for first, sizes in files.sizes.items()]


def before_others(data, parts, count):
    """Each file of a table that has new pages before others: its path, and their blocks. count: how many
    new pages all files have. Mostly these are at the ends, and no file is read a second time. Otherwise
    the small ones come first, until all are found. No file may be cut meanwhile: that ends the process."""
    left = count - sum(part.after for part in parts)
    for part in sorted(parts, key=lambda it: sum(blocks for _, _, blocks in it.segments)):
        for number, path, blocks in part.segments:
            if left <= 0:
                return
            found = new_blocks(f"{data}/{path}", blocks)
            left -= len(found)
            if found and part.in_table:
                yield path, [number * SEGMENT + it for it in found]


def ranges_of(blocks):
    """Blocks in ascending order as ranges: the first and the last of each."""
    ranges = []
    for it in blocks:
        if ranges and ranges[-1][1] == it - 1:
            ranges[-1][1] = it
        else:
            ranges.append([it, it])
    return ranges


def words_of(ranges):
    """The first of these blocks, and how many more there are."""
    words = [str(first) if first == last else f"{first} to {last}" for first, last in ranges[:MOST_RANGES]]
    more = sum(last - first + 1 for first, last in ranges[MOST_RANGES:])
    several = len(ranges) > 1 or ranges[0][0] != ranges[0][1]
    return f"block{'s' * several} {', '.join(words)}{f' and {more} more' * bool(more)}"
