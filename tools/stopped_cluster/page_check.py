"""Whether a page is valid, by PostgreSQL's rules: for the catalogs and maps that are read here."""
import struct

PAGE, SEGMENT = 8192, 131072
ZEROS = bytes(PAGE)
# checksumBaseOffsets of PostgreSQL's checksum_impl.h.
OFFSETS = bytes.fromhex(
    "5b1f36e9b852596002ab50aa1de66d2a79ff467a9bb9f8a3217e7cd283e13d2cf8d4474fe39eb97042c6ae16993216fa"
    "7b093b5d98daff3cf718902a0b1c9cdbe58f764b187636bc5d7b3bb1e73de7de92bec979cca6c0b2304a097985aa43d4"
    "783125bb6ca8eaa2e407eac64b5cfc3e9fbf8c7615ca20bef2ca9fd3959bd756")


def is_sane(page):
    """Whether a page's header is sane, by PageIsVerified of bufpage.c."""
    flags, lower, upper, special = struct.unpack_from("<4H", page, 10)
    return upper != 0 and flags <= 7 and lower <= upper <= special <= PAGE and special % 8 == 0


def checksum_of(page, block):
    """The checksum of a page as this block: pg_checksum_page of checksum_impl.h."""
    words = struct.unpack("<2048I", page[:8] + bytes(2) + page[10:])
    sums = struct.unpack(">32I", OFFSETS)
    for row in [*(words[at : at + 32] for at in range(0, 2048, 32)), (0,) * 32, (0,) * 32]:
        sums = [((it := a ^ b) * 16777619 & 0xFFFFFFFF) ^ (it >> 17) for a, b in zip(sums, row)]
    for it in sums:
        block ^= it
    return block % 65535 + 1


def stored_checksum(page):
    return int.from_bytes(page[8:10], "little")
