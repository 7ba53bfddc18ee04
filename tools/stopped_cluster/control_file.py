"""What pg_control says of a cluster: its state, its sizes, and whether it has checksums."""
import collections, os, re, shutil, struct, subprocess

Control = collections.namedtuple(
    "Control", "state version catalog block_size segment_blocks checksums checkpoint next_transaction")
STATES = ["starting up", "shut down", "shut down in recovery", "shutting down", "in crash recovery",
          "in archive recovery", "in production"]
# pg_control's own version, of PostgreSQL 12 to 18. Their fields stand at the same places, and the CRC
# behind them at one of two.
VERSIONS = range(1201, 1900)
CRC_PLACES = (288, 292)
LABELS = ["Database cluster state", "pg_control version number", "Catalog version number", "Database block size",
          "Blocks per segment of large relation", "Data page checksum version", "Latest checkpoint location",
          "Latest checkpoint's NextXID"]


class BigEndian(Exception):
    """A cluster of a machine whose numbers begin with their highest byte."""


class OtherVersion(Exception):
    """A pg_control whose fields are not known here."""


def crc32c(data):
    """The CRC that PostgreSQL takes of pg_control."""
    crc = 0xFFFFFFFF
    for byte in data:
        crc ^= byte
        for _ in range(8):
            crc = crc >> 1 ^ (0x82F63B78 if crc & 1 else 0)
    return crc ^ 0xFFFFFFFF


def by_controldata(data):
    """What pg_controldata says. Nothing where there is none, or where it is of another version."""
    program = shutil.which("pg_controldata")
    if not program:
        return None
    run = subprocess.run([program, data], env={**os.environ, "LC_ALL": "C"}, stdin=subprocess.DEVNULL,
                         capture_output=True, encoding="utf-8", errors="replace")
    facts = dict(re.findall(r"^([^:\n]+): *(.*)$", run.stdout, re.M))
    if run.returncode or "WARNING" in run.stdout or run.stderr or not all(it in facts for it in LABELS):
        return None
    state, *sizes, checkpoint, transaction = (facts[it] for it in LABELS)
    version, catalog, block_size, segment_blocks, checksums = map(int, sizes)
    return Control(state, version, catalog, block_size, segment_blocks, checksums > 0, checkpoint, transaction)


def by_its_bytes(raw):
    """The same from the file itself. A ValueError says how it is damaged."""
    if len(raw) < CRC_PLACES[-1] + 4:
        raise ValueError(f"has {len(raw)} bytes")
    version, catalog, state = struct.unpack_from("<3I", raw, 8)
    if version % 65536 == 0 and version:
        raise BigEndian
    if version not in VERSIONS:
        raise OtherVersion(version)
    if not any(crc32c(raw[:at]) == struct.unpack_from("<I", raw, at)[0] for at in CRC_PLACES):
        raise ValueError("has a wrong CRC")
    low, high = struct.unpack_from("<2I", raw, 32)
    next_xid, epoch = struct.unpack_from("<2I", raw, 64)
    block_size, segment_blocks = struct.unpack_from("<2I", raw, 216)
    checksums, = struct.unpack_from("<I", raw, 252)
    name = STATES[state] if state < len(STATES) else f"state {state}"
    return Control(name, version, catalog, block_size, segment_blocks, checksums > 0, f"{high:X}/{low:X}",
                   f"{epoch}:{next_xid}")


def read_control(data):
    """What pg_control of a cluster says, or an exception of those above."""
    with open(f"{data}/global/pg_control", "rb") as file:
        raw = file.read()
    return by_controldata(data) or by_its_bytes(raw)


def limits(control):
    """The program's words for what no page has after a clean shutdown: an LSN past the last checkpoint,
    and a transaction that has not begun."""
    return ["--end-lsn", control.checkpoint, "--next-xid", re.split("[:/]", control.next_transaction)[-1]]


def major_version(data):
    """The number in PG_VERSION, or 0."""
    try:
        with open(f"{data}/PG_VERSION", encoding="ascii", errors="replace") as file:
            text = file.read().strip()
    except OSError:
        return 0
    return int(text) if text.isdigit() else 0
