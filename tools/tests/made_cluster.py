"""Small clusters for the tests: pages, catalogs and pg_control as a server of version 15 writes them."""
import os, struct, subprocess, sys, tempfile, unittest

TOOLS = os.path.dirname(os.path.dirname(os.path.abspath(__file__)))
sys.path.insert(0, TOOLS)
from stopped_cluster.control_file import crc32c
from stopped_cluster.page_check import PAGE, SEGMENT, checksum_of

SCRIPT = f"{TOOLS}/damaged_pages"
BUILT = f"{os.path.dirname(TOOLS)}/crates/aioscan_main/out/aioscan_main"
# Another user may not be able to run the caller's own Python.
SYSTEM_PYTHON = "/usr/bin/python3"
PROGRAM = os.path.abspath(os.environ.get("AIOSCAN") or BUILT)
FROZEN, COMMITTED, NO_DELETER = 768, 256, 2048
SHUT_DOWN, IN_PRODUCTION = 1, 6


def page(block, rows=(b"row",), mask=FROZEN | NO_DELETER):
    """A page of a heap with these values, and with the checksum of its block."""
    raw, upper = bytearray(PAGE), PAGE
    for number, values in enumerate(rows):
        item = struct.pack("<3I5HBx", 3, 0, 0, *divmod(block, 65536), number + 1, 1, mask, 24) + values
        upper -= (len(item) + 7) // 8 * 8
        raw[upper : upper + len(item)] = item
        struct.pack_into("<I", raw, 24 + 4 * number, upper | 1 << 15 | len(item) << 17)
    struct.pack_into("<4H", raw, 12, 24 + 4 * len(rows), upper, PAGE, PAGE | 4)
    return with_checksum(raw, block)


def with_checksum(raw, block):
    raw = bytearray(raw)
    struct.pack_into("<H", raw, 8, checksum_of(bytes(raw), block))
    return bytes(raw)


def control(state=SHUT_DOWN, checksums=1, block_size=PAGE, segment_blocks=SEGMENT, version=1300, epoch=0):
    raw = bytearray(8192)
    struct.pack_into("<QIII", raw, 0, 7, version, 202209061, state)
    struct.pack_into("<Q", raw, 32, 0x1_0000_00A8)
    struct.pack_into("<2I", raw, 64, 755, epoch)
    struct.pack_into("<2I", raw, 216, block_size, segment_blocks)
    struct.pack_into("<I", raw, 252, checksums)
    struct.pack_into("<I", raw, 288, crc32c(bytes(raw[:288])))
    return bytes(raw)


def name(text):
    return text.encode().ljust(64, b"\0")


def class_row(oid, relation, node, kind="r", schema=2200, toast=0, space=0, persistence="p"):
    """A row of pg_class, up to relkind."""
    row = bytearray(144)
    struct.pack_into("<I64sI", row, 0, oid, name(relation), schema)
    struct.pack_into("<2I", row, 88, node, space)
    struct.pack_into("<I2x2s", row, 108, toast, (persistence + kind).encode())
    return bytes(row)


def filenode_map(pairs=()):
    raw = struct.pack("<2I", 0x592717, len(pairs)) + b"".join(struct.pack("<2I", *it) for it in pairs)
    return raw.ljust(512, b"\0")


def database_row(oid, text, space=1663):
    row = bytearray(100)
    struct.pack_into("<I64s", row, 0, oid, name(text))
    struct.pack_into("<iIII", row, 80, -1, 3, 1, space)
    return bytes(row)


CLASSES = [class_row(1259, "pg_class", 0, schema=11), class_row(2610, "pg_index", 2610, schema=11),
           class_row(16384, "orders", 16384, toast=16387), class_row(16390, "Odd \"name\n", 16390),
           class_row(16387, "pg_toast_16384", 16387, "t", 99), class_row(16388, "orders_pkey", 16388, "i"),
           class_row(16389, "a_view", 0, "v"), class_row(16391, "gone_with_its_session", 16391, persistence="t")]


class Cluster(unittest.TestCase):
    """A test with a cluster of its own, which has checksums, names and no damage."""

    def setUp(self):
        if not os.access(PROGRAM, os.X_OK):
            self.skipTest("the program is not built, and AIOSCAN names none")
        folder = tempfile.TemporaryDirectory()
        self.addCleanup(folder.cleanup)
        os.chmod(folder.name, 0o755)
        self.top, self.data = folder.name, f"{folder.name}/data"
        self.write("global/pg_control", control())
        self.write("PG_VERSION", b"15\n")
        self.write("global/pg_filenode.map", filenode_map([(1262, 1262)]))
        self.write("global/1262", page(0, [database_row(5, "shop")]))
        self.write("base/5/pg_filenode.map", filenode_map([(1259, 1259)]))
        self.write("base/5/1259", page(0, CLASSES))
        self.write("base/5/2615", page(0, [struct.pack("<I", oid) + name(it) + bytes(8) for oid, it in
                                           [(11, "pg_catalog"), (99, "pg_toast"), (2200, "public")]]))
        self.write("base/5/2610", page(0, [struct.pack("<2I", 16388, 16384) + bytes(20)]))
        for node in (16384, 16387, 16388, 16390):
            self.write(f"base/5/{node}", b"".join(page(block) for block in range(3)))

    def write(self, path, raw):
        os.makedirs(os.path.dirname(f"{self.data}/{path}"), exist_ok=True)
        with open(f"{self.data}/{path}", "wb") as file:
            file.write(raw)

    def change(self, path, at, raw):
        with open(f"{self.data}/{path}", "r+b") as file:
            file.seek(at)
            file.write(raw)

    def run_script(self, *words, script=SCRIPT, program=PROGRAM, path=None, user=None):
        """Runs damaged_pages. Gives its status and the lines of both streams."""
        env = {**os.environ, "AIOSCAN": program or "", "PATH": path or "/usr/bin:/bin"}
        python = SYSTEM_PYTHON if user else sys.executable
        run = subprocess.run([python, script, *words], env=env, cwd="/", capture_output=True, text=True,
                             stdin=subprocess.DEVNULL, user=user)
        return run.returncode, run.stdout.splitlines(), run.stderr.splitlines()

    def stand_in(self, text):
        """A program in place of aioscan: a script of the shell."""
        path = f"{self.top}/stand_in"
        with open(path, "w", encoding="ascii") as file:
            file.write(f"#!/bin/sh\n{text}\n")
        os.chmod(path, 0o755)
        return path
