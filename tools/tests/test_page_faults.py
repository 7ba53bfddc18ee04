"""Each fault of a page has its line and its facts, the limits of a clean shutdown and the numbers of its blocks."""
import json, os, struct, subprocess, tempfile, unittest

from made_cluster import (COMMITTED, IN_PRODUCTION, NO_DELETER, PAGE, SEGMENT, Cluster, control, page,
                          with_checksum)
from stopped_cluster import far_segments, page_scan
from stopped_cluster.page_check import stored_checksum as stored
from stopped_cluster.relation_files import File

# Of a page of two rows: its tuples, and the first line pointer, which the second one follows.
TUPLE, SECOND_TUPLE, POINTER = 8160, 8128, 24
NORMAL, REDIRECT = 1, 2
NEXT_TRANSACTION = 755


def two_rows(block):
    """A page whose tuples are not frozen."""
    return page(block, (b"row", b"row"), COMMITTED | NO_DELETER)


def pointer(offset, kind, length):
    return struct.pack("<I", offset | kind << 15 | length << 17)


def number(value):
    return struct.pack("<I", value)


def process_that_has_ended():
    child = subprocess.Popen(["true"])
    child.wait()
    return child.pid


# Of each fault its text, its facts, and the bytes of block 1 that are changed: where, and into what.
FAULTS = {
    "header": ("header flags 8 lower 32 upper 8128 special 8192",
               {"flags": 8, "lower": 32, "upper": 8128, "special": 8192}, 10, b"\x08"),
    "lsn": ("lsn 1/A9", {"lsn": "1/A9"}, 0, struct.pack("<2I", 1, 0xA9)),
    "version": ("version 8195", {"version": 8195}, 18, b"\x03"),
    "lower": ("lower 33", {"lower": 33}, 12, b"\x21"),
    "item unused": ("item 1 unused 8160 27", {"item": 1, "pointer": "unused", "offset": 8160, "length": 27},
                    POINTER, pointer(TUPLE, 0, 27)),
    "item redirect": ("item 1 redirect 9 0", {"item": 1, "pointer": "redirect", "offset": 9, "length": 0},
                      POINTER, pointer(9, REDIRECT, 0)),
    "item normal": ("item 1 normal 8160 40", {"item": 1, "pointer": "normal", "offset": 8160, "length": 40},
                    POINTER, pointer(TUPLE, NORMAL, 40)),
    "overlap": ("item 2 overlaps 1", {"item": 2, "overlaps": 1}, POINTER + 4, pointer(TUPLE, NORMAL, 27)),
    "hoff": ("item 1 hoff 200 expected 24", {"item": 1, "hoff": 200, "expected": 24}, TUPLE + 22, b"\xc8"),
    "mask": ("item 1 mask 5376", {"item": 1, "mask": 5376}, TUPLE + 20, struct.pack("<H", COMMITTED | 1024 | 4096)),
    "xmin": ("item 1 xmin 755", {"item": 1, "xmin": 755}, TUPLE, number(NEXT_TRANSACTION)),
    "xmax": ("item 1 xmax 755", {"item": 1, "xmax": 755}, TUPLE + 4, number(NEXT_TRANSACTION)),
    "misplaced": ("misplaced 2", {"misplaced": 2}, 0, two_rows(2)),
}


class PageFaults(Cluster):
    def hurt(self, kind):
        """Changes block 1 of a table. Its checksum is right, so that it is called misplaced only where
        checksums are not looked at: the words for that."""
        _, _, at, raw = FAULTS[kind]
        changed = bytearray(two_rows(1))
        changed[at : at + len(raw)] = raw
        self.write("base/5/16384", page(0) + with_checksum(changed, 1) + page(2))
        return ["--no-checksums"] if kind == "misplaced" else []

    def test_each_fault_has_its_line(self):
        for kind, (text, _, _, _) in FAULTS.items():
            with self.subTest(kind):
                status, out, _ = self.run_script(*self.hurt(kind), self.data)
                self.assertEqual((status, out), (1, [f"base/5/16384 block 1 (shop public.orders): {text}"]))

    def test_its_numbers_are_facts_of_json(self):
        for kind, (text, facts, _, _) in FAULTS.items():
            with self.subTest(kind):
                words = self.hurt(kind)
                line = json.loads(self.run_script("--json", "-q", "--no-names", *words, self.data)[1][0])
                self.assertEqual(line, {"file": "base/5/16384", "block": 1, "damage": kind.split()[0], "text": text,
                                        **facts})

    def test_a_page_may_have_several_faults(self):
        self.write("base/5/16384", page(0) + bytes(24) + page(1)[24:])
        _, out, _ = self.run_script("--no-names", self.data)
        self.assertEqual(out[0], "base/5/16384 block 1: header flags 0 lower 0 upper 0 special 0")
        self.assertRegex(out[1], r"^base/5/16384 block 1: checksum 0 expected \d+$")

    def test_what_the_last_checkpoint_allows_is_no_fault(self):
        raw = bytearray(two_rows(1))
        struct.pack_into("<2I", raw, 0, 1, 0xA8)
        struct.pack_into("<2I", raw, TUPLE, NEXT_TRANSACTION - 1, NEXT_TRANSACTION - 1)
        self.write("base/5/16384", page(0) + with_checksum(raw, 1))
        self.assertEqual(self.run_script("-q", self.data), (0, [], []))

    def test_frozen_tuples_have_no_limit(self):
        raw = bytearray(page(1))
        struct.pack_into("<I", raw, TUPLE, NEXT_TRANSACTION)
        self.write("base/5/16384", page(0) + with_checksum(raw, 1))
        self.assertEqual(self.run_script("-q", self.data), (0, [], []))

    def test_limits_hold_after_a_clean_shutdown_or_where_they_are_asked_for(self):
        raw = bytearray(two_rows(1))
        struct.pack_into("<2I", raw, 0, 1, 0xA9)
        raw[18] = 3
        struct.pack_into("<I", raw, TUPLE, NEXT_TRANSACTION)
        struct.pack_into("<I", raw, SECOND_TUPLE + 4, NEXT_TRANSACTION)
        every = ["lsn 1/A9", "version 8195", "item 1 xmin 755", "item 2 xmax 755"]
        for words, expected, change in [
                ([], every, lambda: None),
                (["--no-limits"], every[1:2], lambda: None),
                ([], every[1:2], lambda: self.write("global/pg_control", control(state=IN_PRODUCTION))),
                (["--limits"], every, lambda: self.write("global/pg_control", control(state=IN_PRODUCTION))),
                ([], every[1:2], lambda: self.write("backup_label", b"")),
                ([], every[1:2], lambda: self.write("postmaster.pid", b"")),
                ([], every[1:2], lambda: self.write("postmaster.pid", b"%d\n/data\n" % os.getpid())),
                ([], every, lambda: self.write("postmaster.pid", b"%d\n" % process_that_has_ended())),
                ([], every[1:2], lambda: os.remove(f"{self.data}/global/pg_control"))]:
            self.setUp()
            self.write("base/5/16384", page(0) + with_checksum(raw, 1))
            change()
            _, out, _ = self.run_script("-q", "--no-names", *words, self.data)
            self.assertEqual([it.partition(": ")[2] for it in out], expected)

    def test_a_transaction_has_no_epoch(self):
        self.write("global/pg_control", control(epoch=7))
        self.hurt("xmin")
        self.assertEqual(self.run_script(self.data)[0], 1)
        self.hurt("hoff")
        self.assertEqual(len(self.run_script(self.data)[1]), 1)

    def test_each_segment_has_its_own_block_numbers(self):
        os.truncate(f"{self.data}/base/5/16384", SEGMENT * PAGE)
        self.write("base/5/16384.1", two_rows(SEGMENT) + two_rows(SEGMENT + 1))
        self.assertEqual(self.run_script("-q", self.data), (0, [], []))
        misplaced = f"base/5/16384.1 block {SEGMENT + 1}: misplaced 1"
        for words, expected in (([], []), (["--no-checksums"], [misplaced])):
            with self.subTest(words):
                self.write("base/5/16384.1", two_rows(SEGMENT) + with_checksum(two_rows(1), SEGMENT + 1))
                _, out, _ = self.run_script("-q", "--no-names", *words, self.data)
                self.assertEqual(out, expected)

    def test_segments_behind_the_sixteenth_have_their_block_numbers(self):
        """The program counts no block 2097152, and is told of block 0."""
        begin = 16 * SEGMENT
        path, wrong_length = "base/5/16384.16", bytearray(two_rows(begin + 1))
        wrong_length[TUPLE + 22] = 200
        as_block_1 = f"checksum {stored(two_rows(1))} expected {stored(with_checksum(two_rows(1), begin + 1))}"
        for second, words, expected in [
                (two_rows(begin + 1), [], []),
                (two_rows(begin + 1), ["--no-checksums"], []),
                (with_checksum(wrong_length, begin + 1), [], ["item 1 hoff 200 expected 24"]),
                (two_rows(1), [], [as_block_1]),
                (two_rows(5), ["--no-checksums"], ["misplaced 5"]),
                (with_checksum(two_rows(5), begin + 1), [], []),
                (two_rows(begin + 1)[:8] + bytes(2) + two_rows(begin + 1)[10:], [],
                 [f"checksum 0 expected {stored(two_rows(begin + 1))}"])]:
            with self.subTest(expected=expected, words=words):
                self.write(path, two_rows(begin) + second + bytes(PAGE))
                _, out, _ = self.run_script("-q", "--no-names", *words, self.data)
                self.assertEqual([it for it in out if path + " block" in it],
                                 [f"{path} block {begin + 1}: {it}" for it in expected])

    def test_checksums_of_segments_behind_the_sixteenth(self):
        """What is expected of another segment tells, but for a few values, what the checksum is."""
        for number, block, sums in [(16, 0, 2), (31, SEGMENT - 1, 2), (48, 7, 4), (100, 5, 4)]:
            with self.subTest(number):
                before = number // 16 * 16 * SEGMENT
                counted = page(number * SEGMENT + block - before)
                right = stored(with_checksum(counted, number * SEGMENT + block))
                passed = [it for it in range(65536) if far_segments.may_be_right(it, stored(counted), before)]
                self.assertIn(right, passed)
                self.assertEqual(len(passed), sums)

    def test_links_are_made_where_segments_follow(self):
        files = [File("base/5/16384", 0, PAGE, True), File("base/5/16390", 0, PAGE, False)]
        with tempfile.TemporaryDirectory() as links:
            found = page_scan.link_all(self.data, links, files, 0)
            self.assertEqual([word for word, _, _ in found], ["base/5/16384", f"{links}/1"])
            self.assertEqual(os.listdir(links), ["1"])


if __name__ == "__main__":
    unittest.main()
