"""Each kind of damage has its line, its name and its status."""
import json, os, re, struct, unittest

from made_cluster import (COMMITTED, IN_PRODUCTION, NO_DELETER, PAGE, SEGMENT, CLASSES, Cluster, class_row, control,
                          database_row, page, with_checksum)


def damage_control(test):
    test.change("global/pg_control", 100, b"x")


def lose_first_segment(test):
    os.rename(f"{test.data}/base/5/16384", f"{test.data}/base/5/16384.1")
    test.write("base/5/16384.1", page(SEGMENT))


def mark(test, byte=0, marks=b"\x40"):
    """A map that marks a block: two bits each."""
    raw = bytearray(page(0, []))
    raw[24 + byte : 25 + byte] = marks
    test.write("base/5/16384_vm", with_checksum(raw, 0))


def change_checksum(path):
    return lambda test: test.change(path, 8, bytes(2))


# What is done to the cluster, and the lines that it has to give.
KINDS = {
    "checksum": (lambda test: test.write("base/5/16384", page(0) + page(0)),
                 ["base/5/16384 block 1 (shop public.orders): checksum X expected X"]),
    "index": (change_checksum("base/5/16388"),
              ["base/5/16388 block 0 (shop public.orders_pkey, index of public.orders): checksum X expected X"]),
    "TOAST table": (
        change_checksum("base/5/16387"),
        ["base/5/16387 block 0 (shop pg_toast.pg_toast_16384, TOAST table of public.orders): checksum X expected X"]),
    "odd name": (change_checksum("base/5/16390"),
                 ['base/5/16390 block 0 (shop public."Odd ""name\\x0a"): checksum X expected X']),
    "shared catalog": (change_checksum("global/1262"), ["global/1262 block 0: checksum X expected X"]),
    "torn": (lambda test: test.write("base/5/16384", page(0) + b"torn"),
             ["base/5/16384 (shop public.orders): ends in 4 bytes of block 1"]),
    "segment missing": (lose_first_segment, ["base/5/16384 (shop public.orders): missing"]),
    "segment short": (lambda test: test.write("base/5/16384.1", page(SEGMENT)),
                      ["base/5/16384 (shop public.orders): has 3 blocks, though base/5/16384.1 follows"]),
    "later segment": (lambda test: test.write("base/5/16384.1", page(0)),
                      ["base/5/16384 (shop public.orders): has 3 blocks, though base/5/16384.1 follows",
                       f"base/5/16384.1 block {SEGMENT} (shop public.orders): checksum X expected X"]),
    "file missing": (lambda test: os.remove(f"{test.data}/base/5/16384"),
                     ["base/5/16384 (shop public.orders): missing, though pg_class has it"]),
    "map past the end": (
        mark, ["base/5/16384_vm (shop public.orders): its relation has 3 blocks, but block 3 is marked"]),
    "control": (damage_control, ["global/pg_control: has a wrong CRC"]),
}


def without_sums(line):
    """A line of a checksum, with X in place of the sums, which the page's bytes give."""
    return re.sub(r"checksum \d+ expected \d+", "checksum X expected X", line)


class Damage(Cluster):
    def test_a_whole_cluster_has_no_line(self):
        status, out, err = self.run_script(self.data)
        self.assertEqual((status, out), (0, []))
        self.assertIn("PostgreSQL 15, shut down, checksums on", err[0])
        self.assertIn("last checkpoint 1/A8, next transaction 0:755", err[0])
        self.assertEqual(err[1:], ["damaged_pages: 8 files, 0 damages, 0 that could not be read"])

    def test_each_kind_has_its_line(self):
        for kind, (hurt, lines) in KINDS.items():
            with self.subTest(kind):
                self.setUp()
                hurt(self)
                status, out, _ = self.run_script(self.data)
                self.assertEqual(status, 1)
                self.assertEqual([without_sums(it) for it in out], [without_sums(it) for it in lines])

    def test_the_sums_of_a_checksum_line(self):
        self.write("base/5/16384", page(0) + page(0))
        stored, expected = (struct.unpack_from("<H", it, 8)[0] for it in (page(0), with_checksum(page(0), 1)))
        _, out, _ = self.run_script("--json", "-q", self.data)
        damage = json.loads(out[0])
        self.assertEqual([damage[it] for it in ("damage", "text", "checksum", "expected")],
                         ["checksum", f"checksum {stored} expected {expected}", stored, expected])

    def test_a_map_may_mark_the_last_block(self):
        mark(self, marks=b"\x30")
        self.assertEqual(self.run_script(self.data)[0], 0)

    def test_checksums_are_verified_where_the_cluster_has_them(self):
        self.write("base/5/16384", page(0) + page(0))
        for checksums, words, status in [(1, [], 1), (1, ["--no-checksums"], 0), (0, [], 0), (0, ["--checksums"], 1)]:
            with self.subTest(checksums=checksums, words=words):
                self.write("global/pg_control", control(checksums=checksums))
                self.assertEqual(self.run_script(*words, self.data)[0], status)

    def test_after_a_crash_a_lost_file_or_mark_is_no_damage(self):
        os.remove(f"{self.data}/base/5/16384")
        self.write("global/pg_control", control(state=IN_PRODUCTION))
        status, out, err = self.run_script(self.data)
        self.assertEqual((status, out), (0, []))
        self.assertTrue(any("was not shut down" in it for it in err))

    def test_a_base_backup_is_told(self):
        self.write("backup_label", b"")
        os.remove(f"{self.data}/base/5/16384")
        status, out, err = self.run_script(self.data)
        self.assertEqual((status, out), (0, []))
        self.assertTrue(any("base backup" in it for it in err))
        self.assertIn("damaged_pages: so missing files and new pages are not looked for", err)

    def test_rows_of_transactions_that_did_not_commit_name_no_missing_file(self):
        aborted = class_row(20000, "aborted", 20000)
        for bits, status in [(b"\x80", 0), (b"\x40", 1)]:  # transaction 3 has aborted, or has committed
            with self.subTest(bits=bits):
                self.write("base/5/1259", page(0, [*CLASSES, aborted], mask=NO_DELETER))
                self.write("pg_xact/0000", bits)
                self.assertEqual(self.run_script(self.data)[0], status)

    def test_a_database_without_a_folder(self):
        self.write("global/1262", page(0, [database_row(5, "shop"), database_row(6, "lost")], mask=COMMITTED | NO_DELETER))
        status, out, _ = self.run_script(self.data)
        self.assertEqual((status, out), (1, ["base/6: missing, though pg_database has lost"]))

    def test_names_can_be_left_out(self):
        self.change("base/5/16384", 8, bytes(2))
        os.remove(f"{self.data}/base/5/16390")
        [line] = self.run_script("--no-names", self.data)[1]
        self.assertEqual(without_sums(line), "base/5/16384 block 0: checksum X expected X")

    def test_damage_of_a_relation_is_summed(self):
        self.write("base/5/16384", page(0)[:8] + bytes(2) + page(0)[10:] + bytes(24) + page(1)[24:])
        os.remove(f"{self.data}/base/5/16390")
        _, out, err = self.run_script(self.data)
        self.assertEqual(err[-3:], ['damaged_pages: base/5/16390 (shop public."Odd ""name\\x0a"): 1 damage',
                                    "damaged_pages: base/5/16384 (shop public.orders): 3 damages in 2 blocks",
                                    "damaged_pages: 7 files, 4 damages, 0 that could not be read"])
        self.assertEqual(len(out), 4)

    def test_json(self):
        self.write("base/5/16384", page(0) + b"torn")
        status, out, err = self.run_script("--json", "-q", self.data)
        damage, sums = map(json.loads, out)
        self.assertEqual((status, err), (1, []))
        self.assertEqual(damage, {"file": "base/5/16384", "block": None, "database": "shop", "schema": "public",
                                  "relation": "orders", "kind": "table", "of": None, "damage": "torn",
                                  "text": "ends in 4 bytes of block 1", "bytes": 4, "last_block": 1})
        self.assertEqual([sums[it] for it in ("files", "damages", "unread", "status")], [8, 1, 0, 1])
        self.assertEqual([[it["relation"], it["damages"], it["blocks"]] for it in sums["relations"]],
                         [["orders", 1, 0]])

    def test_quiet_tells_damage_alone(self):
        self.assertEqual(self.run_script("-q", self.data), (0, [], []))
        self.change("base/5/16384", PAGE + 8, bytes(2))
        status, out, err = self.run_script("-q", self.data)
        self.assertEqual((status, len(out), err), (1, 1, []))

    def test_pg_controldata_is_asked_first(self):
        program = self.stand_in("\n".join(f'echo "{label}:  {value}"' for label, value in [
            ("Database cluster state", "in archive recovery"), ("pg_control version number", 1300),
            ("Catalog version number", 7), ("Database block size", 8192), ("Data page checksum version", 0),
            ("Blocks per segment of large relation", 131072), ("Latest checkpoint location", "7/8"),
            ("Latest checkpoint's NextXID", "0:9")]))
        os.makedirs(f"{self.top}/bin")
        os.rename(program, f"{self.top}/bin/pg_controldata")
        _, _, err = self.run_script(self.data, path=f"{self.top}/bin:/usr/bin:/bin")
        self.assertIn("PostgreSQL 15, in archive recovery, checksums off", err[0])
        # One of another version complains of the CRC, and is not believed.
        with open(f"{self.top}/bin/pg_controldata", "a", encoding="ascii") as file:
            file.write("echo WARNING: Calculated CRC checksum does not match\n")
        _, _, err = self.run_script(self.data, path=f"{self.top}/bin:/usr/bin:/bin")
        self.assertIn("PostgreSQL 15, shut down, checksums on", err[0])

    def test_jobs_change_nothing(self):
        self.change("base/5/16384", PAGE, bytes(24))
        self.assertEqual(self.run_script("--jobs", "1", self.data), self.run_script("--jobs=16", self.data))


if __name__ == "__main__":
    unittest.main()
