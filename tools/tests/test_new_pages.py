"""New pages before others of a table have a note, which is no damage. Those at the end have none."""
import json, os, struct, unittest
from unittest import mock

from made_cluster import IN_PRODUCTION, PAGE, Cluster, control, page, with_checksum
from stopped_cluster import new_pages, relation_files, report

NEW = bytes(PAGE)
TABLE = "base/5/16384"


def index_page(block):
    """A page with a special space, and no items."""
    raw = bytearray(page(block, []))
    struct.pack_into("<2H", raw, 14, PAGE - 16, PAGE - 16)
    return with_checksum(raw, block)


class NewPages(Cluster):
    def notes(self, *words):
        """What the notes of a run say. It finds no damage."""
        status, out, err = self.run_script(*words, self.data)
        self.assertEqual((status, out), (0, []))
        return [it.removeprefix("damaged_pages: ") for it in err if "new pages before" in it]

    def test_a_note_names_the_table_and_the_blocks(self):
        for pages, blocks in [(page(0) + NEW + page(2), "block 1"), (NEW + page(1), "block 0"),
                              (page(0) + 3 * NEW + page(4) + NEW + page(6) + 2 * NEW, "blocks 1 to 3, 5")]:
            with self.subTest(blocks):
                self.write(TABLE, pages)
                self.assertEqual(self.notes(), [f"{TABLE} (shop public.orders): new pages before others: {blocks}"])

    def test_new_pages_at_the_end_have_none(self):
        for pages in [page(0) + 3 * NEW, 3 * NEW, b""]:
            with self.subTest(len(pages)):
                self.write(TABLE, pages)
                self.assertEqual(self.notes(), [])

    def before_others(self, count):
        files = relation_files.RelationFiles(self.data, report.Report())
        return list(new_pages.before_others(files.data, new_pages.used_parts(files), count))

    def test_an_end_is_that_of_all_segments(self):
        self.write(TABLE, page(0) + 3 * NEW)
        with mock.patch.object(new_pages, "SEGMENT", 4):
            self.write(f"{TABLE}.1", NEW + page(5) + NEW)
            self.assertEqual(self.before_others(5), [(TABLE, [1, 2, 3]), (f"{TABLE}.1", [4])])
            self.write(f"{TABLE}.1", 2 * NEW)
            self.assertEqual(self.before_others(5), [])

    def test_forks_and_indexes_have_none(self):
        self.write(f"{TABLE}_fsm", NEW + page(1, []))
        self.write("base/5/16388", index_page(0) + NEW + index_page(2))
        self.assertEqual(self.notes(), [])

    def test_a_page_whose_header_is_zeroed_is_damaged_and_not_new(self):
        self.write(TABLE, page(0) + bytes(24) + page(1)[24:] + page(2))
        status, out, err = self.run_script("--no-checksums", self.data)
        self.assertEqual((status, len(out)), (1, 1))
        self.assertFalse(any("new pages" in it for it in err))

    def test_before_recovery_there_is_none(self):
        self.write(TABLE, page(0) + NEW + page(2))
        self.write("backup_label", b"")
        self.assertEqual(self.notes(), [])
        os.remove(f"{self.data}/backup_label")
        self.write("global/pg_control", control(state=IN_PRODUCTION))
        self.assertEqual(self.notes(), [])

    def test_where_something_could_not_be_read_there_is_none(self):
        self.write(TABLE, page(0) + NEW + page(2))
        os.makedirs(f"{self.data}/base/5/16500")
        status, _, err = self.run_script(self.data)
        self.assertEqual(status, 2)
        self.assertFalse(any("new pages" in it for it in err))

    def test_of_many_blocks_the_first_are_named(self):
        self.write(TABLE, b"".join(page(block) + NEW for block in range(0, 24, 2)) + page(24))
        self.assertEqual(self.notes("--no-names"), [f"{TABLE}: new pages before others: "
                                                    "blocks 1, 3, 5, 7, 9, 11, 13, 15 and 4 more"])

    def test_in_json_notes_stand_in_the_last_line(self):
        self.write(TABLE, page(0) + 2 * NEW + page(3) + NEW + page(5))
        status, out, err = self.run_script("--json", "-q", self.data)
        self.assertEqual((status, len(out), err), (0, 1, []))
        self.assertEqual(json.loads(out[0])["notes"], [
            {"file": TABLE, "database": "shop", "schema": "public", "relation": "orders", "kind": "table", "of": None,
             "note": "new_pages", "text": "new pages before others: blocks 1 to 2, 4", "pages": 3,
             "ranges": [[1, 2], [4, 4]]}])

    def test_no_file_is_read_again_where_all_new_pages_are_at_an_end(self):
        self.write(TABLE, page(0) + page(1) + 3 * NEW)
        self.write("base/5/16390", NEW)
        with mock.patch.object(new_pages, "new_blocks", side_effect=AssertionError):
            self.assertEqual(self.before_others(4), [])

    def test_the_search_ends_with_the_last_new_page(self):
        self.write(TABLE, page(0) + NEW + page(2))
        self.write("base/5/16390", b"".join(page(block) for block in range(4)))
        with mock.patch.object(new_pages, "new_blocks", wraps=new_pages.new_blocks) as read:
            self.assertEqual(self.before_others(1), [(TABLE, [1])])
        self.assertNotIn("base/5/16390", str(read.call_args_list))


if __name__ == "__main__":
    unittest.main()
