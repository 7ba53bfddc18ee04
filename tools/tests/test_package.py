"""The packages: the same bytes twice, and a folder that works wherever it is put."""
import hashlib, os, shutil, subprocess, unittest

from made_cluster import PAGE, PROGRAM, TOOLS, Cluster


class Package(Cluster):
    def setUp(self):
        super().setUp()
        if not all(map(shutil.which, ("dpkg-deb", "git", "strip"))):
            self.skipTest("there is no dpkg-deb, git or strip")
        with open(PROGRAM, "rb") as file:
            if file.read(4) != b"\x7fELF":
                self.skipTest("AIOSCAN names a script")

    def make(self, out):
        subprocess.run([f"{TOOLS}/make_package", PROGRAM, f"{self.top}/{out}"], check=True, capture_output=True)
        found = {}
        for name in sorted(os.listdir(f"{self.top}/{out}")):
            with open(f"{self.top}/{out}/{name}", "rb") as file:
                found[name] = hashlib.sha256(file.read()).hexdigest()
        return found

    def test_the_same_sources_and_program_give_the_same_bytes(self):
        first = self.make("first")
        self.assertEqual([name.rpartition("amd64")[2] for name in first], [".deb", ".tar.gz"])
        self.assertEqual(first, self.make("second"))

    def test_the_folders_of_the_archive_work_below_any_prefix(self):
        [archive] = [name for name in self.make("out") if name.endswith(".tar.gz")]
        prefix = f"{self.top}/a prefix"
        os.mkdir(prefix)
        subprocess.run(["tar", "-xzf", f"{self.top}/out/{archive}", "-C", prefix, "--strip-components=1"], check=True)
        self.change("base/5/16384", PAGE + 8, bytes(2))
        status, out, _ = self.run_script(self.data, script=f"{prefix}/bin/damaged_pages", program=None)
        self.assertEqual((status, len(out)), (1, 1))
        self.assertRegex(out[0], r"^base/5/16384 block 1 \(shop public.orders\): checksum 0 expected \d+$")
        listing = subprocess.run([f"{prefix}/bin/aioscan", f"{self.data}/base/5/16390"], capture_output=True, text=True)
        self.assertEqual(listing.stdout.count("page 0 "), 3)
        for word, begin in [("--help", "usage: aioscan"), ("-h", "usage: aioscan"), ("--version", "aioscan 0.")]:
            told = subprocess.run([f"{prefix}/bin/aioscan", word], capture_output=True, text=True)
            self.assertTrue(told.returncode == 0 and told.stdout.startswith(begin), word)
        self.assertFalse(any("__pycache__" in folder for folder, _, _ in os.walk(prefix)))


if __name__ == "__main__":
    unittest.main()
