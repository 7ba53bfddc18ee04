"""What cannot be read is told, and has status 2. The program is found wherever it stands."""
import os, pty, shutil, struct, subprocess, sys, unittest

from made_cluster import PROGRAM, SCRIPT, SYSTEM_PYTHON, TOOLS, Cluster, control


class Refusals(Cluster):
    def refused(self, *words, **how):
        """The last line of the error stream of a run that has status 2."""
        status, _, err = self.run_script(*words, **how)
        self.assertEqual(status, 2, err)
        return "\n".join(err)

    def test_help_and_version_have_status_0(self):
        for word in ("--help", "-h", "--version"):
            status, out, err = self.run_script(word)
            self.assertEqual((status, err), (0, []))
            self.assertIn("damage", out[0].lower())

    def test_words_that_are_no_command(self):
        for words in [[], ["--unknown", self.data], [self.data, self.data], ["--jobs", "0", self.data],
                      ["--jobs", "17", self.data], ["--jobs"], [""]]:
            with self.subTest(words):
                self.assertIn("--help tells more", self.refused(*words))

    def test_no_such_cluster(self):
        self.assertIn("has no folders base and global", self.refused(f"{self.top}/nothing"))
        self.assertIn("has no folders base and global", self.refused(self.top))

    def test_sizes_that_the_program_does_not_read(self):
        self.write("global/pg_control", control(block_size=4096))
        self.assertIn("blocks of 4096 bytes", self.refused(self.data))
        self.write("global/pg_control", control(segment_blocks=1024))
        self.assertIn("segments of 1024 blocks", self.refused(self.data))

    def test_control_files_of_other_systems(self):
        self.write("global/pg_control", control(version=843))
        status, _, err = self.run_script(self.data)
        self.assertEqual(status, 0)
        self.assertIn("is of version 843", err[0])
        self.write("global/pg_control", bytes(8) + struct.pack(">3I", 1300, 0, 1) + bytes(8000))
        self.assertIn("big-endian", self.refused(self.data))

    def test_without_a_control_file_headers_are_looked_at(self):
        os.remove(f"{self.data}/global/pg_control")
        status, _, err = self.run_script(self.data)
        self.assertEqual(status, 0)
        self.assertIn("there is no global/pg_control", err[0])
        self.assertIn("--limits needs a pg_control", self.refused("--limits", self.data))

    def test_incremental_backups(self):
        self.write("base/5/INCREMENTAL.16384", b"x")
        self.assertIn("base/5/INCREMENTAL.16384", self.refused(self.data))

    def test_a_tablespace_that_is_not_there(self):
        os.makedirs(f"{self.data}/pg_tblspc")
        os.symlink("/nowhere", f"{self.data}/pg_tblspc/16400")
        self.assertIn("pg_tblspc/16400: leads nowhere", self.refused(self.data))

    def someone(self):
        """A user for whom permissions count. The superuser is none."""
        if os.geteuid():
            return None
        try:
            for words in [[SYSTEM_PYTHON, SCRIPT, "--help"], [PROGRAM, "--make", "1"]]:
                subprocess.run(words, user="nobody", env={}, capture_output=True, check=True)
        except (OSError, subprocess.SubprocessError):
            self.skipTest("nobody may not run the scripts or the program here")
        return "nobody"

    def test_permission_denied_is_another_thing_than_no_cluster(self):
        someone = self.someone()
        os.chmod(self.data, 0)
        self.addCleanup(os.chmod, self.data, 0o700)
        self.assertIn(f"{self.data}: Permission denied", self.refused(self.data, user=someone))

    def test_a_file_that_may_not_be_read_is_passed_over(self):
        someone = self.someone()
        os.chmod(f"{self.data}/base/5/16384", 0)
        self.change("base/5/16390", 8, bytes(2))
        status, out, err = self.run_script(self.data, user=someone)
        self.assertEqual(status, 2)
        self.assertIn("damaged_pages: base/5/16384: Permission denied", err)
        self.assertEqual(len(out), 1)

    def keep_one_file(self):
        """Leaves one relation file, and no other that a run would be split at."""
        for name in os.listdir(f"{self.data}/base/5"):
            if name != "16384":
                os.remove(f"{self.data}/base/5/{name}")
        os.remove(f"{self.data}/global/1262")

    def test_it_goes_on_behind_a_block_that_cannot_be_read(self):
        """A stand-in fails at blocks 1 and 3 of the one file, and finds faults before and behind them."""
        self.keep_one_file()
        program = self.stand_in('case "$*" in *--make*) ;;\n'
                                '*"--from 4"*) echo fault 0 4 lower 5; echo pages 1 new 0 faults 1; exit 1 ;;\n'
                                '*"--from 2"*) echo unread page 0 3 >&2; exit 3 ;;\n'
                                '*) echo fault 0 0 version 5; echo unread page 0 1 >&2; exit 3 ;; esac')
        status, out, err = self.run_script("--no-names", self.data, program=program)
        self.assertEqual((status, out), (2, ["base/5/16384 block 0: version 5", "base/5/16384 block 4: lower 5"]))
        for block in (1, 3):
            self.assertIn(f"damaged_pages: base/5/16384 block {block}: could not be read", err)

    def test_each_half_of_the_files_is_looked_at_where_a_run_fails(self):
        """A stand-in has no memory for two files. Of each alone it finds a fault."""
        program = self.stand_in('case "$*" in *--make*) exit ;; *"-- "*" "*) ;;\n'
                                '*"-- "*) echo fault 0 1 version 5; echo pages 3 new 0 faults 1; exit 1 ;; esac\n'
                                'echo fault 0 1 version 5; echo out of memory >&2; exit 5')
        status, out, _ = self.run_script("--no-names", self.data, program=program)
        self.assertEqual((status, len(out), len(set(out))), (1, 8, 8))

    def test_a_file_that_the_program_refuses(self):
        self.keep_one_file()
        for status in (3, 5, 6, 7):
            program = self.stand_in(f'case "$*" in *--make*) ;; *) echo why >&2; exit {status} ;; esac')
            self.assertIn("damaged_pages: base/5/16384: why", self.refused(self.data, program=program))

    def test_a_program_that_fails(self):
        self.assertIn("--make 1: 9", self.refused(self.data, program=self.stand_in("exit 9")))
        self.assertIn("No such file", self.refused(self.data, program=f"{self.top}/none"))
        self.assertIn("ended with status 0: it has printed no sums", self.refused(self.data, program=self.stand_in("")))
        for line in ("fault 0 0 unknown 5", "fault 9 0"):
            program = self.stand_in('case "$*" in *--make*) ;;\n'
                                    f'*) echo {line}; echo pages 1 new 0 faults 1; exit 1 ;; esac')
            self.assertIn("ended with status 1", self.refused(self.data, program=program))

    def test_the_program_is_found_beside_through_a_link_and_by_path(self):
        home, bin = f"{self.top}/lib/aioscan", f"{self.top}/bin"
        shutil.copytree(f"{TOOLS}/stopped_cluster", f"{home}/stopped_cluster")
        shutil.copy(SCRIPT, home)
        os.makedirs(bin)
        os.symlink("../lib/aioscan/damaged_pages", f"{bin}/damaged_pages")
        self.assertIn("there is no aioscan", self.refused(self.data, script=f"{bin}/damaged_pages", program=None))
        os.symlink(PROGRAM, f"{bin}/aioscan")
        for how in [{"path": f"{bin}:/usr/bin:/bin"}, {}]:
            if not how:
                os.rename(f"{bin}/aioscan", f"{home}/aioscan_main")
            self.assertEqual(self.run_script(self.data, script=f"{bin}/damaged_pages", program=None, **how)[0], 0)

    def test_progress_is_shown_on_a_terminal_alone(self):
        program = self.stand_in('case "$*" in *--make*) ;; *) sleep 1.2; echo pages 0 new 0 faults 0 ;; esac')
        _, _, err = self.run_script(self.data, program=program)
        self.assertFalse(any("%" in it for it in err))
        terminal, end = pty.openpty()
        subprocess.run([sys.executable, SCRIPT, self.data], stderr=end, env={**os.environ, "AIOSCAN": program})
        self.assertIn(b"% of", os.read(terminal, 65536))
        os.close(end)
        os.close(terminal)


if __name__ == "__main__":
    unittest.main()
