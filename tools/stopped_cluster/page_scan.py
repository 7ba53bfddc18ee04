"""Runs `aioscan --check` over relation files, and tells each fault that it finds."""
import collections, itertools, os, re, resource, subprocess, tempfile

from stopped_cluster import far_segments
from stopped_cluster.check_output import read_output
from stopped_cluster.page_check import PAGE, SEGMENT
from stopped_cluster.relation_files import segment_name

# The program takes so many FILE words, and so many segments of a relation.
MOST_WORDS, MOST_SEGMENTS = 1024, 16
OTHER_DESCRIPTORS = 32
# How often progress is shown, in seconds.
EVERY = 0.5
# Statuses of a run that has read all, and of one that could not.
ALL_READ, PART_READ = (0, 1), (3, 5, 6, 7)

# line: the last one of its error stream. new: how many pages are new, where it is whole.
Run = collections.namedtuple("Run", "status whole faults new line")


class Scan:
    """What all runs over a cluster share. So many backends read by themselves through the same open files: no
    page waits for a worker, and as many reads are under way as backends. The first run begins with the
    scan, so that the catalogs can be read beside it.
    limits: the program's words for the LSNs and transactions that there may be. new: how many pages that
    were read so far are new."""

    def __init__(self, data, program, report, checksums, limits, jobs, files):
        self.data, self.program, self.report = data, program, report
        self.checksums, self.limits = checksums, limits
        self.jobs = jobs
        self.done = self.new = 0
        self.total = sum(it.size for it in files)
        self.batches, self.child = self.batches_of(files), None

    def __enter__(self):
        self.links = tempfile.TemporaryDirectory()
        self.first = next(self.batches, None)
        if self.first:
            self.first.begin()
        return self

    def __exit__(self, *_):
        """Ends the run that nobody has waited for."""
        if self.child:
            self.child.kill()
            self.child.wait()
        self.links.cleanup()

    def words(self):
        """The program's words of every run: options that hold for all files belong here."""
        words = [self.program, "--check", "--method", "sync", "--backends", str(self.jobs)]
        return words + self.limits + ["--checksums"] * self.checksums

    def look_at_all(self):
        """Scans all files."""
        for batch in itertools.chain([self.first] if self.first else [], self.batches):
            batch.scan()
            self.done += batch.size
        self.report.clear_progress()

    def batches_of(self, files):
        """All files, those of each segment number by themselves. One behind the sixteenth may have a line
        for each page, so it is scanned alone."""
        for zeros in range(MOST_SEGMENTS):
            here = [it for it in files if it.number % MOST_SEGMENTS == zeros]
            yield from self.cut([it for it in here if it.number == zeros], zeros, MOST_WORDS)
            yield from self.cut([it for it in here if it.number != zeros], zeros, 1)

    def cut(self, files, zeros, most):
        """So many files at a time as may be open together, with the segments before each."""
        limit = resource.getrlimit(resource.RLIMIT_NOFILE)[0]
        room = MOST_WORDS * (zeros + 1) if limit == resource.RLIM_INFINITY else limit - OTHER_DESCRIPTORS
        most = max(1, min(room // (zeros + 1), most))
        for begin in range(0, len(files), most):
            part, links = files[begin : begin + most], tempfile.mkdtemp(dir=self.links.name)
            yield Batch(self, link_all(self.data, links, part, zeros), zeros, sum(it.size for it in part))


def link_all(data, links, files, zeros):
    """The word by which the program finds each file, with its path and the number of its segment. It is
    the path, or a link whose name no segment follows. Making a link takes longer than reading a page."""
    if zeros:
        with open(f"{links}/zeros", "wb") as file:
            file.truncate(SEGMENT * PAGE)
    found = []
    for link, it in enumerate(files):
        if it.alone and it.number == 0 and zeros == 0:
            found.append((it.path, it.path, it.number))
            continue
        for number in range(zeros):
            os.symlink("zeros", f"{links}/{segment_name(link, number)}")
        os.symlink(f"{data}/{it.path}", f"{links}/{segment_name(link, zeros)}")
        found.append((f"{links}/{link}", it.path, it.number))
    return found


class Batch:
    """Files that the program looks at in one run: the word, the path below the data folder and the
    number of the segment of each. So many segments of zeros, which are not read, stand before each.
    Then the blocks have their own numbers, but for those of a segment behind the sixteenth."""

    def __init__(self, scan, files, zeros, size=0):
        self.over, self.files, self.zeros, self.report = scan, files, zeros, scan.report
        self.size = size

    def part(self, begin, end):
        return Batch(self.over, self.files[begin:end], self.zeros)

    def blocks_before(self, file):
        """How many blocks of its relation stand before those that the program counts in a file."""
        return (self.files[file][2] - self.zeros) * SEGMENT

    def path(self, file):
        return f"{self.over.data}/{self.files[file][1]}"

    def begin(self, *options):
        """Begins to run aioscan over these files."""
        first = ["--from", str(self.zeros * SEGMENT)] if self.zeros and not options else []
        words = [*self.over.words(), *first, *options, "--", *(word for word, _, _ in self.files)]
        self.over.child = subprocess.Popen(words, cwd=self.over.data, stdin=subprocess.DEVNULL,
                                           stdout=subprocess.PIPE, stderr=subprocess.PIPE)

    def end(self):
        """Waits for the run that was begun."""
        child = self.over.child
        out, err = (it.decode("utf-8", "replace") for it in self.wait_for(child))
        self.over.child = None
        faults, new = read_output(out)
        line = err.splitlines()[-1] if err else "it has printed no sums"
        return Run(child.returncode, new is not None and child.returncode in ALL_READ, faults, new, line)

    def wait_for(self, child):
        """What it writes on both streams. Meanwhile progress is shown, by what it has read."""
        while True:
            try:
                return child.communicate(timeout=EVERY if self.report.shows_progress else None)
            except subprocess.TimeoutExpired:
                self.report.progress(self.over.done + bytes_read_by(child.pid), self.over.total)

    def tell(self, faults):
        for file, found in itertools.groupby(faults, lambda it: it.file):
            before = self.blocks_before(file)
            self.tell_own(file, far_segments.own_faults(self.path(file), before, list(found)) if before else found)

    def tell_own(self, file, faults):
        for it in faults:
            self.report.damage(self.files[file][1], self.blocks_before(file) + it.block, it.kind, it.text, **it.facts)

    def tell_untold(self, faults):
        """Tells which pages of a segment behind the sixteenth have the checksum of the block that the program
        takes them for."""
        begin = self.zeros * SEGMENT
        blocks = range(begin, begin + os.path.getsize(self.path(0)) // PAGE)
        self.tell_own(0, far_segments.faults_untold(self.path(0), self.blocks_before(0), blocks, faults))

    def scan(self):
        """Tells the faults of these files. Where a run fails, each half is run by itself."""
        if not self.over.child:
            self.begin()
        run = self.end()
        middle = len(self.files) // 2
        if run.whole:
            self.tell(run.faults)
            self.over.new += run.new
            if self.over.checksums and self.blocks_before(0):
                self.tell_untold(run.faults)
        elif run.status not in PART_READ:
            self.report.cannot_read(f"{self.over.program} ended with status {run.status}: {run.line}")
        elif middle:
            self.part(0, middle).scan()
            self.part(middle, None).scan()
        else:
            self.scan_past_unread(run)

    def scan_past_unread(self, run):
        """Goes on behind each block of this one file that could not be read."""
        [(_, path, _)] = self.files
        self.tell(run.faults)
        while not run.whole:
            unread = re.fullmatch(r"unread page 0 (\d+)", run.line)
            if not unread:
                return self.report.cannot_read(f"{path}: {run.line}")
            block = int(unread[1])
            self.report.cannot_read(f"{path} block {self.blocks_before(0) + block}: could not be read")
            self.begin("--combine", "1", "--from", str(block + 1))
            run = self.end()
            self.tell(run.faults)


def bytes_read_by(pid):
    """How many bytes a process has read so far, or 0."""
    try:
        with open(f"/proc/{pid}/io", encoding="ascii") as file:
            return int(file.readline().split()[1])
    except (OSError, ValueError, IndexError):
        return 0
