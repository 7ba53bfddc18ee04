"""The relation files of a cluster: which there are, and what is wrong with their sizes."""
import collections, os, re, stat

from stopped_cluster.page_check import PAGE, SEGMENT

SEGMENT_FILE = re.compile(r"((?:t\d+_)?\d+(?:_(?:fsm|vm|init))?)(?:\.(\d{1,5}))?")
FORK = re.compile("_(fsm|vm|init)$")

# alone: it is the only segment of its relation.
File = collections.namedtuple("File", "path number size alone")


def segment_name(first, number):
    return f"{first}.{number}" if number else first


class RelationFiles:
    """sizes: of each relation's first file, the bytes of its segments by their numbers (None: unreadable).
    folders: those that could be listed."""

    def __init__(self, data, report):
        self.data, self.report, self.sizes, self.folders, increments = data, report, {}, [], []
        for folder in self.relation_folders():
            names = self.entries(folder)
            for name in names:
                match = SEGMENT_FILE.fullmatch(name)
                if match:
                    sizes = self.sizes.setdefault(f"{folder}/{match[1]}", {})
                    sizes[int(match[2] or 0)] = self.size_of(f"{folder}/{name}")
            increments += [f"{folder}/{name}" for name in names if name.startswith("INCREMENTAL.")]
        if increments:
            report.cannot_read(f"{increments[0]} and {len(increments) - 1} more files of an incremental backup: "
                               "not looked at. pg_combinebackup makes relation files of them", len(increments))

    def relation_folders(self):
        """The folders that hold relation files, below the data folder."""
        found = ["global"]
        for top, depth in [("base", 1), ("pg_tblspc", 3)]:
            level = [top]
            for _ in range(depth):
                level = [f"{above}/{name}" for above in level for name in self.entries(above)
                         if self.is_folder(f"{above}/{name}")]
            found += [folder for folder in level if os.path.basename(folder).isdigit()]
        return found

    def is_folder(self, path):
        """Whether it is a folder. A link that leads nowhere is told: a tablespace that is not there."""
        if os.path.islink(f"{self.data}/{path}") and not os.path.exists(f"{self.data}/{path}"):
            self.report.cannot_read(f"{path}: leads nowhere")
        return os.path.isdir(f"{self.data}/{path}")

    def entries(self, folder):
        """The names in a folder. One that cannot be listed is told."""
        try:
            names = sorted(os.listdir(f"{self.data}/{folder}"))
        except FileNotFoundError:
            return []
        except OSError as error:
            self.report.cannot_read(f"{folder}: {error.strerror}")
            return []
        self.folders.append(folder)
        return names

    def size_of(self, path):
        """How many bytes a file has. Nothing, and a line, where it cannot be opened."""
        try:
            file = os.open(f"{self.data}/{path}", os.O_RDONLY | os.O_NONBLOCK)
            status = os.fstat(file)
            os.close(file)
            if stat.S_ISREG(status.st_mode):
                return status.st_size
            self.report.cannot_read(f"{path}: no regular file")
        except OSError as error:
            self.report.cannot_read(f"{path}: {error.strerror}")
        return None

    def files(self):
        """Each file that can be read, with the number of its segment."""
        return [File(segment_name(first, number), number, sizes[number], len(sizes) == 1)
                for first, sizes in self.sizes.items() for number in sorted(sizes) if sizes[number] is not None]

    def look_at_segments(self):
        for first, sizes in self.sizes.items():
            if len(sizes) > 1 or 0 not in sizes or (sizes[0] or 0) % PAGE:
                self.look_at_relation(first, sizes)

    def look_at_relation(self, first, sizes):
        """Tells what is wrong with the sizes of a relation's segments."""
        for number in range(max(sizes) + 1):
            name, size = segment_name(first, number), sizes.get(number)
            later = [n for n, bytes_there in sizes.items() if n > number and bytes_there]
            if number not in sizes and later:
                self.report.damage(name, None, "segment_missing", "missing")
            if size is None:
                continue
            if size % PAGE:
                block = number * SEGMENT + size // PAGE
                self.report.damage(name, None, "torn", f"ends in {size % PAGE} bytes of block {block}",
                                   bytes=size % PAGE, last_block=block)
            if size // PAGE < SEGMENT and later:
                follows = segment_name(first, min(later))
                self.report.damage(name, None, "segment_short",
                                   f"has {size // PAGE} blocks, though {follows} follows",
                                   blocks=size // PAGE, follows=follows)
