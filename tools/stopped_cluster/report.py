"""Damage to standard output, everything else to the error stream, and how much there was of each."""
import collections, json, sys

from stopped_cluster.relation_files import FORK, SEGMENT_FILE


def relation_of(path):
    """The path of a relation's first file of its main fork."""
    folder, _, name = path.rpartition("/")
    match = SEGMENT_FILE.fullmatch(name)
    return f"{folder}/{FORK.sub('', match[1])}" if match else path


class Report:
    """What is told of a run. name_of gives the name of a relation's file, or nothing. Of each relation
    by_relation counts the damages, and blocks the blocks that have some. place: that of the last one.
    notes: what each note says of a file, for the last line of JSON."""

    def __init__(self, as_json=False, quiet=False):
        self.as_json, self.quiet = as_json, quiet
        self.name_of = lambda path: None
        self.damages = self.unread = 0
        self.notes = []
        self.by_relation, self.blocks, self.place = collections.Counter(), collections.Counter(), None
        self.shows_progress = not quiet and sys.stderr.isatty()
        sys.stdout.reconfigure(errors="backslashreplace")
        sys.stderr.reconfigure(errors="backslashreplace")

    def damage(self, path, block, kind, text, **facts):
        """A line of damage. Its facts stand in the line of JSON alone."""
        relation = relation_of(path)
        name = self.name_of(relation)
        self.damages += 1
        self.by_relation[relation] += 1
        self.blocks[relation] += block is not None and self.place != (path, block)
        self.place = path, block
        self.clear_progress()
        if self.as_json:
            line = {"file": path, "block": block, **fields_of(name), "damage": kind, "text": text, **facts}
            print(json.dumps(line), flush=True)
        else:
            place = path if block is None else f"{path} block {block}"
            print(f"{place}{in_brackets(name)}: {text}", flush=True)

    def note(self, path, kind, text, **facts):
        """What is worth a look in a file, and no damage."""
        name = self.name_of(relation_of(path))
        self.notes.append({"file": path, **fields_of(name), "note": kind, "text": text, **facts})
        self.tell(f"{path}{in_brackets(name)}: {text}")

    def cannot_read(self, text, count=1):
        self.unread += count
        self.tell_always(text)

    def tell(self, text):
        if not self.quiet:
            self.tell_always(text)

    def tell_always(self, text):
        self.clear_progress()
        print(f"damaged_pages: {text}", file=sys.stderr, flush=True)

    def progress(self, done, total):
        if self.shows_progress and total:
            print(f"\r\033[Kdamaged_pages: {min(100, 100 * done // total)} % of {total / 1e9:.1f} GB",
                  end="", file=sys.stderr, flush=True)

    def clear_progress(self):
        if self.shows_progress:
            print("\r\033[K", end="", file=sys.stderr, flush=True)

    def status(self):
        return 2 if self.unread else 1 if self.damages else 0

    def sums(self, files):
        """The last lines: the damages of each relation, and how many there are of all."""
        for relation, count in self.by_relation.items():
            where = f" in {some(self.blocks[relation], 'block')}" if self.blocks[relation] else ""
            self.tell(f"{relation}{in_brackets(self.name_of(relation))}: {some(count, 'damage')}{where}")
        self.tell(f"{files} files, {self.damages} damages, {self.unread} that could not be read")
        if self.as_json:
            relations = [{"file": relation, **fields_of(self.name_of(relation)), "damages": count,
                          "blocks": self.blocks[relation]}
                         for relation, count in self.by_relation.items()]
            print(json.dumps({"files": files, "damages": self.damages, "unread": self.unread,
                              "relations": relations, "notes": self.notes, "status": self.status()}), flush=True)


def some(count, what):
    return f"{count} {what}{'s' * (count > 1)}"


def in_brackets(name):
    return f" ({name})" if name else ""


def fields_of(name):
    return name._asdict() if name else {}
