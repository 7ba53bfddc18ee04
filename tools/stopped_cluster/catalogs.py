"""What the catalogs of a stopped cluster say of its files: their names, and which have to be there."""
import collections, re, struct

from stopped_cluster.page_check import PAGE, is_sane

# OIDs that PostgreSQL gives its catalogs and tablespaces.
PG_CLASS, PG_NAMESPACE, PG_INDEX, PG_DATABASE = 1259, 2615, 2610, 1262
DEFAULT_SPACE, GLOBAL_SPACE = 1663, 1664
VERSIONS = range(12, 19)
KINDS = {"r": "table", "i": "index", "m": "materialized view", "t": "TOAST table", "S": "sequence"}
XACTS_OF_A_FILE = 1048576


class Name(collections.namedtuple("Name", "database schema relation kind of")):
    """of: the relations that an index or a TOAST table belongs to, in words."""

    def __str__(self):
        text = f"{quoted(self.schema)}.{quoted(self.relation)}"
        text = f"{quoted(self.database)} {text}" if self.database else text
        return f"{text}, {self.kind} of {self.of}" if self.of else text


def quoted(name):
    """A name as SQL has it, without the characters that would break a line."""
    name = "".join(it if it.isprintable() else f"\\x{ord(it):02x}" for it in name)
    return name if re.fullmatch(r"[a-z_][a-z0-9_$]*", name) else '"' + name.replace('"', '""') + '"'


def text_of(values, at):
    return values[at : at + 64].split(b"\0")[0].decode("utf-8", "backslashreplace")


class Transactions:
    """Which transactions have committed, by pg_xact."""

    def __init__(self, data):
        self.data, self.files = data, {}

    def committed(self, xid):
        number, within = divmod(xid, XACTS_OF_A_FILE)
        if number not in self.files:
            try:
                with open(f"{self.data}/pg_xact/{number:04X}", "rb") as file:
                    self.files[number] = file.read()
            except OSError:
                self.files[number] = b""
        bits = self.files[number][within // 4 : within // 4 + 1]
        return xid in (1, 2) or (bits != b"" and bits[0] >> within % 4 * 2 & 3 == 1)

    def visible(self, xmin, xmax, mask):
        """Whether a tuple is there for whoever looks now, by the bits of htup_details.h."""
        inserted = mask & 256 or (not mask & 512 and self.committed(xmin))
        if not inserted or mask & (2048 | 128) or xmax == 0:
            return bool(inserted)
        return not mask & (1024 | 4096) and not self.committed(xmax)


def tuples(raw):
    """Each tuple of a heap's pages: xmin, xmax, t_infomask and the bytes of its values."""
    for begin in range(0, len(raw) - PAGE + 1, PAGE):
        page = raw[begin : begin + PAGE]
        if not is_sane(page):
            continue
        for at in range(24, min(struct.unpack_from("<H", page, 12)[0], PAGE) - 3, 4):
            word, = struct.unpack_from("<I", page, at)
            offset, length = word & 0x7FFF, word >> 17
            if word >> 15 & 3 == 1 and length >= 24 and offset + length <= PAGE:
                xmin, xmax = struct.unpack_from("<2I", page, offset)
                mask, hoff = struct.unpack_from("<HB", page, offset + 20)
                yield xmin, xmax, mask, page[offset + hoff : offset + length]


class Relation(collections.namedtuple("Relation", "oid name schema file kind persistence toast visible")):
    """A row of pg_class. file: the path of its first file, or nothing."""


class Database:
    """The catalogs of the database whose own files lie in a folder."""

    def __init__(self, catalogs, folder):
        self.catalogs, self.folder = catalogs, folder
        self.map = catalogs.filenode_map(folder)
        self.schemas = {}
        for _, values in catalogs.rows(f"{folder}/{self.map.get(PG_NAMESPACE, PG_NAMESPACE)}", 72):
            self.schemas.setdefault(struct.unpack_from("<I", values)[0], text_of(values, 4))
        found = catalogs.rows(f"{folder}/{self.map.get(PG_CLASS, PG_CLASS)}", 120)
        self.relations = [self.relation(values, visible) for visible, values in found]
        self.by_oid = {}
        for it in self.relations:
            self.by_oid.setdefault(it.oid, it)
        self.owners = {it.toast: it.oid for it in reversed(self.relations) if it.toast}
        if PG_INDEX in self.by_oid:
            for _, values in reversed(catalogs.rows(self.by_oid[PG_INDEX].file, 8)):
                self.owners.update([struct.unpack_from("<2I", values)])

    def relation(self, values, visible):
        oid, = struct.unpack_from("<I", values)
        schema, node, space = *struct.unpack_from("<I", values, 68), *struct.unpack_from("<2I", values, 88)
        late = 4 if self.catalogs.major >= 18 else 0  # relallfrozen
        toast, = struct.unpack_from("<I", values, 108 + late)
        persistence, kind = values[114 + late : 116 + late].decode("latin-1")
        shared = space == GLOBAL_SPACE
        node = node or (self.catalogs.shared_map if shared else self.map).get(oid, 0)
        file = f"{self.catalogs.folder_of(space, self.folder)}/{node}" if node and kind in KINDS else None
        return Relation(oid, text_of(values, 4), schema, file, kind, persistence, toast, visible)

    def label(self, it):
        return f"{quoted(self.schemas.get(it.schema, str(it.schema)))}.{quoted(it.name)}"

    def name(self, it):
        """The name of a relation: that of an index says too what it is an index of."""
        words, oid = [], it.oid
        while oid in self.owners and self.owners[oid] in self.by_oid and len(words) < 3:
            oid = self.owners[oid]
            words.append(self.by_oid[oid])
        of = "".join(f"the {KINDS.get(each.kind, 'relation')} of " for each in words[:-1])
        of = of + self.label(words[-1]) if words else None
        shared = it.file.startswith("global/")
        return Name(None if shared else self.catalogs.database_name(self.folder),
                    self.schemas.get(it.schema, str(it.schema)), it.name, KINDS[it.kind], of)


class Catalogs:
    """folders: all that hold relation files. A database's own folder has a pg_filenode.map."""

    def __init__(self, data, folders, major):
        self.data, self.folders, self.major = data, folders, major
        self.transactions = Transactions(data)
        self.shared_map = self.filenode_map("global")
        self.databases, self.found_names = {}, {}
        self.rows_of_databases = None
        self.homes = [it for it in folders if it != "global" and self.filenode_map(it)]

    def read(self, path):
        """The bytes of a catalog's file. What cannot be read is told by the scan."""
        try:
            with open(f"{self.data}/{path}", "rb") as file:
                return file.read()
        except OSError:
            return b""

    def rows(self, path, least):
        """Each row of so many bytes, those that are visible first: whether it is, and its values."""
        found = [(self.transactions.visible(xmin, xmax, mask), values)
                 for xmin, xmax, mask, values in tuples(self.read(path)) if len(values) >= least]
        return sorted(found, key=lambda it: not it[0])

    def filenode_map(self, folder):
        """The files of the catalogs that have no number in pg_class, by their OIDs."""
        raw = self.read(f"{folder}/pg_filenode.map")
        count = struct.unpack_from("<I", raw, 4)[0] if len(raw) >= 512 else 0
        return dict(struct.unpack_from("<2I", raw, 8 + 8 * it) for it in range(min(count, (len(raw) - 8) // 8)))

    def folder_of(self, space, home):
        """The folder of a tablespace for the database whose own folder is home."""
        database = home.rpartition("/")[2]
        if space == 0:
            return home
        if space in (DEFAULT_SPACE, GLOBAL_SPACE):
            return "global" if space == GLOBAL_SPACE else f"base/{database}"
        version = rf"pg_tblspc/{space}/PG_{self.major}_\d+/{database}"
        found = (it for it in self.folders if re.fullmatch(version, it))
        return next(found, f"pg_tblspc/{space}/PG_{self.major}/{database}")

    def database_rows(self):
        """Of each database by its OID: its name, its default tablespace, and whether it is whole."""
        if self.rows_of_databases is None:
            limit, space = (80, 92) if self.major >= 15 else (208, 224)
            self.rows_of_databases = {}
            for visible, values in self.rows(f"global/{self.shared_map.get(PG_DATABASE, PG_DATABASE)}", space + 4):
                oid, = struct.unpack_from("<I", values)
                whole = visible and struct.unpack_from("<i", values, limit)[0] != -2
                row = text_of(values, 4), struct.unpack_from("<I", values, space)[0], whole
                self.rows_of_databases.setdefault(oid, row)
        return self.rows_of_databases

    def database_name(self, home):
        oid = home.rpartition("/")[2]
        return self.database_rows().get(int(oid), (oid,))[0]

    def database(self, home):
        if home not in self.databases:
            self.databases[home] = Database(self, home)
        return self.databases[home]

    def name_of(self, path):
        """The name of a relation by the path of its first file, or nothing."""
        folder = path.rpartition("/")[0]
        oid = folder.rpartition("/")[2]
        homes = [it for it in self.homes if folder == "global" or it.endswith(f"/{oid}")]
        for home in homes[:1]:
            if home not in self.found_names:
                database = self.database(home)
                files = self.found_names[home] = {}
                for it in database.relations:
                    if it.file:
                        files.setdefault(it.file, (database, it))
            if path in self.found_names[home]:
                database, relation = self.found_names[home][path]
                return database.name(relation)
        return None

    def missing(self, sizes):
        """Each first file that a catalog names and that is not there: its path, and what names it.
        Folders that could not be listed are passed over, and so are temporary relations."""
        seen = set()
        for oid, (name, space, whole) in self.database_rows().items():
            home = f"base/{oid}" if space == DEFAULT_SPACE else self.folder_of(space, f"base/{oid}")
            if whole and home not in self.folders and home.startswith("base/"):
                yield home, f"missing, though pg_database has {quoted(name)}"
        for home in self.homes:
            for it in self.database(home).relations:
                if it.visible and it.file and it.persistence != "t" and it.file not in sizes and it.file not in seen:
                    seen.add(it.file)
                    if it.file.rpartition("/")[0] in self.folders:
                        yield it.file, "missing, though pg_class has it"
