"""What `aioscan --check` writes: a line for each fault, and one of sums where it has read all."""
import collections, re

# file and block: the numbers that the line begins with. text: the words behind them.
Fault = collections.namedtuple("Fault", "file block kind text facts")

# The words of each kind of fault. N is a number, and a fact that has the name of the word before it.
KINDS = {
    "header": "header flags N lower N upper N special N",
    "checksum": "checksum N expected N",
    "lsn": "lsn (?P<lsn>[0-9A-F]+/[0-9A-F]+)",
    "version": "version N",
    "lower": "lower N",
    "item": r"item N (?P<pointer>unused|normal|redirect) (?P<offset>\d+) (?P<length>\d+)",
    "overlap": "item N overlaps N",
    "hoff": "item N hoff N expected N",
    "mask": "item N mask N",
    "xmin": "item N xmin N",
    "xmax": "item N xmax N",
    "misplaced": "misplaced N",
}
PATTERNS = {kind: re.compile(re.sub(r"(\w+) N", r"\1 (?P<\1>\\d+)", words)) for kind, words in KINDS.items()}
FAULT = re.compile(r"fault (\d+) (\d+) (.+)")
SUMS = re.compile(r"pages \d+ new (\d+) faults \d+")


def fault_of(line):
    """The fault that a line tells, or nothing."""
    match = FAULT.fullmatch(line)
    for kind, pattern in PATTERNS.items() if match else ():
        words = pattern.fullmatch(match[3])
        if words:
            facts = {name: int(it) if it.isdigit() else it for name, it in words.groupdict().items()}
            return Fault(int(match[1]), int(match[2]), kind, match[3], facts)
    return None


def read_output(text):
    """The faults, and how many pages are new. That is None where the faults may not be all: else the sums
    stand behind them, and nothing else."""
    lines = text.splitlines()
    faults = [fault for fault in map(fault_of, lines) if fault]
    sums = SUMS.fullmatch(lines[-1]) if len(lines) == len(faults) + 1 else None
    return faults, int(sums[1]) if sums else None
