"""What the tools that measure share: the built program, relations, times, memory, system calls, goals."""
import collections, os, shutil, statistics, subprocess, sys, tempfile, time
from operator import truediv

TOP = os.path.dirname(os.path.dirname(os.path.abspath(__file__)))
PROGRAM = os.environ.get("AIOSCAN") or f"{TOP}/crates/aioscan_main/out/aioscan_main"
ONE = ["--method", "sync", "--backends", "1"]


def make_relation(path, pages):
    """Heap pages of 60 items of 128 bytes, as a server without checksums writes them."""
    header = bytes(10) + b"".join(it.to_bytes(2, "little") for it in (4, 24 + 4 * 60, 8192 - 128 * 60, 8192, 8196)) + bytes(4)
    items = b"".join(((8192 - 128 * (i + 1)) + (1 << 15) + (120 << 17)).to_bytes(4, "little") for i in range(60))
    page = header + items
    page += bytes(8192 - len(page) - 128 * 60) + bytes(range(1, 129)) * 60
    with open(path, "wb") as it:
        for _ in range(pages // 256):
            it.write(page * 256)
        it.write(page * (pages % 256))


def make_mix(folder, path, *counts):
    """A mix of real pages: so many, and where it is given with so many line pointers each."""
    with open(path, "wb") as it:
        subprocess.run([f"{folder}/mix", *map(str, counts)], stdout=it, check=True)


def timed(words, extra={}, to=os.devnull):
    """Runs a command with more variables in its environment: its time and processor time in
    milliseconds."""
    out = os.open(to, os.O_WRONLY | os.O_CREAT | os.O_TRUNC)
    actions = [(os.POSIX_SPAWN_DUP2, out, 1), (os.POSIX_SPAWN_OPEN, 2, os.devnull, os.O_WRONLY, 0)]
    start = time.perf_counter()
    child = os.posix_spawnp(words[0], words, {**os.environ, **extra}, file_actions=actions)
    _, status, used = os.wait4(child, 0)
    spent = time.perf_counter() - start
    os.close(out)
    if status:
        sys.exit(f"{' '.join(words)} ended with {os.waitstatus_to_exitcode(status)}")
    return 1e3 * spent, 1e3 * (used.ru_utime + used.ru_stime)


def in_turn(commands, runs, extra={}, to=os.devnull):
    """Runs all commands so often, in turn: for each its least time, its median time, the median
    processor time, and the medians of its times and processor times beside those of the first
    command in the same turns."""
    found = {name: [] for name in commands}
    for _ in range(runs):
        for name, words in commands.items():
            found[name].append(timed(words, extra, to))
    spent = {name: list(zip(*it)) for name, it in found.items()}
    first, first_cpu = next(iter(spent.values()))
    beside = lambda some, others: statistics.median(map(truediv, some, others))
    return {name: (min(times), statistics.median(times), statistics.median(cpus), beside(times, first), beside(cpus, first_cpu))
            for name, (times, cpus) in spent.items()}


def peak_of(words):
    """The most memory that a command has in KB, by time(1): a child of this process would begin
    with the memory of this one."""
    ended = subprocess.run([shutil.which("time") or sys.exit("time(1) is not installed"), "-f", "%M", *words],
                           stdout=subprocess.DEVNULL, stderr=subprocess.PIPE, check=True)
    return int(ended.stderr.split()[-1])


def system_calls(words):
    """How many system calls of each kind a command makes, or nothing where strace is not installed."""
    if not shutil.which("strace"):
        return collections.Counter()
    with tempfile.NamedTemporaryFile() as log:
        subprocess.run(["strace", "-f", "-c", "-o", log.name, *words], stdout=subprocess.DEVNULL, stderr=subprocess.DEVNULL, check=True)
        rows = [line.split() for line in open(log.name)]
    rows = [row for row in rows if len(row) > 4 and row[3].isdigit() and row[-1] != "total"]
    return collections.Counter({row[-1]: int(row[3]) for row in rows})


def against(figure, goal, is_met):
    """The end of a line: the figure, and the goal with whether it is met."""
    return f"{figure:>9}" + (f"   goal {goal}: {'met' if is_met else 'NOT MET'}" if goal else "")


def at_most(figure, goal, digits=2):
    return against(f"{figure:.{digits}f}", goal and f"{goal:.{digits}f}", goal and figure <= goal)


def at_least(figure, goal):
    return against(f"{figure:.1f}", goal, figure >= goal)


def keep_awake(cpu):
    """A process that keeps this processor busy while nothing else wants it."""
    child = os.fork()
    if child:
        return child
    os.sched_setscheduler(0, os.SCHED_IDLE, os.sched_param(0))
    os.sched_setaffinity(0, {cpu})
    while True:
        pass
