"""Makes the documents' tables of figures.json: those between `<!-- figures: NAME -->` and `<!-- end of figures -->`."""
import re

import figures
import traces

MARKED = re.compile(r"(<!-- figures: ([a-z_ 0-9]+) -->\n).*?(<!-- end of figures -->)", re.DOTALL)
SIZES = ["1000", "100000", "1000000"]


def shown(value, digits=0):
    """A number; with its spread in parentheses if it has one; nothing if it is not known."""
    if value is None:
        return ""
    if isinstance(value, list):
        middle, least, greatest = (f"{one:,.{digits}f}" for one in value)
        return f"{middle} ({least} to {greatest})"
    return f"{value:,.{digits}f}"


def table(head, rows):
    return "\n".join(["| " + " | ".join(head) + " |", "|-" * len(head) + "|", *("| " + " | ".join(row) + " |" for row in rows)])


def requests(kept):
    names = {
        "cached": "`cached`",
        "bivrangd": "`bivrangd`",
        "memcache": "`bivrangd`, memcache",
        "redis": "Redis",
        "memcached": "memcached",
        "plain": "`plain_server`",
    }
    names = {name: said for name, said in names.items() if any(name in of for of in kept["requests"].values())}
    rows = [[*row.split(), *(shown(of.get(name), 1) for name in names)] for row, of in kept["requests"].items()]
    return table(["Connections", "Depth", *names.values()], rows)


def hits(kept):
    names = {"memcache": "`bivrangd`", "memcached": "`memcached -t 1`", "redis": "Redis"}
    rows = [[*row.split(), *(shown(of.get(name), 1) for name in names)] for row, of in kept["hits"].items()]
    return table(["Connections", "Depth", *names.values()], rows)


def waits(kept):
    names = {"bivrangd": "`bivrangd`", "cached": "`cached`", "redis": "Redis"}
    rows = [[said, *(shown(kept["waits"][name][word]) for word in ("half", "one in a hundred"))] for name, said in names.items() if name in kept["waits"]]
    return table(["Server", "Half wait at most", "99 of 100 wait at most"], rows)


def calls(kept):
    def cell(size, work):
        found = [kept["calls"][size].get(f"{name} {work}") for name in ("tiny_lfu", "lru_cache", "caffeine")]
        return ", ".join(shown(value) or "-" for value in found) if found[0] is not None else ""

    works = {"look-up": "gets zipf", "overwrite": "writes zipf", "fetch": "fetches zipf", "bytes per value": "bytes"}
    rows = [[name, *(cell(size, work) for size in SIZES)] for name, work in works.items()]
    return table(["Call", *(f"{int(size):,}" for size in SIZES)], rows)


# How many times the time of `LruCache` a call may take, by the number of values, keys drawn uniformly; by Zipf's law in parentheses.
FACTORS = {
    "look-up": ("tiny_lfu gets", ["5", "2 (3)", "1.4"]),
    "overwrite": ("tiny_lfu writes", ["3.5", "2.3", "1.7"]),
    "fetch": ("tiny_lfu fetches", ["", "", ""]),
    "insert, TinyLFU": ("tiny_lfu inserts", ["2.5", "1.5", "1.5"]),
    "insert, LRU": ("lru inserts", ["2.5", "1.5", "1.5"]),
}


def factors(kept):
    def cell(size, work, goal):
        uniform, zipf = (kept["factors"][size].get(f"{work} {draws}") for draws in ("uniform", "zipf"))
        text = shown(uniform, 1) + (f" ({shown(zipf, 1)})" if zipf is not None else "")
        return text + (f", goal {goal}" if goal else "")

    rows = [[name, *(cell(size, work, goal) for size, goal in zip(SIZES, goals))] for name, (work, goals) in FACTORS.items()]
    return table(["Call", *(f"{int(size):,}" for size in SIZES)], rows)


def longest(kept):
    names = {"look-up": "tiny_lfu gets", "overwrite": "tiny_lfu writes", "insert, TinyLFU": "tiny_lfu inserts", "insert, LRU": "lru inserts"}
    goals = {"10000": "0.3", "900000": "2"}
    rows = [[name, *(shown(kept["longest"][size].get(work), 3) for size in goals)] for name, work in names.items()]
    return table(["Call", *(f"{int(size):,}, goal {goal}" for size, goal in goals.items())], rows)


def instructions(kept):
    goals = {"look-up": 252, "overwrite": 270, "insert that evicts": 480, "shared get": "", "shared get_with": "1.15 times a `get`"}
    rows = [[name, shown(kept["instructions_of_calls"][name]["instructions"]), str(goal)] for name, goal in goals.items()]
    return table(["Call", "Instructions", "Goal"], rows)


def structures(kept):
    names = {
        "keys": "keys by hash: the engine's table with its cells",
        "index_map": "`IndexMap`",
        "cell_slab": "values in places: the engine's slab of cells",
        "slab": "`slab`",
        "vec": "operations that wait: `Vec`, as in the engine",
        "circular_buffer": "`circular_buffer`",
    }
    rows = [[name, *(shown(kept["structures"][which].get(what)) for what in ("find", "swap", "bytes"))] for which, name in names.items()]
    return table(["Structure", "Look-up", "Removal and insertion", "Bytes"], rows)


SHARED_NAMES = {
    "moka": "`Cache`",
    "shards": "`ShardedCache`, 64 shards",
    "caffeine": "Caffeine",
    "lru": "`LruCache` under a lock",
    "pieces": "`LruCache` in 16 pieces",
}


def threads(kept):
    def cell(row, name):
        millions, nanos = row.get(f"{name} millions"), row.get(name)
        return shown(nanos) + (" ns" if nanos is not None else "") + (f", {millions:.1f}" if millions is not None else "")

    rows = [(*name.split(), row) for name, row in kept["threads"].items()]
    measured = [[work, f"{int(size):,}", count, *(cell(row, name) for name in SHARED_NAMES)] for work, size, count, row in rows]
    return table(["Work", "Values", "Threads", *SHARED_NAMES.values()], measured)


def shards(kept):
    counts = sorted({int(name.split()[1]) for row in kept["shards"].values() for name in row})
    rows = [[name, *(shown(row.get(f"{policy} {count}"), 1) for policy in ("tinylfu", "lru") for count in counts)] for name, row in kept["shards"].items()]
    return table(["Trace", *(f"{policy}, {count}" for policy in ("TinyLFU", "LRU") for count in counts)], rows)


def crafted(kept):
    def cell(name):
        return shown(kept["crafted_keys"].get(name, {}).get("us"), 1)

    rows = [
        ["random", cell("server, drawn"), cell("script, drawn")],
        ["crafted against std's hasher without a secret", cell("server, crafted"), ""],
        ["crafted against the script's secret", cell("server, script's"), cell("script, crafted")],
    ]
    return table(["Keys", "`cached --config`, with a random secret", "`cached --script`, with a known secret"], rows)


def policy(kept):
    def time(nanos):
        return "" if nanos is None else f"{nanos / 1000:.1f} us" if nanos >= 1000 else f"{nanos:.0f} ns"

    rows = [[name, *(time(row.get(size)) for size in SIZES)] for name, row in kept["policy"].items()]
    return table(["Operation", *(f"{int(size):,}" for size in SIZES)], rows)


def judge(kept):
    rows = []
    for name, row in kept["judge"].items():
        steps, keys, capacity, *kind = name.split()
        about = f"`{kind[0]}`" if kind else "no capacity" if capacity == "-" else f"capacity {int(capacity):,}"
        rows.append([f"{int(steps):,}", f"{int(keys):,}", about, shown(row["seconds"], 1)])
    return table(["Steps", "Keys or connections", "Kind", "Seconds"], rows)


def server(kept):
    lines, line = kept["million_lines"]["a million lines"]["seconds"], kept["instructions"]["a line"]
    soak, made = kept["soak"]["cached"], kept["calls_made"]["GET a"]
    memory = kept["memory"]["bivrangd: 1,000,000 values of 32 bytes"]
    held = f"{memory['filled']} bytes beside key and value when just filled, {memory['steady']} steady"
    idle, spaces = kept["idle"]["bivrangd"], kept.get("spaces")
    rows = [
        ("million_lines", "`million_lines.py`", f"{shown(lines, 2)} s of processor time", "1 s"),
        ("memory", "`connections.py memory`", f"{held}: a million values of 32 bytes, keys of 16", "90"),
        ("idle", "`connections.py idle`", f"{idle['bytes']} bytes for each of 10,000 idle connections of `bivrangd`; a request over 16 others takes "
         f"{idle['alone']} us without them, {idle['beside']} us with them", "350, and no more"),
        ("soak", "`connections.py soak`", f"at most {soak['first quarter']} MiB in the first quarter of a million requests, {soak['last quarter']} MiB in the last", "flat"),
        ("instructions", "`instructions.py`", f"{shown(line['cached'])} instructions per line, `plain_server` {shown(line['plain_server'])}: "
         f"{line['cached'] / line['plain_server']:.2f} times", "1,400, and 1.25 times"),
        ("calls_made", "`calls.py`", f"a `GET` makes {made['all']} calls, {made['own']} of them to functions of this repository and the kit's crates", ""),
    ]
    if spaces:
        one, two = (figures.middle(spaces[count]["millions"]) for count in ("1", "2"))
        rows.append(("spaces", "`connections.py spaces`", f"{one} million requests a second of one namespace of `bivrangd` with one loop, {two} of two: {two / one:.2f} times", "1.8 times"))
    dated = [[name, kept["measured"][kind].split(",")[0], figure, goal] for kind, name, figure, goal in rows]
    return table(["Benchmark", "Measured", "Figure", "Goal"], dated)


def memory(kept):
    """For each number and length of values what each server holds for one, filled and steady."""
    names = {"bivrangd": "`bivrangd`, lines", "memcache": "`bivrangd`, memcache", "memcached": "memcached", "redis": "Redis"}
    kinds = dict.fromkeys(name.split(": ", 1)[1] for name in kept["memory"])

    def cell(name, kind):
        row = kept["memory"][f"{name}: {kind}"]
        return f"{row['filled']}, {row['steady']}"

    return table(["", *names.values()], [[kind, *(cell(name, kind) for name in names)] for kind in kinds])


def reading(kept):
    row = kept["reading"]["a million steps"]
    return table(["Benchmark", "Figure", "Goal"], [["`reading_transcripts.py`", f"a million steps, {row['megabytes']} MB, in {row['seconds']} s", "10 s"]])


RATIO_NAMES = {"tinylfu": "TinyLFU", "lru": "LRU", "plain lru": "plain LRU", "caffeine": "Caffeine", "corrected": "TinyLFU, odd counts"}


def ratios(kept):
    """For each capacity a table."""
    capacities = sorted({int(name.split()[-1]) for row in kept["hit_ratios"].values() for name in row})
    return "\n\n".join(
        table([f"{capacity:,} values", *RATIO_NAMES.values()],
              [[trace, *(shown(row[f"{name} {capacity}"], 1) for name in RATIO_NAMES)] for trace, row in kept["hit_ratios"].items()])
        for capacity in capacities
    )


def same_memory(kept):
    """For each kind of values a table, with what is held first."""
    names = {"memcached": "memcached", "lru": "`bivrangd`, LRU", "tinylfu": "`bivrangd`, TinyLFU"}
    kinds = [name.removesuffix(" held") for name in kept["same_memory"] if name.endswith(" held")]

    def of_kind(kind):
        row = {what: kept["same_memory"].get(f"{kind} {what}") for what in ("held", "KiB", *traces.TRACES)}
        held = [["values held", *(shown(row["held"][name]) for name in names)], ["MiB more than empty", *(shown(row["KiB"][name] / 1024, 1) for name in names)]]
        ratios = [[trace, *(shown(row[trace][name], 1) for name in names)] for trace in traces.TRACES if row[trace]]
        return table([f"Values of {kind} bytes", *names.values()], [*held, *ratios])

    return "\n\n".join(map(of_kind, kinds))


def sweeps(kept):
    rows = [[f"`{name}`", row["date"], row["figure"]] for name, row in kept["sweeps"].items()]
    return table(["Sweep", "Last run", "What came of it"], rows)


# By the name in a document: the kind whose date is told, and what makes the table.
TABLES = {
    "requests": ("requests", requests),
    "hits": ("hits", hits),
    "waits": ("waits", waits),
    "memory": ("memory", memory),
    "same memory": ("same_memory", same_memory),
    "server": (None, server),
    "calls": ("calls", calls),
    "factors": ("factors", factors),
    "longest": ("longest", longest),
    "instructions": ("instructions_of_calls", instructions),
    "structures": ("structures", structures),
    "threads": ("threads", threads),
    "crafted keys": ("crafted_keys", crafted),
    "policy": ("policy", policy),
    "judge": ("judge", judge),
    "reading": ("reading", reading),
    "hit ratios": ("hit_ratios", ratios),
    "shards": ("shards", shards),
    "sweeps": (None, sweeps),
}


def filled(text):
    """A document with its tables made anew."""
    kept = figures.all_figures()

    def made(found):
        head, name, end = found.groups()
        kind, make = TABLES[name]
        if kind and kind not in kept:
            return f"{head}\nNot measured yet.\n\n{end}"
        date = f"Measured {kept['measured'][kind]}.\n\n" if kind else ""
        return f"{head}\n{date}{make(kept)}\n\n{end}"

    return MARKED.sub(made, text)
