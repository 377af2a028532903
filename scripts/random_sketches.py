"""Random placements, calls and sketches, each made from a number."""
import os
import random

LOCKS = {
    "spin": [], "dmcs": [],
    "alock": ["budget 1 2"], "seq": ["budget 2 1"], "combine": ["budget 1 1"],
    "mcs": ["budget 1"], "rw": ["budget 1", "writers 1", "readers 2", "group 2"],
}
CALLS = ("put {key} {value}", "get {key}", "del {key}", "add {key} {value}", "cas {key} {value} 3", "hold {shard}")
EVENTS = ("join", "announce", "pass", "settle", "enter-w", "enter-r", "leave-w", "leave-r", "enter-w 0", "join local", "join root", "settle root 0", "pass 0")
ATOMS = ("load", "store", "local-cas", "take", "card-load", "card-store", "leave", "take card 0", "leave card 1", "load count", "load victim", "store status 1",
         "store next 0", "card-store tail", "load state 0 = 0", "card-load word = 0", "store count := 1")
ANSWERS = ("moved", "waiting", "lost", "busy", "finished", "lost 0", "busy 1", "moved event enter-w")


def placement(chance, ranks, shards):
    lock = chance.choice(sorted(LOCKS))
    nodes = [chance.randrange(2) for _ in range(ranks)]
    lines = ["rmalock-place 1", "levels 1", "lock " + lock, *LOCKS[lock], "shards %d" % shards, "buckets 1", "overflow 1"]
    lines += ["rank %d at %d" % rank for rank in enumerate(nodes)]
    lines += ["home %d %d" % (shard, chance.choice(nodes)) for shard in range(shards)]
    return lines + ["end"]


def calls_of(chance, ranks, shards):
    lines = ["rmalock-calls 1"]
    for _ in range(chance.randint(1, 2 * ranks + 1)):
        call = chance.choice(CALLS).format(key=chance.randrange(3), value=chance.randrange(3), shard=chance.randrange(shards))
        lines.append("%d %s" % (chance.randrange(ranks), call))
    return lines + ["end"]


def sight(chance):
    return chance.choice((*EVENTS, *ATOMS, *ANSWERS, "done", "done", "out", "out", "out"))


def course(chance):
    return chance.choice((
        str(chance.randrange(8)), "until " + sight(chance), "until " + sight(chance), "before " + sight(chance), "in turn %d" % chance.randrange(5),
        "in turn until " + sight(chance), "at random %d %d" % (chance.getrandbits(64), chance.randrange(12)),
    ))


def line(chance, going):
    """A line, and the ranks that it stops."""
    kind = chance.randrange(12)
    some = chance.sample(going, chance.randint(1, len(going)))
    which = chance.choice((" ".join(map(str, some)), str(some[0]), str(some[0]), "all"))
    if kind == 0:
        return chance.choice(("", "#", "# 0 until done", "#end")), []
    if kind == 1:
        return "all until done", []
    if kind == 2 and len(going) > 1:
        return "stop %d" % some[0], some[:1]
    return which + " " + course(chance), []


def sketch_of(chance, ranks):
    going, lines = list(range(ranks)), ["rmalock-sketch 1"]
    for _ in range(chance.randint(1, 8)):
        text, stopped = line(chance, going)
        lines.append(text)
        going = [rank for rank in going if rank not in stopped]
    return lines + ["end"]


def write_case(folder, number):
    """Writes a placement, calls and a sketch, and gives the three paths."""
    chance = random.Random(number)
    ranks, shards = chance.randint(1, 4), chance.choice((1, 1, 2))
    texts = placement(chance, ranks, shards), calls_of(chance, ranks, shards), sketch_of(chance, ranks)
    paths = [os.path.join(folder, name) for name in ("place", "calls", "sketch")]
    for path, lines in zip(paths, texts):
        write_lines(path, lines)
    return paths


def write_lines(path, lines):
    with open(path, "w") as file:
        file.write("".join(it + "\n" for it in lines))
