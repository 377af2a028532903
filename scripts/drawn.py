"""drawn: placements, calls and schedules that are drawn at random, for the scripts that try many of them."""

LOCKS = ["spin", "dmcs", "alock", "mcs", "rw", "seq", "combine"]
MOST = 2**64 - 1


def one_of_sizes(draw, most):
    """A number from 1 to most: small ones mostly."""
    return draw.randint(1, draw.choice([min(most, 3), min(most, 30), most]))


def place(draw, lock):
    """The lines of a placement, its ranks, its shards."""
    levels, ranks, shards = draw.randint(1, 3), draw.choice([1, 2, 3, 4, 6, 8, 16, 32]), draw.choice([1, 1, 2, 3, 4, 16])
    budget = lambda: draw.choice([0, 1, 2, 4, 1000])
    lines = ["rmalock-place 1", "levels %d" % levels, "lock " + lock]
    if lock in ("alock", "seq", "combine"):
        lines.append("budget %d %d" % (budget(), budget()))
    if lock in ("mcs", "rw"):
        lines.append(" ".join(["budget"] + ["%d" % budget() for _ in range(levels)]))
    if lock == "rw":
        lines += ["writers %d" % budget(), "readers %d" % draw.choice([1, 2, 16, 1000]), "group %d" % draw.choice([1, 2, 8, 32])]
    lines += ["shards %d" % shards, "buckets %d" % one_of_sizes(draw, 64), "overflow %d" % (one_of_sizes(draw, 65) - 1)]
    width = draw.randint(1, 4)
    paths = [".".join("%d" % draw.choice([0, 1, 7, 999][:width]) for _ in range(levels)) for _ in range(ranks)]
    lines += ["rank %d at %s" % it for it in enumerate(paths)]
    lines += ["home %d %s" % (shard, draw.choice(paths)) for shard in range(shards)]
    return lines + ["end"], ranks, shards


def update(draw, key):
    """A call that may change the value of a key."""
    value = lambda: draw.choice([0, 1, draw.randrange(100), draw.randrange(100), MOST, MOST - 1])
    kind = draw.choice(["put", "put", "put", "add", "cas", "del"])
    arguments = {"put": 1, "add": 1, "cas": 2, "del": 0}[kind]
    return " ".join([kind, "%d" % key] + ["%d" % value() for _ in range(arguments)])


def calls(draw, lock, ranks, shards, most):
    """The lines of calls: some of them in batches, which flat combining doesn't do."""
    count = draw.choice([0, 1, one_of_sizes(draw, 300), one_of_sizes(draw, 300), one_of_sizes(draw, most)])
    keys, gets, batches = one_of_sizes(draw, 400), draw.random(), draw.random() * 0.4 if lock != "combine" and draw.random() < 0.5 else 0
    key_of = lambda shard: shard + shards * draw.randrange(keys)
    lines, made = ["rmalock-calls 2" if batches else "rmalock-calls 1"], 0
    while made < count:
        rank, shard, size = draw.randrange(ranks), draw.randrange(shards), draw.randint(2, 8)
        if draw.random() < batches and made + size <= count:
            lines.append("%d batch %d" % (rank, size))
            lines += ["%d %s" % (rank, update(draw, key_of(shard))) for _ in range(size)]
            made += size
            continue
        kind = draw.random()
        key = draw.choice([key_of(shard), key_of(shard), key_of(shard), MOST - shard])
        lines.append("%d %s" % (rank, "hold %d" % shard if kind < 0.15 else "get %d" % key if kind < gets else update(draw, key)))
        made += 1
    return lines + ["end"]


def schedule(draw, ranks, most, may_stop=True):
    """The lines of a schedule: turns at random, of one step, in turn, or long, and now and then a rank that stops, where one may."""
    left = draw.choice([0, one_of_sizes(draw, 3000), one_of_sizes(draw, 3000), one_of_sizes(draw, most // 10), one_of_sizes(draw, most)])
    longest, at_random, stops = draw.choice([1, 7, 7, 40, 1000, most]), draw.random() < 0.8, draw.random() < 0.3 and may_stop
    lines, going, turn = ["rmalock-schedule 1"], list(range(ranks)), 0
    while left > 0:
        rank = draw.choice(going) if at_random else going[turn % len(going)]
        count = min(left, draw.randint(0 if draw.random() < 0.01 else 1, longest))
        lines.append("%d %d" % (rank, count))
        left, turn = left - count, turn + 1
        if stops and len(going) > 1 and draw.random() < 0.01:
            lines.append("stop %d" % going.pop(draw.randrange(len(going))))
    return lines + ["end"]
