#!/usr/bin/env python3
"""A sketch drawn a second time, slowly: over what rmalock-steps and rmalock-state write of replays, and with nothing of rl_sketch.

Who knows that a step of a rank shows something asks for the replay with that step behind the turns so far. So a sight is looked up in the line of a listing;
`done` in the state before and behind the step; and no call of a rank is open where its next step opens one, or is `finished`.
"""
import re
import subprocess

MOST_STEPS = 2_000_000
# A rank that is stepped alone shows what it ever shows within so many steps, in the small cases that are tried.
LONG = 120
# Ranks that go in turn hinder each other: who shows it shows it within so many steps of each.
LONG_IN_TURN = 400


class Never(Exception):
    """A line that comes to no end."""


class Replays:
    """The replays of a placement and calls."""

    def __init__(self, steps, state, place, calls):
        self.steps_program, self.state_program = steps, state
        self.place, self.calls = place, calls
        with open(place) as file:
            self.ranks = len(re.findall(r'^rank ', file.read(), re.M))

    def run(self, program, turns, words):
        text = 'rmalock-schedule 1\n' + ''.join(f'{rank} {count}\n' for rank, count in turns) + 'end\n'
        done = subprocess.run([program, self.place, self.calls, '/dev/stdin', *map(str, words)], input=text, capture_output=True, text=True)
        if done.returncode:
            raise RuntimeError(f'{program}: {done.stdout}{done.stderr}')
        return done.stdout.split('\n')

    def lines(self, turns, first, count):
        """The words of so many steps from one on, without their numbers and ranks, and without the listing's `out`."""
        shown = self.run(self.steps_program, turns, (first, first + count))[2:-2]
        return [line.split(' ')[3:] for line in shown]

    def counts(self, turns, step, rank):
        """How many calls the rank has opened before a step, and how many are done."""
        for line in self.run(self.state_program, turns, (step,)):
            words = line.split(' ')
            if words[0] == 'rank' and words[1] == str(rank):
                return int(words[5]), int(words[7])
        raise RuntimeError('no such rank')


def total(turns):
    return sum(count for _, count in turns)


def side_by_side(sought, words):
    return any(words[at:at + len(sought)] == sought for at in range(len(words)))


class Drawing:
    """A drawing: the turns so far, with what is known of the ranks."""

    def __init__(self, replays):
        self.replays, self.turns, self.stopped = replays, [], []
        self.out = []

    def steps_of(self, rank, most):
        """The words of the next steps of a rank, were it stepped alone."""
        first = total(self.turns)
        return self.replays.lines(self.turns + [(rank, most)], first, most)

    def opens_next(self, rank, made):
        """Whether no call of the rank is open after so many steps of it alone: its next step opens one, or is `finished`."""
        turns = self.turns + [(rank, made + 1)]
        at = total(turns) - 1
        if self.replays.lines(turns, at, 1)[0][0] == 'finished':
            return True
        return self.replays.counts(turns, at + 1, rank)[0] > self.replays.counts(turns, at, rank)[0]

    def is_over(self, rank, made):
        """Whether the rank's step behind so many of it alone is `finished`."""
        turns = self.turns + [(rank, made + 1)]
        return self.replays.lines(turns, total(turns) - 1, 1)[0][0] == 'finished'

    def shows(self, rank, made, words, sight):
        """Whether the step of the rank behind so many of it alone, which has these words, shows the sight."""
        if sight == ['done']:
            turns, at = self.turns + [(rank, made + 1)], total(self.turns) + made
            return self.replays.counts(turns, at + 1, rank)[1] != self.replays.counts(turns, at, rank)[1]
        if sight == ['out']:
            return self.opens_next(rank, made + 1)
        if sight == ['over']:
            return self.is_over(rank, made + 1)
        return side_by_side(sight, words)

    def first(self, rank, sight):
        """How many steps the rank makes before the one that shows the sight."""
        for made, words in enumerate(self.steps_of(rank, LONG)):
            if self.shows(rank, made, words, sight):
                return made
            # A rank whose calls are over does the same for ever.
            if words[0] == 'finished':
                break
        raise Never

    def add(self, rank, count):
        if total(self.turns) + count > MOST_STEPS:
            raise Never
        self.turns.append((rank, count))
        self.out.append(f'{rank} {count}')

    def in_turn(self, ranks, sight):
        waiting, laps = list(ranks), 0
        while waiting:
            rank = waiting.pop(0)
            words = self.steps_of(rank, 1)[0]
            shown = self.shows(rank, 0, words, sight)
            self.add(rank, 1)
            if not shown:
                waiting.append(rank)
            laps += 1
            if laps > LONG_IN_TURN * self.replays.ranks:
                raise Never

    def at_random(self, ranks, seed, count):
        state = seed % 2**31
        for _ in range(count):
            state = (state * 1103515245 + 12345) % 2**31
            self.add(ranks[state // 65536 % len(ranks)], 1)

    def course(self, ranks, words):
        match words:
            case ['until', *sight]:
                for rank in ranks:
                    self.add(rank, self.first(rank, sight) + 1)
            case ['before', *sight]:
                for rank in ranks:
                    self.add(rank, self.first(rank, sight))
            case ['in', 'turn', 'until', *sight]:
                self.in_turn(ranks, sight)
            case ['in', 'turn', count]:
                for _ in range(int(count)):
                    for rank in ranks:
                        self.add(rank, 1)
            case ['at', 'random', seed, count]:
                self.at_random(ranks, int(seed), int(count))
            case [count]:
                for rank in ranks:
                    self.add(rank, int(count))

    def line(self, line):
        if not line or line.startswith('#'):
            return
        words = line.split(' ')
        going = [rank for rank in range(self.replays.ranks) if rank not in self.stopped]
        if words == ['all', 'until', 'done']:
            self.in_turn([rank for rank in going if not self.is_over(rank, 0)], ['over'])
            return
        stops = words[0] == 'stop'
        if stops:
            words = words[1:]
        if words[0] == 'all':
            ranks, rest = going, words[1:]
        else:
            numbers = 0
            while numbers < len(words) and words[numbers].isdigit():
                numbers += 1
            if not stops and numbers == len(words):
                numbers -= 1
            ranks, rest = [int(word) for word in words[:numbers]], words[numbers:]
        if stops:
            self.stopped += ranks
            self.out += [f'stop {rank}' for rank in ranks]
        else:
            self.course(ranks, rest)


def drawn(replays, text):
    """The schedule of a sketch, or the number of the line that comes to no end."""
    drawing = Drawing(replays)
    for number, line in enumerate(text.split('\n')[1:-2], 2):
        try:
            drawing.line(line)
        except Never:
            return number
    return 'rmalock-schedule 1\n' + ''.join(line + '\n' for line in drawing.out) + 'end\n'
