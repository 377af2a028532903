//! A plain program that reads and prints reports and merges histories: what `bench/reports` measures the proved one against. It has the
//! same values and texts and tells where a text goes wrong, and nothing of it is proved.
//!
//!     reports LOCK RANKS REPORT read|print|merge ROUNDS

use std::io::Write;

#[derive(Clone, Copy, PartialEq)]
enum Call {
    Put(u64, u64),
    Get(u64),
    Del(u64),
    Add(u64, u64),
    Cas(u64, u64, u64),
    Hold(u32),
}

#[derive(Clone, Copy, PartialEq)]
enum Reply {
    New,
    Was(u64),
    Full,
    Val(u64),
    Nothing,
    Sum(u64),
    Over(u64),
    No(u64),
    Held,
    Undone,
}

#[derive(Clone, Copy, PartialEq)]
struct Entry {
    at: u32,
    rank: u32,
    seq: u32,
    call: Call,
    reply: Reply,
    batch: u32,
    part: u32,
}

enum Event {
    Join(u32, u32),
    Announce(u32),
    Pass(u32, u32),
    Settle(u32, u32),
    EnterW(u32),
    EnterR(u32),
    LeaveW(u32),
    LeaveR(u32),
}

struct Shard {
    updates: u32,
    entries: Vec<Entry>,
    tallies: Vec<(u64, u64)>,
    pairs: Vec<(u64, u64)>,
    events: Vec<(u32, Event)>,
}

struct Report {
    shards: Vec<Shard>,
    done: Vec<(u32, u32)>,
    steps: Option<[u32; 5]>,
}

struct Queue {
    name: &'static str,
    parent: Option<u32>,
    of_ranks: bool,
}

struct Naming {
    lock: String,
    ranks: u32,
    queues: Vec<Queue>,
}

/// A lock of no queue, or a tree of two nodes; one shard.
fn naming(lock: &str, ranks: u32) -> Naming {
    let queue = |name, parent, of_ranks| Queue { name, parent, of_ranks };
    let queues = match lock {
        "mcs" => vec![queue("root", None, false), queue("0", Some(0), true), queue("1", Some(0), true)],
        _ => vec![],
    };
    Naming { lock: lock.to_string(), ranks, queues }
}

// ---- reading

/// Where a text goes wrong: its line and word.
type Place = (u32, u32);

struct Lines<'a> {
    rest: &'a [u8],
    line: u32,
}

struct Words<'a> {
    rest: Option<&'a [u8]>,
    line: u32,
    word: u32,
}

impl<'a> Lines<'a> {
    fn next(&mut self) -> Result<Words<'a>, Place> {
        self.line += 1;
        let end = self.rest.iter().position(|b| *b == b'\n').ok_or((self.line, 0))?;
        let words = Words { rest: Some(&self.rest[..end]), line: self.line, word: 0 };
        self.rest = &self.rest[end + 1..];
        Ok(words)
    }

    fn begins(&self, name: &[u8]) -> bool {
        self.rest.starts_with(name) && matches!(self.rest.get(name.len()), Some(b' ' | b'\n'))
    }
}

impl<'a> Words<'a> {
    fn here(&self) -> Place {
        (self.line, self.word)
    }

    fn word(&mut self) -> Result<&'a [u8], Place> {
        self.word += 1;
        let rest = self.rest.ok_or(self.here())?;
        match rest.iter().position(|b| *b == b' ') {
            Some(end) => {
                self.rest = Some(&rest[end + 1..]);
                Ok(&rest[..end])
            }
            None => {
                self.rest = None;
                Ok(rest)
            }
        }
    }

    fn fixed(&mut self, text: &[u8]) -> Result<(), Place> {
        if self.word()? == text { Ok(()) } else { Err(self.here()) }
    }

    fn number(&mut self) -> Result<u64, Place> {
        let word = self.word()?;
        if word.is_empty() || (word[0] == b'0' && word.len() > 1) {
            return Err(self.here());
        }
        word.iter()
            .try_fold(0u64, |n, b| {
                let digit = b.wrapping_sub(b'0');
                if digit > 9 { None } else { n.checked_mul(10)?.checked_add(u64::from(digit)) }
            })
            .ok_or(self.here())
    }

    fn below(&mut self, limit: u32) -> Result<u32, Place> {
        let n = self.number()?;
        if n < u64::from(limit) { Ok(n as u32) } else { Err(self.here()) }
    }

    fn exactly(&mut self, n: u64) -> Result<(), Place> {
        if self.number()? == n { Ok(()) } else { Err(self.here()) }
    }

    fn end(&self) -> Result<(), Place> {
        if self.rest.is_none() { Ok(()) } else { Err((self.line, self.word + 1)) }
    }
}

fn read_call(w: &mut Words) -> Result<Call, Place> {
    Ok(match w.word()? {
        b"put" => Call::Put(w.number()?, w.number()?),
        b"get" => Call::Get(w.number()?),
        b"del" => Call::Del(w.number()?),
        b"add" => Call::Add(w.number()?, w.number()?),
        b"cas" => Call::Cas(w.number()?, w.number()?, w.number()?),
        b"hold" => Call::Hold(w.below(1)?),
        _ => return Err(w.here()),
    })
}

fn read_reply(w: &mut Words) -> Result<Reply, Place> {
    Ok(match w.word()? {
        b"new" => Reply::New,
        b"was" => Reply::Was(w.number()?),
        b"full" => Reply::Full,
        b"val" => Reply::Val(w.number()?),
        b"none" => Reply::Nothing,
        b"sum" => Reply::Sum(w.number()?),
        b"over" => Reply::Over(w.number()?),
        b"no" => Reply::No(w.number()?),
        b"held" => Reply::Held,
        b"undone" => Reply::Undone,
        _ => return Err(w.here()),
    })
}

fn read_part(w: &mut Words) -> Result<(u32, u32), Place> {
    if w.rest.is_none() {
        return Ok((0, 0));
    }
    w.fixed(b"part")?;
    let part = w.below(8)?;
    w.fixed(b"of")?;
    let batch = w.below(9)?;
    if batch < 2 || part >= batch {
        return Err(w.here());
    }
    w.end()?;
    Ok((batch, part))
}

fn read_entry(naming: &Naming, mut w: Words) -> Result<Entry, Place> {
    w.fixed(b"entry")?;
    let at = w.below(20_001)?;
    let rank = w.below(naming.ranks)?;
    let seq = w.below(20_000)?;
    let call = read_call(&mut w)?;
    w.fixed(b"=")?;
    let reply = read_reply(&mut w)?;
    let (batch, part) = read_part(&mut w)?;
    Ok(Entry { at, rank, seq, call, reply, batch, part })
}

fn read_in_queue(naming: &Naming, w: &mut Words) -> Result<(u32, u32), Place> {
    let name = w.word()?;
    let queue = naming.queues.iter().position(|q| q.name.as_bytes() == name).ok_or(w.here())?;
    if naming.queues[queue].of_ranks {
        return Ok((queue as u32, w.below(naming.ranks)?));
    }
    let name = w.word()?;
    let below = |q: &Queue| q.parent == Some(queue as u32) && q.name.as_bytes() == name;
    let member = naming.queues.iter().position(below).ok_or(w.here())?;
    Ok((queue as u32, member as u32))
}

fn read_event(naming: &Naming, mut w: Words, least: u32) -> Result<(u32, Event), Place> {
    w.fixed(b"event")?;
    let step = w.below(2_000_000)?;
    if step < least {
        return Err(w.here());
    }
    let event = match w.word()? {
        b"join" => read_in_queue(naming, &mut w).map(|(q, m)| Event::Join(q, m))?,
        b"announce" => match w.word()? {
            b"local" if naming.lock == "alock" => Event::Announce(1),
            b"remote" if naming.lock == "alock" => Event::Announce(2),
            _ => return Err(w.here()),
        },
        b"pass" => read_in_queue(naming, &mut w).map(|(q, m)| Event::Pass(q, m))?,
        b"settle" => read_in_queue(naming, &mut w).map(|(q, m)| Event::Settle(q, m))?,
        b"enter-w" => Event::EnterW(w.below(naming.ranks)?),
        b"enter-r" => Event::EnterR(w.below(naming.ranks)?),
        b"leave-w" => Event::LeaveW(w.below(naming.ranks)?),
        b"leave-r" => Event::LeaveR(w.below(naming.ranks)?),
        _ => return Err(w.here()),
    };
    w.end()?;
    Ok((step, event))
}

fn read_pairs(lines: &mut Lines) -> Result<Vec<(u64, u64)>, Place> {
    let mut pairs: Vec<(u64, u64)> = vec![];
    while lines.begins(b"pair") {
        let mut w = lines.next()?;
        w.fixed(b"pair")?;
        let key = w.number()?;
        if pairs.last().is_some_and(|last| last.0 >= key) {
            return Err(w.here());
        }
        pairs.push((key, w.number()?));
        w.end()?;
    }
    Ok(pairs)
}

fn read_shard(naming: &Naming, lines: &mut Lines, replay: bool) -> Result<Shard, Place> {
    let mut w = lines.next()?;
    w.fixed(b"shard")?;
    w.exactly(0)?;
    w.fixed(b"updates")?;
    let updates = w.below(20_001)?;
    w.fixed(b"entries")?;
    let count = w.below(20_001)?;
    w.end()?;
    let mut shard = Shard { updates, entries: vec![], tallies: vec![], pairs: vec![], events: vec![] };
    for _ in 0..count {
        shard.entries.push(read_entry(naming, lines.next()?)?);
    }
    for queue in &naming.queues {
        let mut w = lines.next()?;
        w.fixed(b"queue")?;
        w.fixed(queue.name.as_bytes())?;
        w.fixed(b"settled")?;
        let settled = w.number()?;
        w.fixed(b"passed")?;
        shard.tallies.push((settled, w.number()?));
        w.end()?;
    }
    if !replay {
        shard.pairs = read_pairs(lines)?;
        return Ok(shard);
    }
    let mut least = 0;
    while lines.begins(b"event") {
        let event = read_event(naming, lines.next()?, least)?;
        least = event.0;
        shard.events.push(event);
    }
    Ok(shard)
}

fn read_steps(mut w: Words) -> Result<[u32; 5], Place> {
    w.fixed(b"steps")?;
    let all = w.below(2_000_001)?;
    let mut steps = [0; 5];
    for (name, n) in ["moved", "waiting", "lost", "busy", "finished"].iter().zip(&mut steps) {
        w.fixed(name.as_bytes())?;
        *n = w.below(2_000_001)?;
    }
    if steps.iter().sum::<u32>() != all {
        return Err((w.line, 2));
    }
    w.end()?;
    Ok(steps)
}

fn read_report(naming: &Naming, bytes: &[u8]) -> Result<Report, Place> {
    let mut lines = Lines { rest: bytes, line: 0 };
    let mut w = lines.next()?;
    w.fixed(b"rmalock-report")?;
    w.fixed(b"2")?;
    w.end()?;
    let mut w = lines.next()?;
    let replay = match w.word()? {
        b"replay" => true,
        b"run" => false,
        _ => return Err(w.here()),
    };
    w.fixed(naming.lock.as_bytes())?;
    w.end()?;
    let mut w = lines.next()?;
    w.fixed(b"ranks")?;
    w.exactly(u64::from(naming.ranks))?;
    w.fixed(b"shards")?;
    w.exactly(1)?;
    w.end()?;
    let shards = vec![read_shard(naming, &mut lines, replay)?];
    let mut done = vec![];
    for rank in 0..naming.ranks {
        let mut w = lines.next()?;
        w.fixed(b"rank")?;
        w.exactly(u64::from(rank))?;
        w.fixed(b"done")?;
        let ended = w.below(20_001)?;
        w.fixed(b"of")?;
        done.push((ended, w.below(20_001)?));
        w.end()?;
    }
    let steps = if replay { Some(read_steps(lines.next()?)?) } else { None };
    let mut w = lines.next()?;
    w.fixed(b"end")?;
    w.end()?;
    if lines.rest.is_empty() { Ok(Report { shards, done, steps }) } else { Err((lines.line + 1, 0)) }
}

// ---- printing

fn put(out: &mut Vec<u8>, text: &str) {
    out.extend_from_slice(text.as_bytes());
}

fn put_number(out: &mut Vec<u8>, mut n: u64) {
    let mut digits = [0u8; 20];
    let mut from = 20;
    loop {
        from -= 1;
        digits[from] = b'0' + (n % 10) as u8;
        n /= 10;
        if n == 0 {
            break;
        }
    }
    out.extend_from_slice(&digits[from..]);
}

fn put_after(out: &mut Vec<u8>, text: &str, n: u64) {
    put(out, text);
    put_number(out, n);
}

fn put_entry(out: &mut Vec<u8>, entry: &Entry) {
    put_after(out, "entry ", u64::from(entry.at));
    put_after(out, " ", u64::from(entry.rank));
    put_after(out, " ", u64::from(entry.seq));
    let (name, numbers): (&str, &[u64]) = match &entry.call {
        Call::Put(k, v) => (" put ", &[*k, *v]),
        Call::Get(k) => (" get ", &[*k]),
        Call::Del(k) => (" del ", &[*k]),
        Call::Add(k, v) => (" add ", &[*k, *v]),
        Call::Cas(k, v, w) => (" cas ", &[*k, *v, *w]),
        Call::Hold(k) => (" hold ", &[u64::from(*k)]),
    };
    put_after(out, name, numbers[0]);
    for n in &numbers[1..] {
        put_after(out, " ", *n);
    }
    match entry.reply {
        Reply::New => put(out, " = new"),
        Reply::Was(v) => put_after(out, " = was ", v),
        Reply::Full => put(out, " = full"),
        Reply::Val(v) => put_after(out, " = val ", v),
        Reply::Nothing => put(out, " = none"),
        Reply::Sum(v) => put_after(out, " = sum ", v),
        Reply::Over(v) => put_after(out, " = over ", v),
        Reply::No(v) => put_after(out, " = no ", v),
        Reply::Held => put(out, " = held"),
        Reply::Undone => put(out, " = undone"),
    }
    if entry.batch > 0 {
        put_after(out, " part ", u64::from(entry.part));
        put_after(out, " of ", u64::from(entry.batch));
    }
    out.push(b'\n');
}

fn put_in_queue(out: &mut Vec<u8>, naming: &Naming, name: &str, queue: u32, member: u32) {
    put(out, name);
    let queue = &naming.queues[queue as usize];
    put(out, queue.name);
    out.push(b' ');
    if queue.of_ranks {
        put_number(out, u64::from(member));
    } else {
        put(out, naming.queues[member as usize].name);
    }
}

fn put_event(out: &mut Vec<u8>, naming: &Naming, step: u32, event: &Event) {
    put_after(out, "event ", u64::from(step));
    match event {
        Event::Join(q, m) => put_in_queue(out, naming, " join ", *q, *m),
        Event::Announce(c) => put(out, if *c == 1 { " announce local" } else { " announce remote" }),
        Event::Pass(q, m) => put_in_queue(out, naming, " pass ", *q, *m),
        Event::Settle(q, m) => put_in_queue(out, naming, " settle ", *q, *m),
        Event::EnterW(k) => put_after(out, " enter-w ", u64::from(*k)),
        Event::EnterR(k) => put_after(out, " enter-r ", u64::from(*k)),
        Event::LeaveW(k) => put_after(out, " leave-w ", u64::from(*k)),
        Event::LeaveR(k) => put_after(out, " leave-r ", u64::from(*k)),
    }
    out.push(b'\n');
}

fn put_shard(out: &mut Vec<u8>, naming: &Naming, shard: &Shard) {
    put_after(out, "shard 0 updates ", u64::from(shard.updates));
    put_after(out, " entries ", shard.entries.len() as u64);
    out.push(b'\n');
    for entry in &shard.entries {
        put_entry(out, entry);
    }
    for (queue, tally) in naming.queues.iter().zip(&shard.tallies) {
        put(out, "queue ");
        put(out, queue.name);
        put_after(out, " settled ", tally.0);
        put_after(out, " passed ", tally.1);
        out.push(b'\n');
    }
    for (key, value) in &shard.pairs {
        put_after(out, "pair ", *key);
        put_after(out, " ", *value);
        out.push(b'\n');
    }
    for (step, event) in &shard.events {
        put_event(out, naming, *step, event);
    }
}

fn report_text(naming: &Naming, report: &Report) -> Vec<u8> {
    let mut out = vec![];
    put(&mut out, "rmalock-report 2\n");
    put(&mut out, if report.steps.is_some() { "replay " } else { "run " });
    put(&mut out, &naming.lock);
    put_after(&mut out, "\nranks ", u64::from(naming.ranks));
    put(&mut out, " shards 1\n");
    for shard in &report.shards {
        put_shard(&mut out, naming, shard);
    }
    for (rank, done) in report.done.iter().enumerate() {
        put_after(&mut out, "rank ", rank as u64);
        put_after(&mut out, " done ", u64::from(done.0));
        put_after(&mut out, " of ", u64::from(done.1));
        out.push(b'\n');
    }
    if let Some(steps) = &report.steps {
        put_after(&mut out, "steps ", steps.iter().map(|n| u64::from(*n)).sum());
        for (name, n) in [" moved ", " waiting ", " lost ", " busy ", " finished "].iter().zip(steps) {
            put_after(&mut out, name, u64::from(*n));
        }
        out.push(b'\n');
    }
    put(&mut out, "end\n");
    out
}

// ---- the history

fn is_update(call: &Call) -> bool {
    !matches!(call, Call::Get(_) | Call::Hold(_))
}

fn merge(journal: &[Entry], transcripts: &[Vec<Entry>]) -> Vec<Entry> {
    let mut reads: Vec<Entry> = transcripts.iter().flatten().filter(|e| !is_update(&e.call)).copied().collect();
    reads.sort_by_key(|e| e.at);
    let mut reads = reads.into_iter().peekable();
    let mut history = vec![];
    for (place, update) in journal.iter().enumerate() {
        while let Some(read) = reads.next_if(|e| e.at as usize <= place) {
            history.push(read);
        }
        history.push(*update);
    }
    history.extend(reads);
    history
}

fn merge_often(report: &Report, rounds: u32) {
    for shard in &report.shards {
        let journal: Vec<Entry> = shard.entries.iter().filter(|e| is_update(&e.call)).copied().collect();
        let mut transcripts = vec![vec![]; report.done.len()];
        for entry in &shard.entries {
            transcripts[entry.rank as usize].push(*entry);
        }
        for _ in 0..rounds {
            assert!(merge(&journal, &transcripts) == shard.entries);
        }
    }
}

fn main() {
    let words: Vec<String> = std::env::args().collect();
    let naming = naming(&words[1], words[2].parse().unwrap());
    let bytes = std::fs::read(&words[3]).unwrap();
    let rounds: u32 = words[5].parse().unwrap();
    let mut report = read_report(&naming, &bytes).unwrap();
    if words[4] == "read" {
        for _ in 1..rounds {
            report = std::hint::black_box(read_report(&naming, &bytes).unwrap());
        }
    }
    if words[4] == "merge" {
        merge_often(&report, rounds);
    }
    let mut text = report_text(&naming, &report);
    if words[4] == "print" {
        for _ in 1..rounds {
            text = std::hint::black_box(report_text(&naming, &report));
        }
    }
    std::io::stdout().write_all(&text).unwrap();
}
