//! Reports, printed and read. FORMATS in `docs/` has their grammar.

use crate::machine::*;
use crate::model::*;
use crate::text::*;

/// An event, with its step.
#[derive(Clone, Copy)]
pub struct Ev { pub step: u32, pub kind: u8, pub queue: u8, pub member: u8 }

/// Where an entry stands in a shard's history: a smaller key comes first.
#[inline]
pub fn key_of(at: u32, update: bool, rank: u32, seq: u32) -> u64 {
    (at as u64) << 24 | (update as u64) << 23 | (rank as u64) << 16 | seq as u64
}

pub fn put_call(o: &mut Vec<u8>, c: &Call) {
    put(o, match c.kind {
        PUT => "put ",
        DEL => "del ",
        ADD => "add ",
        CAS => "cas ",
        GET => "get ",
        _ => "hold ",
    });
    put_num(o, c.key);
    if matches!(c.kind, PUT | ADD | CAS) {
        o.push(b' ');
        put_num(o, c.a);
    }
    if c.kind == CAS {
        o.push(b' ');
        put_num(o, c.b);
    }
}

pub fn head(o: &mut Vec<u8>, place: &Place, mode: &str) {
    put(o, "rmalock-report 2\n");
    put(o, mode);
    put(o, place.lock.name());
    put_kv(o, "\nranks ", place.ranks() as u64);
    put_kv(o, " shards ", place.shards as u64);
    o.push(b'\n');
}

/// The lines of a shard up to its queues.
pub fn shard(o: &mut Vec<u8>, place: &Place, ops: &Ops, i: usize, updates: u64, entries: &mut [Entry], tallies: &[[u64; 2]]) {
    entries.sort_unstable_by_key(|e| key_of(e.at, e.update, e.rank as u32, e.seq as u32));
    put_kv(o, "shard ", i as u64);
    put_kv(o, " updates ", updates);
    put_kv(o, " entries ", entries.len() as u64);
    o.push(b'\n');
    for e in entries.iter() {
        put_kv(o, "entry ", e.at as u64);
        put_kv(o, " ", e.rank as u64);
        put_kv(o, " ", e.seq as u64);
        o.push(b' ');
        put_call(o, &ops.by_rank[e.rank as usize][e.seq as usize]);
        put(o, " = ");
        put(o, CODE_NAMES[e.code as usize]);
        if code_has_value(e.code) {
            put_kv(o, " ", e.value);
        }
        if e.batch > 0 {
            put_kv(o, " part ", e.part as u64);
            put_kv(o, " of ", e.batch as u64);
        }
        o.push(b'\n');
    }
    for (q, t) in tallies.iter().enumerate() {
        put(o, "queue ");
        o.extend_from_slice(place.queue_name(q));
        put_kv(o, " settled ", t[0]);
        put_kv(o, " passed ", t[1]);
        o.push(b'\n');
    }
}

pub fn ranks(o: &mut Vec<u8>, done: &[u64], ops: &Ops) {
    for (k, d) in done.iter().enumerate() {
        put_kv(o, "rank ", k as u64);
        put_kv(o, " done ", *d);
        put_kv(o, " of ", ops.by_rank[k].len() as u64);
        o.push(b'\n');
    }
}

pub fn steps(o: &mut Vec<u8>, n: &[u64; 5]) {
    put_kv(o, "steps ", n.iter().sum());
    put_kv(o, " moved ", n[0]);
    put_kv(o, " waiting ", n[1]);
    put_kv(o, " lost ", n[2]);
    put_kv(o, " busy ", n[3]);
    put_kv(o, " finished ", n[4]);
    put(o, "\nend\n");
}

/// The lines of events end in few different ways; each ending is spelled once.
pub struct Tails { at: Vec<(u32, u32)>, text: Vec<u8>, side: usize }

impl Tails {
    pub fn new(place: &Place) -> Tails {
        let side = place.elements.len().max(33);
        Tails { at: vec![(0, 0); 4 * side * side + 4 * side], text: vec![], side }
    }
    fn get(&mut self, place: &Place, e: &Ev) -> (u32, u32) {
        let i = if e.kind <= E_SETTLE {
            (e.kind as usize * self.side + e.queue as usize) * self.side + e.member as usize
        } else {
            4 * self.side * self.side + (e.kind - E_ENTER_W) as usize * self.side + e.member as usize
        };
        let found = self.at[i];
        if found.1 > 0 {
            return found;
        }
        let o = &mut self.text;
        let from = o.len();
        put(o, [" join ", " announce ", " pass ", " settle ", " enter-w ", " enter-r ", " leave-w ", " leave-r "][e.kind as usize]);
        match e.kind {
            E_ANNOUNCE => put(o, if e.queue == 1 { "local" } else { "remote" }),
            E_JOIN | E_PASS | E_SETTLE => {
                let q = e.queue as usize;
                o.extend_from_slice(place.queue_name(q));
                o.push(b' ');
                if place.queue_has_ranks(q) {
                    put_num(o, e.member as u64);
                } else {
                    o.extend_from_slice(&place.elements[e.member as usize].name);
                }
            }
            _ => put_num(o, e.member as u64),
        }
        o.push(b'\n');
        self.at[i] = (from as u32, (o.len() - from) as u32);
        self.at[i]
    }
    pub fn events(&mut self, o: &mut Vec<u8>, place: &Place, events: &[Ev]) {
        o.reserve(events.len() * 30);
        for e in events {
            let (from, len) = self.get(place, e);
            put(o, "event ");
            put_num(o, e.step as u64);
            o.extend_from_slice(&self.text[from as usize..(from + len) as usize]);
        }
    }
}

// How a report is read.

pub struct RepEntry { pub at: u32, pub rank: u32, pub seq: u32, pub call: Call, pub code: u8, pub value: u64, pub batch: u32, pub part: u32 }

#[derive(Default)]
pub struct RepShard {
    pub updates: u32,
    pub entries: Vec<RepEntry>,
    pub queues: Vec<[u64; 2]>,
    pub pairs: Vec<(u64, u64)>,
    pub events: Vec<Ev>,
}

pub struct Report { pub run: bool, pub shards: Vec<RepShard>, pub done: Vec<(u32, u32)> }

fn order(t: &mut Text, want: u64) -> Res<()> {
    if t.num()? != want { Err(t.here(Why::Order)) } else { Ok(()) }
}

pub fn read_report(p: &Place, bytes: &[u8]) -> Res<Report> {
    let mut t = Text::new(bytes);
    let t = &mut t;
    let version = t.header(b"rmalock-report", true)?;
    t.next_line()?;
    let run = match t.need()? {
        b"run" => true,
        b"replay" => false,
        _ => return Err(t.here(Why::Word)),
    };
    t.fixed(p.lock.name().as_bytes())?;
    t.last()?;
    t.next_line()?;
    t.fixed(b"ranks")?;
    t.num_in(p.ranks() as u64, p.ranks() as u64)?;
    t.fixed(b"shards")?;
    t.num_in(p.shards as u64, p.shards as u64)?;
    t.last()?;
    let r = p.ranks() as u64;
    let mut rep = Report { run, shards: vec![], done: vec![] };
    t.next_line()?;
    for i in 0..p.shards as u64 {
        let mut s = RepShard::default();
        t.fixed(b"shard")?;
        order(t, i)?;
        t.fixed(b"updates")?;
        s.updates = t.num_in(0, 20_000)? as u32;
        t.fixed(b"entries")?;
        let n = t.num_in(0, 20_000)?;
        t.last()?;
        s.entries.reserve(n as usize);
        for _ in 0..n {
            t.next_line()?;
            t.fixed(b"entry")?;
            let at = t.num_in(0, 20_000)? as u32;
            let rank = t.num_in(0, r - 1)? as u32;
            let seq = t.num_in(0, 19_999)? as u32;
            let call = read_call(t, p.shards)?;
            t.fixed(b"=")?;
            let code = match t.need()? {
                b"new" => NEW,
                b"was" => WAS,
                b"full" => FULL,
                b"val" => VAL,
                b"none" => NOTHING,
                b"sum" => SUM,
                b"over" => OVER,
                b"no" => NO,
                b"held" => HELD,
                b"undone" if version == 2 => UNDONE,
                _ => return Err(t.here(Why::Word)),
            };
            let value = if code_has_value(code) { t.num()? } else { 0 };
            let (mut batch, mut part) = (0, 0);
            if version == 2 && t.has_more() {
                t.fixed(b"part")?;
                part = t.num_in(0, 7)? as u32;
                t.fixed(b"of")?;
                batch = t.num_in(2, 8)? as u32;
                if batch <= part {
                    return Err(t.here(Why::Range));
                }
            }
            t.last()?;
            s.entries.push(RepEntry { at, rank, seq, call, code, value, batch, part });
        }
        for q in 0..p.queues() {
            t.next_line()?;
            t.fixed(b"queue")?;
            t.fixed(p.queue_name(q))?;
            t.fixed(b"settled")?;
            let x = t.num()?;
            t.fixed(b"passed")?;
            let y = t.num()?;
            t.last()?;
            s.queues.push([x, y]);
        }
        let after: &[u8] = if i + 1 < p.shards as u64 { b"shard" } else { b"rank" };
        loop {
            t.next_line()?;
            let mut peek = *t;
            let w = peek.need()?;
            if w == after {
                break;
            }
            *t = peek;
            if run && w == b"pair" {
                let k = t.num()?;
                if let Some((l, _)) = s.pairs.last() {
                    if k == *l {
                        return Err(t.here(Why::Repeat));
                    }
                    if k < *l {
                        return Err(t.here(Why::Order));
                    }
                }
                let v = t.num()?;
                t.last()?;
                s.pairs.push((k, v));
            } else if !run && w == b"event" {
                let step = t.num_in(0, MAX_STEPS - 1)? as u32;
                if s.events.last().map_or(false, |e| step < e.step) {
                    return Err(t.here(Why::Order));
                }
                let kind = match t.need()? {
                    b"join" => E_JOIN,
                    b"announce" => E_ANNOUNCE,
                    b"pass" => E_PASS,
                    b"settle" => E_SETTLE,
                    b"enter-w" => E_ENTER_W,
                    b"enter-r" => E_ENTER_R,
                    b"leave-w" => E_LEAVE_W,
                    b"leave-r" => E_LEAVE_R,
                    _ => return Err(t.here(Why::Word)),
                };
                let (mut queue, mut member) = (0, 0);
                match kind {
                    E_ANNOUNCE => {
                        let w = t.need()?;
                        queue = match w {
                            b"local" if p.lock.cohorts() => 1,
                            b"remote" if p.lock.cohorts() => 2,
                            _ => return Err(t.here(Why::Word)),
                        };
                    }
                    E_JOIN | E_PASS | E_SETTLE => {
                        let w = t.need()?;
                        match (0..p.queues()).find(|q| p.queue_name(*q) == w) {
                            None => return Err(t.here(Why::Word)),
                            Some(q) => queue = q as u8,
                        }
                        if p.queue_has_ranks(queue as usize) {
                            member = t.num_in(0, r - 1)? as u8;
                        } else {
                            let w = t.need()?;
                            match p.elements.iter().position(|e| e.parent == queue as u32 && e.name == w) {
                                None => return Err(t.here(Why::Word)),
                                Some(x) => member = x as u8,
                            }
                        }
                    }
                    _ => member = t.num_in(0, r - 1)? as u8,
                }
                t.last()?;
                s.events.push(Ev { step, kind, queue, member });
            } else {
                return Err(t.here(Why::Word));
            }
        }
        rep.shards.push(s);
    }
    for k in 0..r {
        if k > 0 {
            t.next_line()?;
        }
        t.fixed(b"rank")?;
        order(t, k)?;
        t.fixed(b"done")?;
        let d = t.num_in(0, 20_000)? as u32;
        t.fixed(b"of")?;
        let c = t.num_in(0, 20_000)? as u32;
        t.last()?;
        rep.done.push((d, c));
    }
    t.next_line()?;
    if !run {
        t.fixed(b"steps")?;
        let total = t.num_in(0, MAX_STEPS)?;
        let mut sum = 0;
        for name in ["moved", "waiting", "lost", "busy", "finished"] {
            t.fixed(name.as_bytes())?;
            sum += t.num_in(0, MAX_STEPS)?;
        }
        if total != sum {
            return Err(t.at(2, Why::Range));
        }
        t.last()?;
        t.next_line()?;
    }
    t.fixed(b"end")?;
    t.finish()?;
    Ok(rep)
}
