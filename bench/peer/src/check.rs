//! Whether a report is legal for a placement and calls. FORMATS in `docs/` lists the tests and their order.

use std::collections::HashMap;

use crate::machine::*;
use crate::model::*;
use crate::report::*;
use crate::text::*;

/// The table as one thread has it: its pairs, and how many stand in each bucket and in overflow cells.
struct Plain { map: HashMap<u64, u64>, in_bucket: Vec<u32>, spill: u32, shards: u64, overflow: u32 }

impl Plain {
    fn new(p: &Place) -> Plain {
        Plain { map: HashMap::new(), in_bucket: vec![0; p.buckets as usize], spill: 0, shards: p.shards as u64, overflow: p.overflow }
    }
    fn bucket(&self, k: u64) -> usize { (k / self.shards % self.in_bucket.len() as u64) as usize }
    fn insert(&mut self, k: u64, v: u64) {
        if self.map.insert(k, v).is_none() {
            let b = self.bucket(k);
            self.in_bucket[b] += 1;
            self.spill += (self.in_bucket[b] > 1) as u32;
        }
    }
    fn remove(&mut self, k: u64) {
        if self.map.remove(&k).is_some() {
            let b = self.bucket(k);
            self.spill -= (self.in_bucket[b] > 1) as u32;
            self.in_bucket[b] -= 1;
        }
    }
    fn apply(&mut self, c: &Call) -> (u8, u64) {
        let old = self.map.get(&c.key).copied();
        match (c.kind, old) {
            (HOLD, _) => (HELD, 0),
            (PUT, Some(v)) => {
                self.insert(c.key, c.a);
                (WAS, v)
            }
            (PUT, None) => {
                if self.in_bucket[self.bucket(c.key)] > 0 && self.spill == self.overflow {
                    return (FULL, 0);
                }
                self.insert(c.key, c.a);
                (NEW, 0)
            }
            (_, None) => (NOTHING, 0),
            (GET, Some(v)) => (VAL, v),
            (DEL, Some(v)) => {
                self.remove(c.key);
                (WAS, v)
            }
            (ADD, Some(v)) => match v.checked_add(c.a) {
                None => (OVER, v),
                Some(s) => {
                    self.insert(c.key, s);
                    (SUM, s)
                }
            },
            (_, Some(v)) => {
                if v == c.a {
                    self.insert(c.key, c.b);
                    (WAS, v)
                } else {
                    (NO, v)
                }
            }
        }
    }
    fn batch(&mut self, calls: &[RepEntry], out: &mut Vec<(u8, u64)>) {
        out.clear();
        let mut undo: Vec<(u64, Option<u64>)> = vec![];
        for (i, e) in calls.iter().enumerate() {
            undo.push((e.call.key, self.map.get(&e.call.key).copied()));
            let r = self.apply(&e.call);
            if r.0 == FULL || r.0 == OVER {
                for (k, v) in undo.into_iter().rev() {
                    match v {
                        Some(v) => self.insert(k, v),
                        None => self.remove(k),
                    }
                }
                *out = vec![(UNDONE, 0); calls.len()];
                out[i] = r;
                return;
            }
            out.push(r);
        }
    }
}

type Fault = Option<(usize, &'static str)>;

fn begins_batch(e: &RepEntry) -> bool { e.batch > 0 && e.part == 0 && e.call.update() }

fn follows(b: &RepEntry, e: &RepEntry, part: u32) -> bool {
    e.call.update() && e.batch == b.batch && e.part == part && e.rank == b.rank && e.seq == b.seq + part
}

fn check_shard(p: &Place, rep: &Report, shard: usize) -> Fault {
    let s = &rep.shards[shard];
    let es = &s.entries;
    let mut plain = Plain::new(p);
    let mut updates = 0u32;
    // The batch that has begun: where it begins, and its next part.
    let mut begun: Option<(usize, u32)> = None;
    let mut whole = false;
    let mut replies: Vec<(u8, u64)> = vec![];
    for (i, e) in es.iter().enumerate() {
        if e.call.shard(p.shards) as usize != shard {
            return Some((i, "shard"));
        }
        let key = |e: &RepEntry| key_of(e.at, e.call.update(), e.rank, e.seq);
        if i > 0 && key(&es[i - 1]) >= key(e) {
            return Some((i, "order"));
        }
        let part = match begun {
            Some((from, part)) => {
                if !follows(&es[from], e, part) {
                    return Some((i, "batch"));
                }
                part
            }
            None => {
                if e.batch != 0 && !begins_batch(e) {
                    return Some((i, "batch"));
                }
                0
            }
        };
        if e.at != updates {
            return Some((i, "at"));
        }
        if e.batch == 0 {
            if plain.apply(&e.call) != (e.code, e.value) {
                return Some((i, "reply"));
            }
        } else {
            if part == 0 {
                let n = e.batch as usize;
                whole = i + n <= es.len() && (1..n).all(|j| follows(e, &es[i + j], j as u32));
                if whole {
                    plain.batch(&es[i..i + n], &mut replies);
                }
            }
            if whole && replies[part as usize] != (e.code, e.value) {
                return Some((i, "reply"));
            }
            let from = begun.map_or(i, |x| x.0);
            begun = if part + 1 == e.batch { None } else { Some((from, part + 1)) };
        }
        updates += e.call.update() as u32;
    }
    let n = es.len();
    if begun.is_some() {
        return Some((n, "batch"));
    }
    if s.updates != updates {
        return Some((n, "updates"));
    }
    if rep.run {
        let mut tenures = vec![0u128; s.queues.len()];
        if !tenures.is_empty() {
            let skip = matches!(p.lock, Lock::Rw | Lock::Seq);
            for e in es {
                if e.part == 0 && !(skip && e.call.kind == GET) {
                    tenures[p.queue_of_rank(e.rank as usize, shard)] += 1;
                }
            }
            if p.lock.tree() {
                for (q, t) in s.queues.iter().enumerate().skip(1) {
                    tenures[p.elements[q].parent as usize] += t[0] as u128;
                }
            }
        }
        for (q, t) in s.queues.iter().enumerate() {
            let b = p.queue_budget(q);
            if (b != NONE && t[1] as u128 > b as u128 * t[0] as u128) || t[0] as u128 + t[1] as u128 != tenures[q] {
                return Some((n, "tally"));
            }
        }
        let mut pairs: Vec<(u64, u64)> = plain.map.iter().map(|(k, v)| (*k, *v)).collect();
        pairs.sort_unstable();
        if pairs != s.pairs {
            return Some((n, "pairs"));
        }
        return None;
    }
    let mut count = vec![[0u64; 2]; s.queues.len()];
    for e in &s.events {
        match e.kind {
            E_SETTLE => count[e.queue as usize][0] += 1,
            E_PASS => count[e.queue as usize][1] += 1,
            _ => {}
        }
    }
    if count != s.queues {
        return Some((n, "tally"));
    }
    let (mut writers, mut readers) = (0u32, 0u32);
    // How often the lock was passed since the last settlement; none before the first.
    let mut since: Vec<Option<u32>> = vec![None; s.queues.len()];
    for (i, e) in s.events.iter().enumerate() {
        let bit = 1u32 << (e.member & 31);
        let q = e.queue as usize;
        match e.kind {
            E_ENTER_W => writers |= bit,
            E_ENTER_R => readers |= bit,
            E_LEAVE_W => writers &= !bit,
            E_LEAVE_R => readers &= !bit,
            E_SETTLE => since[q] = Some(0),
            E_PASS => {
                let b = p.queue_budget(q);
                if b != NONE {
                    match since[q].as_mut() {
                        None => return Some((i, "events")),
                        Some(x) => {
                            *x += 1;
                            if *x > b {
                                return Some((i, "events"));
                            }
                        }
                    }
                }
            }
            _ => {}
        }
        if writers.count_ones() > 1 || (writers != 0 && readers != 0) {
            return Some((i, "events"));
        }
    }
    None
}

/// The faults of all ranks; the first of the lowest rank.
fn check_ranks(p: &Place, ops: &Ops, rep: &Report) -> Option<(usize, usize, &'static str)> {
    // Of each rank: the number of the call, the shard, the entry.
    let mut of: Vec<Vec<(u32, u32, u32)>> = vec![vec![]; p.ranks()];
    for (s, x) in rep.shards.iter().enumerate() {
        for (i, e) in x.entries.iter().enumerate() {
            of[e.rank as usize].push((e.seq, s as u32, i as u32));
        }
    }
    for (k, list) in of.iter_mut().enumerate() {
        list.sort_unstable();
        let n = list.len();
        let calls = &ops.by_rank[k];
        let sizes = &ops.sizes[k];
        let mut last: Vec<Option<(u32, bool)>> = vec![None; p.shards as usize];
        let (mut size, mut begin) = (0u32, 0usize);
        for i in 0..n {
            let (seq, s, at) = list[i];
            if seq != i as u32 || (i + 1 < n && list[i + 1].0 == seq) || i >= calls.len() {
                return Some((k, i, "calls"));
            }
            let e = &rep.shards[s as usize].entries[at as usize];
            if sizes[i] > 0 {
                size = sizes[i] as u32;
                begin = i;
            }
            let (batch, part) = if size > 1 { (size, (i - begin) as u32) } else { (0, 0) };
            if e.call != calls[i] || e.batch != batch || e.part != part {
                return Some((k, i, "calls"));
            }
            if let Some((at, update)) = last[s as usize] {
                if e.at < at || (update && e.at == at) {
                    return Some((k, i, "fresh"));
                }
            }
            last[s as usize] = Some((e.at, e.call.update()));
        }
        let (d, c) = rep.done[k];
        let bad = d as usize != n || c as usize != calls.len()
            || (if rep.run { n != calls.len() } else { n < calls.len() && sizes[n] == 0 });
        if bad {
            return Some((k, n, "done"));
        }
    }
    None
}

pub fn check(p: &Place, ops: &Ops, rep: &Report) -> Result<(), Vec<u8>> {
    let line = |group: &str, i: usize, place: usize, test: &str| {
        let mut o = vec![];
        put(&mut o, "illegal ");
        put_kv(&mut o, group, i as u64);
        put_kv(&mut o, " ", place as u64);
        o.push(b' ');
        put(&mut o, test);
        o.push(b'\n');
        o
    };
    for s in 0..rep.shards.len() {
        if let Some((place, test)) = check_shard(p, rep, s) {
            return Err(line("shard ", s, place, test));
        }
    }
    match check_ranks(p, ops, rep) {
        Some((k, place, test)) => Err(line("rank ", k, place, test)),
        None => Ok(()),
    }
}
