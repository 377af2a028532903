//! Placement, calls and schedule: what they are and how they are read; and the text of a placement's shape.

use crate::text::*;

#[derive(Clone, Copy, PartialEq, Eq, Debug)]
pub enum Lock { Spin, Dmcs, Alock, Mcs, Rw, Seq, Combine }

impl Lock {
    pub fn name(self) -> &'static str {
        match self {
            Lock::Spin => "spin",
            Lock::Dmcs => "dmcs",
            Lock::Alock => "alock",
            Lock::Mcs => "mcs",
            Lock::Rw => "rw",
            Lock::Seq => "seq",
            Lock::Combine => "combine",
        }
    }
    pub fn tree(self) -> bool { matches!(self, Lock::Mcs | Lock::Rw) }
    pub fn cohorts(self) -> bool { matches!(self, Lock::Alock | Lock::Seq | Lock::Combine) }
}

/// No element, no budget, no rank.
pub const NONE: u32 = u32::MAX;

/// An element of the tree: its root is the first, its leaves are the nodes.
pub struct Element {
    pub parent: u32,
    pub depth: u32,
    pub name: Vec<u8>,
    pub first_node: u32,
    /// NONE where it has none.
    pub budget: u32,
    pub leaf: bool,
}

/// A placement. Nodes and elements are numbered in the order in which the ranks' paths name them first.
pub struct Place {
    pub levels: u32,
    pub lock: Lock,
    pub local: u32,
    pub remote: u32,
    pub budgets: [u32; 3],
    pub writers: u32,
    pub readers: u32,
    pub group: u32,
    pub shards: u32,
    pub buckets: u32,
    pub overflow: u32,
    pub node_of: Vec<u32>,
    pub nodes: u32,
    pub leaf_of: Vec<u32>,
    pub elements: Vec<Element>,
    pub homes: Vec<u32>,
    node_paths: Vec<[u32; 3]>,
    elem_keys: Vec<(u32, [u32; 3])>,
}

impl Place {
    pub fn new() -> Place {
        Place {
            levels: 1, lock: Lock::Spin, local: 0, remote: 0, budgets: [0; 3], writers: 0, readers: 0, group: 0,
            shards: 1, buckets: 1, overflow: 0, node_of: vec![], nodes: 0, leaf_of: vec![],
            elements: vec![Element { parent: NONE, depth: 0, name: b"root".to_vec(), first_node: 0, budget: NONE, leaf: false }],
            homes: vec![], node_paths: vec![], elem_keys: vec![(0, [0; 3])],
        }
    }

    pub fn ranks(&self) -> usize { self.node_of.len() }

    pub fn find_node(&self, path: [u32; 3]) -> Option<u32> {
        self.node_paths.iter().position(|p| *p == path).map(|i| i as u32)
    }

    /// The next rank, at this path.
    pub fn add_rank(&mut self, path: [u32; 3]) {
        if let Some(n) = self.find_node(path) {
            self.node_of.push(n);
            return;
        }
        let node = self.nodes;
        self.nodes += 1;
        self.node_paths.push(path);
        self.node_of.push(node);
        let mut parent = 0;
        for d in 1..=self.levels {
            let mut k = [0; 3];
            k[..d as usize].copy_from_slice(&path[..d as usize]);
            parent = match self.elem_keys.iter().position(|x| *x == (d, k)) {
                Some(i) => i as u32,
                None => {
                    let mut name = vec![];
                    for (i, part) in path[..d as usize].iter().enumerate() {
                        if i > 0 {
                            name.push(b'.');
                        }
                        put_num(&mut name, *part as u64);
                    }
                    self.elem_keys.push((d, k));
                    self.elements.push(Element {
                        parent, depth: d, name, first_node: node, budget: NONE, leaf: d == self.levels,
                    });
                    self.elements.len() as u32 - 1
                }
            };
        }
        self.leaf_of.push(parent);
    }

    pub fn set_budgets(&mut self) {
        let (lock, b, tw) = (self.lock, self.budgets, self.writers);
        for e in self.elements.iter_mut() {
            e.budget = match lock {
                Lock::Mcs | Lock::Rw if e.depth > 0 => b[e.depth as usize - 1],
                Lock::Rw => tw,
                _ => NONE,
            };
        }
    }

    pub fn queues(&self) -> usize {
        match self.lock {
            Lock::Spin => 0,
            Lock::Dmcs => 1,
            Lock::Alock | Lock::Seq | Lock::Combine => 2,
            Lock::Mcs | Lock::Rw => self.elements.len(),
        }
    }

    pub fn queue_name(&self, q: usize) -> &[u8] {
        match self.lock {
            Lock::Dmcs => b"all",
            Lock::Mcs | Lock::Rw => &self.elements[q].name,
            _ => if q == 0 { b"local" } else { b"remote" },
        }
    }

    /// NONE where the queue has no budget.
    pub fn queue_budget(&self, q: usize) -> u32 {
        match self.lock {
            Lock::Mcs | Lock::Rw => self.elements[q].budget,
            Lock::Alock | Lock::Seq | Lock::Combine => if q == 0 { self.local } else { self.remote },
            _ => NONE,
        }
    }

    pub fn queue_has_ranks(&self, q: usize) -> bool { !self.lock.tree() || self.elements[q].leaf }

    /// The queue that a rank itself joins on a shard.
    pub fn queue_of_rank(&self, rank: usize, shard: usize) -> usize {
        match self.lock {
            Lock::Mcs | Lock::Rw => self.leaf_of[self.node_of[rank] as usize] as usize,
            Lock::Alock | Lock::Seq | Lock::Combine => (self.node_of[rank] != self.homes[shard]) as usize,
            _ => 0,
        }
    }
}

fn read_path(t: &mut Text, levels: u32) -> Res<[u32; 3]> {
    let w = t.need()?;
    let mut parts = [0u64; 3];
    let mut n = 0;
    for piece in w.split(|c| *c == b'.') {
        match number(piece) {
            Some(v) if n < levels as usize => {
                parts[n] = v;
                n += 1;
            }
            _ => return Err(t.here(Why::Word)),
        }
    }
    if n != levels as usize {
        return Err(t.here(Why::Word));
    }
    let mut out = [0; 3];
    for i in 0..n {
        if parts[i] > 999 {
            return Err(t.here(Why::Range));
        }
        out[i] = parts[i] as u32;
    }
    Ok(out)
}

fn one(t: &mut Text, name: &[u8], lo: u64, hi: u64) -> Res<u32> {
    t.next_line()?;
    t.fixed(name)?;
    let v = t.num_in(lo, hi)?;
    t.last()?;
    Ok(v as u32)
}

pub fn read_place(bytes: &[u8]) -> Res<Place> {
    let mut t = Text::new(bytes);
    let t = &mut t;
    let mut p = Place::new();
    t.header(b"rmalock-place", false)?;
    p.levels = one(t, b"levels", 1, 3)?;
    t.next_line()?;
    t.fixed(b"lock")?;
    p.lock = match t.need()? {
        b"spin" => Lock::Spin,
        b"dmcs" => Lock::Dmcs,
        b"alock" => Lock::Alock,
        b"mcs" => Lock::Mcs,
        b"rw" => Lock::Rw,
        b"seq" => Lock::Seq,
        b"combine" => Lock::Combine,
        _ => return Err(t.here(Why::Word)),
    };
    t.last()?;
    if p.lock.cohorts() {
        t.next_line()?;
        t.fixed(b"budget")?;
        p.local = t.num_in(0, 1000)? as u32;
        p.remote = t.num_in(0, 1000)? as u32;
        t.last()?;
    }
    if p.lock.tree() {
        t.next_line()?;
        t.fixed(b"budget")?;
        for i in 0..p.levels as usize {
            p.budgets[i] = t.num_in(0, 1000)? as u32;
        }
        t.last()?;
    }
    if p.lock == Lock::Rw {
        p.writers = one(t, b"writers", 0, 1000)?;
        p.readers = one(t, b"readers", 1, 1000)?;
        p.group = one(t, b"group", 1, 32)?;
    }
    p.shards = one(t, b"shards", 1, 16)?;
    p.buckets = one(t, b"buckets", 1, 64)?;
    p.overflow = one(t, b"overflow", 0, 64)?;
    loop {
        t.next_line()?;
        let w = t.need()?;
        if p.homes.len() == p.shards as usize {
            if w != b"end" {
                return Err(t.here(Why::Word));
            }
            t.finish()?;
            break;
        }
        let next = if p.homes.is_empty() && w == b"rank" {
            p.ranks() as u64
        } else if p.ranks() > 0 && w == b"home" {
            p.homes.len() as u64
        } else {
            return Err(t.here(Why::Word));
        };
        let rank = w == b"rank";
        let k = t.num_in(0, if rank { 31 } else { p.shards as u64 - 1 })?;
        if k < next {
            return Err(t.here(Why::Repeat));
        }
        if k > next {
            return Err(t.here(Why::Order));
        }
        if rank {
            t.fixed(b"at")?;
        }
        let path = read_path(t, p.levels)?;
        if rank {
            t.last()?;
            p.add_rank(path);
        } else {
            match p.find_node(path) {
                None => return Err(t.here(Why::Range)),
                Some(n) => {
                    t.last()?;
                    p.homes.push(n);
                }
            }
        }
    }
    p.set_budgets();
    Ok(p)
}

pub fn shape_text(p: &Place) -> Vec<u8> {
    let mut o = Vec::new();
    put(&mut o, "rmalock-shape 1\nranks ");
    put_num(&mut o, p.ranks() as u64);
    put_kv(&mut o, " nodes ", p.nodes as u64);
    put_kv(&mut o, " elements ", p.elements.len() as u64);
    o.push(b'\n');
    for (i, leaf) in p.leaf_of.iter().enumerate() {
        put_kv(&mut o, "node ", i as u64);
        o.push(b' ');
        o.extend_from_slice(&p.elements[*leaf as usize].name);
        o.push(b'\n');
    }
    for (i, e) in p.elements.iter().enumerate() {
        put_kv(&mut o, "element ", i as u64);
        o.push(b' ');
        o.extend_from_slice(&e.name);
        put(&mut o, " parent ");
        if e.parent == NONE { put(&mut o, "none") } else { put_num(&mut o, e.parent as u64) }
        put(&mut o, " budget ");
        if e.budget == NONE { put(&mut o, "none") } else { put_num(&mut o, e.budget as u64) }
        o.push(b'\n');
    }
    for (i, h) in p.homes.iter().enumerate() {
        put_kv(&mut o, "shard ", i as u64);
        put_kv(&mut o, " home ", *h as u64);
        o.push(b'\n');
    }
    put(&mut o, "end\n");
    o
}

// The calls.

pub const PUT: u8 = 1;
pub const DEL: u8 = 2;
pub const ADD: u8 = 3;
pub const CAS: u8 = 4;
pub const GET: u8 = 5;
pub const HOLD: u8 = 6;

/// A call. Of a hold `key` is the shard; `a` is the value of a put, what an add adds and what a cas expects; `b` is a cas's new value.
#[derive(Clone, Copy, PartialEq, Eq, Debug, Default)]
pub struct Call { pub key: u64, pub a: u64, pub b: u64, pub kind: u8 }

impl Call {
    #[inline]
    pub fn shard(&self, shards: u32) -> u32 {
        if self.kind == HOLD { self.key as u32 } else { (self.key % shards as u64) as u32 }
    }
    #[inline]
    pub fn update(&self) -> bool { self.kind <= CAS }
}

// The replies.
pub const NEW: u8 = 1;
pub const WAS: u8 = 2;
pub const FULL: u8 = 3;
pub const NOTHING: u8 = 4;
pub const SUM: u8 = 5;
pub const OVER: u8 = 6;
pub const NO: u8 = 7;
pub const UNDONE: u8 = 8;
pub const VAL: u8 = 9;
pub const HELD: u8 = 10;

pub const CODE_NAMES: [&str; 11] =
    ["", "new", "was", "full", "none", "sum", "over", "no", "undone", "val", "held"];

pub fn code_has_value(code: u8) -> bool { matches!(code, WAS | SUM | OVER | NO | VAL) }

/// The calls of each rank.
pub struct Ops {
    pub by_rank: Vec<Vec<Call>>,
    /// 1 for a call alone, N for the first of a batch of N, 0 for its others.
    pub sizes: Vec<Vec<u8>>,
    pub batches: bool,
}

impl Ops {
    pub fn total(&self) -> usize { self.by_rank.iter().map(|c| c.len()).sum() }
}

fn kind_of(w: &[u8]) -> u8 {
    match w {
        b"put" => PUT,
        b"get" => GET,
        b"del" => DEL,
        b"add" => ADD,
        b"cas" => CAS,
        b"hold" => HOLD,
        _ => 0,
    }
}

/// The words of a call, from its name on.
pub fn read_call(t: &mut Text, shards: u32) -> Res<Call> {
    let kind = kind_of(t.need()?);
    if kind == 0 {
        return Err(t.here(Why::Word));
    }
    read_args(t, kind, shards, NONE)
}

fn read_args(t: &mut Text, kind: u8, shards: u32, only: u32) -> Res<Call> {
    let mut c = Call { key: t.num()?, a: 0, b: 0, kind };
    if kind == HOLD && c.key >= shards as u64 {
        return Err(t.here(Why::Range));
    }
    if only != NONE && (c.key % shards as u64) as u32 != only {
        return Err(t.here(Why::Range));
    }
    if matches!(kind, PUT | ADD | CAS) {
        c.a = t.num()?;
    }
    if kind == CAS {
        c.b = t.num()?;
    }
    Ok(c)
}

pub const MAX_CALLS: usize = 20_000;

pub fn read_ops(ranks: usize, shards: u32, bytes: &[u8]) -> Res<Ops> {
    let mut t = Text::new(bytes);
    let t = &mut t;
    let version = t.header(b"rmalock-calls", true)?;
    let mut o = Ops { by_rank: vec![vec![]; ranks], sizes: vec![vec![]; ranks], batches: false };
    let mut total = 0;
    loop {
        t.next_line()?;
        let w = t.need()?;
        if w == b"end" {
            t.finish()?;
            return Ok(o);
        }
        if total == MAX_CALLS {
            return Err(t.at(0, Why::Range));
        }
        let rank = match number(w) {
            None => return Err(t.here(Why::Number)),
            Some(k) if k >= ranks as u64 => return Err(t.here(Why::Range)),
            Some(k) => k as usize,
        };
        let name = t.need()?;
        if version == 2 && name == b"batch" {
            let n = t.num_in(2, 8)?;
            t.last()?;
            o.batches = true;
            let mut shard = NONE;
            for i in 0..n {
                t.next_line()?;
                let w = t.need()?;
                if w == b"end" {
                    return Err(t.here(Why::Number));
                }
                if total == MAX_CALLS {
                    return Err(t.at(0, Why::Range));
                }
                match number(w) {
                    None => return Err(t.here(Why::Number)),
                    Some(k) if k >= ranks as u64 => return Err(t.here(Why::Range)),
                    Some(k) if k != rank as u64 => return Err(t.here(Why::Order)),
                    _ => {}
                }
                let kind = kind_of(t.need()?);
                if kind == 0 || kind > CAS {
                    return Err(t.here(Why::Word));
                }
                let c = read_args(t, kind, shards, shard)?;
                t.last()?;
                shard = c.shard(shards);
                o.by_rank[rank].push(c);
                o.sizes[rank].push(if i == 0 { n as u8 } else { 0 });
                total += 1;
            }
            continue;
        }
        let kind = kind_of(name);
        if kind == 0 {
            return Err(t.here(Why::Word));
        }
        let c = read_args(t, kind, shards, NONE)?;
        t.last()?;
        o.by_rank[rank].push(c);
        o.sizes[rank].push(1);
        total += 1;
    }
}

pub const MAX_STEPS: u64 = 2_000_000;

/// The turns, packed: rank in the low 5 bits, count above. Empty turns and stops are left out.
pub fn read_schedule(ranks: usize, bytes: &[u8]) -> Res<Vec<u32>> {
    let mut t = Text::new(bytes);
    let t = &mut t;
    t.header(b"rmalock-schedule", false)?;
    let mut turns: Vec<u32> = Vec::with_capacity(bytes.len() / 4);
    let mut stopped = [false; 32];
    let mut sum: u64 = 0;
    loop {
        // The common line, at one go.
        if let Some((rank, count, len)) = fast_turn(&t.b[t.pos..]) {
            if (rank as usize) < ranks && !stopped[rank as usize] && sum + count as u64 <= MAX_STEPS {
                sum += count as u64;
                if count > 0 {
                    turns.push(rank | count << 5);
                }
                t.pos += len;
                t.line += 1;
                continue;
            }
        }
        t.next_line()?;
        let w = t.need()?;
        if w == b"end" {
            t.finish()?;
            return Ok(turns);
        }
        if w == b"stop" {
            let k = t.num_in(0, ranks as u64 - 1)? as usize;
            if stopped[k] {
                return Err(t.here(Why::Repeat));
            }
            t.last()?;
            stopped[k] = true;
            continue;
        }
        let rank = match number(w) {
            None => return Err(t.here(Why::Number)),
            Some(k) if k >= ranks as u64 => return Err(t.here(Why::Range)),
            Some(k) => k as usize,
        };
        if stopped[rank] {
            return Err(t.here(Why::Order));
        }
        let count = t.num_in(0, MAX_STEPS)?;
        if sum + count > MAX_STEPS {
            return Err(t.here(Why::Range));
        }
        t.last()?;
        sum += count;
        if count > 0 {
            turns.push(rank as u32 | (count as u32) << 5);
        }
    }
}

/// A well-spelled `RANK COUNT` line of at most seven bytes and its newline at the front, with its length;
/// None sends the line the long way. Eight bytes are looked at together, without a branch per byte.
#[inline]
fn fast_turn(b: &[u8]) -> Option<(u32, u32, usize)> {
    const LO: u64 = 0x0101_0101_0101_0101;
    const HI: u64 = 0x8080_8080_8080_8080;
    let x = u64::from_le_bytes(b.get(..8)?.try_into().unwrap());
    // The first byte that is c is found exactly; later marks may be wrong and aren't used.
    let first = |c: u8| {
        let y = x ^ (LO * c as u64);
        y.wrapping_sub(LO) & !y & HI
    };
    let sp = first(b' ').trailing_zeros() >> 3;
    let nl = first(b'\n').trailing_zeros() >> 3;
    if sp.wrapping_sub(1) > 1 || nl > 7 || nl < sp + 2 {
        return None;
    }
    let len = nl - sp - 1;
    // The digits stand at the high end, the last one uppermost.
    let zero = |n: u32| (LO * b'0' as u64) << (64 - 8 * n);
    let c = ((x >> (8 * (sp + 1))) << (64 - 8 * len)).wrapping_sub(zero(len));
    let r = (x << (64 - 8 * sp)).wrapping_sub(zero(sp));
    let nine = LO * 0x76;
    if ((c | c.wrapping_add(nine)) | (r | r.wrapping_add(nine))) & HI != 0 {
        return None;
    }
    // No leading zero where there are more digits.
    let lead = |d: u64, n: u32| (n > 1) & ((d >> (64 - 8 * n)) & 0xff == 0);
    if lead(c, len) | lead(r, sp) {
        return None;
    }
    let rank = ((r >> 48 & 0xff) * 10 + (r >> 56)) as u32;
    let c = c.wrapping_mul(10).wrapping_add(c >> 8) & 0x00ff_00ff_00ff_00ff;
    let c = (c.wrapping_mul(100).wrapping_add(c >> 16)) & 0x0000_ffff_0000_ffff;
    let count = (c.wrapping_mul(10_000).wrapping_add(c >> 32)) as u32;
    Some((rank, count, nl as usize + 1))
}

#[cfg(test)]
mod tests {
    use super::*;

    /// The fast reading gives what the slow one gives, for lines near the right spelling.
    #[test]
    fn fast_is_slow() {
        let mut seed = 1u64;
        let alphabet = b"0123456789 \n0199/:\r";
        let mut hits = 0;
        for _ in 0..5_000_000 {
            let mut b = [0u8; 12];
            for x in b.iter_mut() {
                seed = seed.wrapping_mul(6364136223846793005).wrapping_add(1442695040888963407);
                *x = alphabet[(seed >> 33) as usize % alphabet.len()];
            }
            if let Some((rank, count, len)) = fast_turn(&b) {
                hits += 1;
                let line = &b[..len];
                assert_eq!(line[len - 1], b'\n');
                let words: Vec<&[u8]> = line[..len - 1].split(|c| *c == b' ').collect();
                assert_eq!(words.len(), 2, "{:?}", line);
                assert_eq!(number(words[0]), Some(rank as u64), "{:?}", line);
                assert_eq!(number(words[1]), Some(count as u64), "{:?}", line);
            }
        }
        assert!(hits > 10_000);
        for r in 0..32u32 {
            for c in 0..10_000u32 {
                let t = format!("{} {}\n0 0 0 0 0", r, c);
                let want = t.find('\n').unwrap() + 1;
                let got = fast_turn(t.as_bytes());
                assert_eq!(got, if want <= 8 { Some((r, c, want)) } else { None });
            }
        }
    }
}
