//! The machine: one step of one rank is one atom. DEFINITIONS in `docs/` says what the steps of each lock are.
//!
//! A rank's view always holds its next atom ready made (`op`, its word, its card, its operands). So a step does that atom, and where the
//! atom decides an act, goes on by `learn`, a jump on `pc` that makes the next act ready.

use crate::model::*;

pub const MOVED: usize = 0;
pub const WAITING: usize = 1;
pub const LOST: usize = 2;
pub const BUSY: usize = 3;
pub const FINISHED: usize = 4;

// The kinds of events.
pub const E_JOIN: u8 = 0;
pub const E_ANNOUNCE: u8 = 1;
pub const E_PASS: u8 = 2;
pub const E_SETTLE: u8 = 3;
pub const E_ENTER_W: u8 = 4;
pub const E_ENTER_R: u8 = 5;
pub const E_LEAVE_W: u8 = 6;
pub const E_LEAVE_R: u8 = 7;

/// An entry of a shard's history. Its call is `ops.by_rank[rank][seq]`.
#[derive(Clone, Copy)]
pub struct Entry { pub value: u64, pub at: u32, pub seq: u16, pub rank: u8, pub code: u8, pub batch: u8, pub part: u8, pub update: bool }

/// The words of all windows and their cards, and what is noted of a step.
pub trait Env {
    fn load(&mut self, w: u32) -> u64;
    fn store(&mut self, w: u32, v: u64);
    /// A compare-and-swap; answers what it finds.
    fn cas(&mut self, w: u32, old: u64, new: u64) -> u64;
    fn event(&mut self, shard: u32, kind: u8, queue: u8, member: u8);
    fn entry(&mut self, shard: u32, e: Entry);
}

// The kinds of atoms. IDLE: no call is open.
const IDLE: u8 = 0;
const LOAD: u8 = 1;
const STORE: u8 = 2;
const LCAS: u8 = 3;
const TAKE: u8 = 4;
const CLOAD: u8 = 5;
const CSTORE: u8 = 6;
const LEAVE: u8 = 7;

// The acts through a card.
const C_CAS: u8 = 0;
const C_SWAP: u8 = 1;
const C_ADD: u8 = 2;

// Where a view stands: what it learns from its atom's word.
const SPIN: u8 = 0;
const REL_END: u8 = 1;
const J1: u8 = 2; // joining a queue: own next, own status, the tail, the link to the one before, the wait
const J2: u8 = 3;
const J3: u8 = 4;
const J4: u8 = 5;
const J5: u8 = 6;
const PT1: u8 = 7; // between the cohorts, as Peterson's algorithm does
const PT2: u8 = 8;
const PT3: u8 = 9;
const FL1: u8 = 10; // leaving a queue that is the highest one
const FL2: u8 = 11;
const FL3: u8 = 12;
const FL4: u8 = 13;
const UL1: u8 = 14; // leaving a queue with others above it
const UL2: u8 = 15;
const UA: u8 = 16;
const UL4: u8 = 17;
const UL5: u8 = 18;
const UL6: u8 = 19;
const MU1: u8 = 20; // a writer's marks on the readers' counters, set and taken back
const MU2: u8 = 21;
const MU3: u8 = 22;
const MD1: u8 = 23;
const MD2: u8 = 24;
const RD1: u8 = 25; // a reader
const RD2: u8 = 26;
const RD3: u8 = 27;
const RD4: u8 = 28;
const RD5: u8 = 29;
const RD6: u8 = 30;
const RD7: u8 = 31;
const W_COUNT: u8 = 32; // a block's work
const W_WALK: u8 = 33;
const W_JOURNAL: u8 = 34;
const W_WRITE: u8 = 35;
const W_DONE: u8 = 36;
const V_LOAD: u8 = 37; // optimistic readers: a writer's version, a get's two looks at it
const V_ODD: u8 = 38;
const V_EVEN: u8 = 39;
const G_VER: u8 = 40;
const G_AGAIN: u8 = 41;
const P1: u8 = 42; // flat combining: a rank posts its call
const P2: u8 = 43;
const P3: u8 = 44;
const P4: u8 = 45;
const P5: u8 = 46;
const P6: u8 = 47;
const K_FLAG: u8 = 48; // flat combining: the holder looks at its own post, then at all
const K_J: u8 = 49;
const K_KIND: u8 = 50;
const K_KEY: u8 = 51;
const K_FIRST: u8 = 52;
const K_SECOND: u8 = 53;
const K_SEQ: u8 = 54;
const K_AT: u8 = 55;
const K_CODE: u8 = 56;
const K_VALUE: u8 = 57;
const K_SET: u8 = 58;
const O_AT: u8 = 59; // flat combining: a rank takes its answer
const O_CODE: u8 = 60;
const O_VALUE: u8 = 61;
const O_CLEAR: u8 = 62;

// What a call's walk over the volume reads next.
const WK_STATE: u8 = 0;
const WK_KEY: u8 = 1;
const WK_VAL: u8 = 2;
const WK_CKEY: u8 = 3;
const WK_CVAL: u8 = 4;
const WK_LINK: u8 = 5;
const WK_FREE: u8 = 6;
const WK_FLINK: u8 = 7;
const WK_DKEY: u8 = 8;
const WK_DVAL: u8 = 9;
const WK_DLINK: u8 = 10;
const WK_DFREE: u8 = 11;
const WK_CLINK: u8 = 12;
const WK_CFREE: u8 = 13;

const ABSENT: u8 = 0;
const INLINE: u8 = 1;
const CELL: u8 = 2;

const F: u64 = 1 << 32;
const SEEN: usize = 1 + 3 * 64 + 3 * 64;

/// A rank's place in one of the queues that it goes through on a shard, by the numbers of words.
#[derive(Clone, Copy, Default)]
struct Link {
    tail: u32,
    card: u32,
    /// The link word of this member; its status stands one further.
    next: u32,
    /// The link word of the first member.
    base: u32,
    budget: u32,
    member: u32,
    queue: u8,
    top: bool,
    local: bool,
}

/// The words of a shard, by their numbers.
#[derive(Default)]
pub struct Shard {
    pub count: u32,
    pub vol: u32,
    journal: u32,
    /// The word of a spin lock, the victim of two cohorts.
    word: u32,
    card: u32,
    ver: u32,
    post: u32,
    counters: u32,
    /// The card of each counter.
    ctr_card: Vec<u32>,
    root_tail: u32,
    tails: [u32; 2],
}

pub struct Machine<'a> {
    pub place: &'a Place,
    pub ops: &'a Ops,
    pub sh: Vec<Shard>,
    links: Vec<Link>,
    lock: Lock,
    shards: u32,
    buckets: u32,
    overflow: u32,
    ranks: u32,
    /// How far the link words of two members, the words of two counters, and the posts of two ranks lie apart.
    stride: u32,
    pstride: u32,
    counters: u32,
    pub words: u32,
}

impl<'a> Machine<'a> {
    /// `padded` keeps words that different threads wait on in different cache lines. The numbers of the words show nowhere, so they are free.
    pub fn new(place: &'a Place, ops: &'a Ops, padded: bool) -> Machine<'a> {
        let s = place.shards as usize;
        let r = place.ranks();
        let mut updates = vec![0u32; s];
        for calls in &ops.by_rank {
            for c in calls {
                if c.update() {
                    updates[c.shard(place.shards) as usize] += 1;
                }
            }
        }
        let (unit, stride, pstride) = if padded { (16, 16, 16) } else { (1, 2, 9) };
        let mut top = 0u32;
        let mut alloc = |n: u32, u: u32| {
            let at = (top + u - 1) / u * u;
            top = at + (n + u - 1) / u * u;
            at
        };
        let ranks = r as u32;
        let nodes = place.nodes;
        let counters = if place.lock == Lock::Rw { (ranks + place.group - 1) / place.group } else { 0 };
        let mut sh = Vec::with_capacity(s);
        let mut links = vec![Link::default(); s * r * 4];
        for i in 0..s {
            let home = place.homes[i];
            let mut x = Shard::default();
            alloc(0, unit);
            x.count = alloc(1, 1);
            x.vol = alloc(1 + 3 * place.buckets + 3 * place.overflow, 1);
            x.journal = alloc(6 * updates[i], 1);
            let cards = alloc(nodes * unit, unit);
            let card_of = |n: u32| cards + n * unit;
            match place.lock {
                Lock::Spin => {
                    x.word = alloc(1, unit);
                    x.card = card_of(home);
                }
                Lock::Dmcs | Lock::Alock | Lock::Seq | Lock::Combine => {
                    let t0 = alloc(1, unit);
                    let dm = place.lock == Lock::Dmcs;
                    x.tails = [t0, if dm { t0 } else { alloc(1, unit) }];
                    if !dm {
                        x.word = alloc(1, unit);
                    }
                    let base = alloc(ranks * stride, unit);
                    for k in 0..r {
                        let q = place.queue_of_rank(k, i);
                        links[(i * r + k) * 4] = Link {
                            tail: x.tails[q],
                            card: card_of(home),
                            next: base + k as u32 * stride,
                            base,
                            budget: place.queue_budget(q),
                            member: k as u32,
                            queue: q as u8,
                            top: true,
                            local: !dm && q == 0,
                        };
                    }
                    if place.lock == Lock::Seq {
                        x.ver = alloc(1, unit);
                    }
                    if place.lock == Lock::Combine {
                        x.post = alloc(ranks * pstride, unit);
                    }
                }
                Lock::Mcs | Lock::Rw => {
                    let e = place.elements.len() as u32;
                    let tails = alloc(e * unit, unit);
                    let ebase = alloc(e * stride, unit);
                    let base = alloc(ranks * stride, unit);
                    x.root_tail = tails;
                    for k in 0..r {
                        let mut q = place.queue_of_rank(k, i) as u32;
                        let mut m = k as u32;
                        let mut b = base;
                        for l in 0..4 {
                            let el = &place.elements[q as usize];
                            links[(i * r + k) * 4 + l] = Link {
                                tail: tails + q * unit,
                                card: card_of(if q == 0 { home } else { el.first_node }),
                                next: b + m * stride,
                                base: b,
                                budget: el.budget,
                                member: m,
                                queue: q as u8,
                                top: q == 0,
                                local: false,
                            };
                            if q == 0 {
                                break;
                            }
                            m = q;
                            b = ebase;
                            q = el.parent;
                        }
                    }
                    if place.lock == Lock::Rw {
                        // Different ranks arrive and depart at the same time.
                        x.counters = alloc(counters * 2 * unit, unit);
                        for c in 0..counters {
                            x.ctr_card.push(card_of(place.node_of[(c * place.group) as usize]));
                        }
                    }
                }
            }
            sh.push(x);
        }
        Machine {
            place, ops, sh, links, lock: place.lock, shards: place.shards, buckets: place.buckets,
            overflow: place.overflow, ranks, stride, pstride, counters, words: top,
        }
    }

    /// The words that aren't 0 at the start: those of the lists of free overflow cells.
    pub fn fill(&self, mut set: impl FnMut(u32, u64)) {
        if self.overflow == 0 {
            return;
        }
        for x in &self.sh {
            set(x.vol, 1);
            for i in 0..self.overflow - 1 {
                set(x.vol + 1 + 3 * self.buckets + 3 * i, 2 + i as u64);
            }
        }
    }

    pub fn view(&self, rank: u32) -> View {
        View {
            op: IDLE, pc: 0, after: IDLE, ck: 0, lvl: 0, reader: false, blk: 0, bi: 0, failed: false,
            word: 0, card: 0, lcard: 0, a: 0, b: 0, got: 0, guess: 0, me: rank as u64 + 1, rank, shard: 0,
            base: 0, left: [0; 4], nx: [0; 4], ctr: 0, reg: 0, pos: 0,
            n: self.ops.by_rank[rank as usize].len() as u32, seq0: 0, c: 0, ver: 0, wk: 0, found: 0,
            cell: 0, prev: NONE, passed: 0, bkt: 0, asked: 0, cur: Call::default(), sj: 0, seqj: 0, jp: 0, jf: 0,
            nw: 0, wi: 0,
            seen: Box::new(Seen { val: [0; SEEN], gen: [0; SEEN], now: 0, reps: [(0, 0); 8], writes: [(0, 0); 40] }),
        }
    }

    /// The pairs of a shard by rising key.
    pub fn pairs(&self, shard: usize, mut word: impl FnMut(u32) -> u64) -> Vec<(u64, u64)> {
        let v = self.sh[shard].vol;
        let cells = v + 1 + 3 * self.buckets;
        let mut out = Vec::new();
        for b in 0..self.buckets {
            let w = v + 1 + 3 * b;
            let st = word(w);
            if st == 0 {
                continue;
            }
            out.push((word(w + 1), word(w + 2)));
            let mut link = st - 1;
            while link != 0 {
                let c = cells + 3 * (link as u32 - 1);
                out.push((word(c + 1), word(c + 2)));
                link = word(c);
            }
        }
        out.sort_unstable();
        out
    }
}

/// What a block's calls need: the words that were seen, the replies, and the writes that are kept back.
struct Seen { val: [u64; SEEN], gen: [u32; SEEN], now: u32, reps: [(u8, u64); 8], writes: [(u32, u64); 40] }

/// Where a rank stands.
pub struct View {
    op: u8,
    pc: u8,
    after: u8,
    ck: u8,
    lvl: u8,
    reader: bool,
    blk: u8,
    bi: u8,
    failed: bool,
    wk: u8,
    found: u8,
    jf: u8,
    jp: u8,
    nw: u8,
    wi: u8,
    word: u32,
    card: u32,
    lcard: u32,
    rank: u32,
    shard: u32,
    base: u32,
    a: u64,
    b: u64,
    got: u64,
    guess: u64,
    me: u64,
    pub pos: u32,
    pub n: u32,
    seq0: u32,
    c: u32,
    cell: u32,
    prev: u32,
    passed: u32,
    bkt: u32,
    asked: u32,
    ctr: u32,
    sj: u32,
    seqj: u32,
    reg: u64,
    ver: u64,
    left: [u32; 4],
    nx: [u8; 4],
    cur: Call,
    seen: Box<Seen>,
}

impl View {
    /// The next atom leaves a card.
    #[inline]
    pub fn in_card(&self) -> bool { self.op == LEAVE }
    /// Neither an open block nor one left.
    #[inline]
    pub fn finished(&self) -> bool { self.op == IDLE && self.pos == self.n }

    #[inline(always)]
    fn load(&mut self, pc: u8, word: u32) {
        self.op = LOAD;
        self.pc = pc;
        self.word = word;
    }
    #[inline(always)]
    fn store(&mut self, pc: u8, word: u32, value: u64) {
        self.op = STORE;
        self.pc = pc;
        self.word = word;
        self.a = value;
    }
    #[inline(always)]
    fn act(&mut self, pc: u8, ck: u8, word: u32, card: u32, a: u64, b: u64) {
        self.op = TAKE;
        self.pc = pc;
        self.ck = ck;
        self.word = word;
        self.card = card;
        self.a = a;
        self.b = b;
    }
    /// A compare-and-swap of the tail of the queue at this level.
    #[inline(always)]
    fn tail(&mut self, pc: u8, k: &Link, old: u64, new: u64) {
        self.act(pc, C_CAS, k.tail, k.card, old, new);
        if k.local {
            self.op = LCAS;
        }
    }
}

/// One atom of one rank, and its answer.
#[inline(always)]
pub fn step<E: Env>(m: &Machine, v: &mut View, env: &mut E) -> usize {
    if v.op == IDLE {
        if v.pos == v.n {
            return FINISHED;
        }
        open(m, v);
    }
    match v.op {
        LOAD => {
            let got = env.load(v.word);
            learn(m, v, env, got)
        }
        STORE => {
            env.store(v.word, v.a);
            learn(m, v, env, 0)
        }
        LCAS => {
            let got = env.cas(v.word, v.a, v.b);
            let lost = got != v.a;
            learn(m, v, env, got);
            if lost { LOST } else { MOVED }
        }
        TAKE => {
            if env.cas(v.card, 0, v.me) == 0 {
                v.op = CLOAD;
                MOVED
            } else {
                BUSY
            }
        }
        CLOAD => {
            let got = env.load(v.word);
            if v.ck == C_CAS && got != v.a {
                v.lcard = v.card;
                learn(m, v, env, got);
                v.after = v.op;
                v.op = LEAVE;
                LOST
            } else {
                v.got = got;
                v.op = CSTORE;
                MOVED
            }
        }
        CSTORE => {
            let value = match v.ck {
                C_CAS => v.b,
                C_SWAP => v.a,
                _ => v.got.wrapping_add(v.a),
            };
            env.store(v.word, value);
            v.lcard = v.card;
            let got = v.got;
            learn(m, v, env, got);
            v.after = v.op;
            v.op = LEAVE;
            MOVED
        }
        _ => {
            env.store(v.lcard, 0);
            v.op = v.after;
            MOVED
        }
    }
}

#[cold]
#[inline(never)]
fn open_block(m: &Machine, v: &mut View) -> Call {
    let call = m.ops.by_rank[v.rank as usize][v.pos as usize];
    v.blk = m.ops.sizes[v.rank as usize][v.pos as usize];
    v.seq0 = v.pos;
    v.pos += v.blk as u32;
    v.shard = call.shard(m.shards);
    v.base = (v.shard * m.ranks + v.rank) * 4;
    v.reader = false;
    v.cur = call;
    call
}

#[inline(never)]
fn open(m: &Machine, v: &mut View) {
    let call = open_block(m, v);
    let x = &m.sh[v.shard as usize];
    match m.lock {
        Lock::Spin => v.act(SPIN, C_CAS, x.word, x.card, 0, v.me),
        Lock::Rw if call.kind == GET => {
            v.reader = true;
            v.ctr = v.rank / m.place.group;
            arrive(m, v, RD1, 1);
        }
        Lock::Seq if call.kind == GET => v.load(G_VER, x.ver),
        Lock::Combine => v.store(P1, post(m, v, v.rank) + 1, call.kind as u64),
        _ => join(m, v, 0),
    }
}

#[inline(always)]
fn link<'b>(m: &'b Machine, v: &View) -> &'b Link { &m.links[(v.base + v.lvl as u32) as usize] }

#[inline(always)]
fn post(m: &Machine, v: &View, rank: u32) -> u32 { m.sh[v.shard as usize].post + rank * m.pstride }

#[inline(always)]
fn arrive_word(m: &Machine, v: &View) -> u32 { m.sh[v.shard as usize].counters + v.ctr * m.stride }

/// Where words are padded the departures stand behind all arrivals, else each beside its arrivals.
#[inline(always)]
fn depart_word(m: &Machine, v: &View) -> u32 {
    arrive_word(m, v) + if m.stride == 2 { 1 } else { m.counters * m.stride }
}

fn arrive(m: &Machine, v: &mut View, pc: u8, by: u64) {
    let card = m.sh[v.shard as usize].ctr_card[v.ctr as usize];
    v.act(pc, C_ADD, arrive_word(m, v), card, by, 0);
}

fn depart_swap(m: &Machine, v: &mut View, pc: u8) {
    let card = m.sh[v.shard as usize].ctr_card[v.ctr as usize];
    v.act(pc, C_SWAP, depart_word(m, v), card, 0, 0);
}

fn join(m: &Machine, v: &mut View, lvl: u8) {
    v.lvl = lvl;
    let w = link(m, v).next;
    v.store(J1, w, 0);
}

fn enter_w<E: Env>(m: &Machine, v: &mut View, env: &mut E) {
    env.event(v.shard, E_ENTER_W, 0, v.rank as u8);
    if m.lock == Lock::Combine {
        v.load(K_FLAG, post(m, v, v.rank));
    } else {
        v.load(W_COUNT, m.sh[v.shard as usize].count);
    }
}

/// Settles at this level and all below, and enters.
fn settle<E: Env>(m: &Machine, v: &mut View, env: &mut E, lvl: u8) {
    for l in (0..=lvl).rev() {
        let k = &m.links[v.base as usize + l as usize];
        env.event(v.shard, E_SETTLE, k.queue, k.member as u8);
    }
    v.left[0] = m.links[v.base as usize].budget;
    enter_w(m, v, env);
}

/// The member of this level is its queue's head and has to settle.
fn head<E: Env>(m: &Machine, v: &mut View, env: &mut E) {
    match m.lock {
        Lock::Dmcs => settle(m, v, env, 0),
        Lock::Mcs | Lock::Rw => {
            if !link(m, v).top {
                join(m, v, v.lvl + 1);
            } else if m.lock == Lock::Mcs {
                settle(m, v, env, v.lvl);
            } else {
                v.ctr = 0;
                arrive(m, v, MU1, F);
            }
        }
        _ => {
            let k = link(m, v);
            v.store(PT1, m.sh[v.shard as usize].word, k.queue as u64 + 1);
        }
    }
}

fn release<E: Env>(m: &Machine, v: &mut View, env: &mut E) {
    if v.reader {
        env.event(v.shard, E_LEAVE_R, 0, v.rank as u8);
        v.ctr = v.rank / m.place.group;
        let card = m.sh[v.shard as usize].ctr_card[v.ctr as usize];
        v.act(REL_END, C_ADD, depart_word(m, v), card, 1, 0);
        return;
    }
    env.event(v.shard, E_LEAVE_W, 0, v.rank as u8);
    match m.lock {
        Lock::Spin => {
            let x = &m.sh[v.shard as usize];
            v.act(REL_END, C_SWAP, x.word, x.card, 0, 0);
        }
        Lock::Mcs | Lock::Rw => {
            v.lvl = 0;
            v.load(UL1, link(m, v).next);
        }
        _ => {
            v.lvl = 0;
            v.load(FL1, link(m, v).next);
        }
    }
}

/// The queue of this level is left.
fn left(m: &Machine, v: &mut View) {
    if v.lvl == 0 {
        v.op = IDLE;
    } else {
        v.lvl -= 1;
        resume(m, v);
    }
}

/// What is left of a leave once the queues above are left: the next head is told, or the queue is closed.
fn resume(m: &Machine, v: &mut View) {
    let k = link(m, v);
    let nx = v.nx[v.lvl as usize];
    if nx != 0 {
        v.store(UL4, k.base + (nx as u32 - 1) * m.stride + 1, 1);
    } else {
        v.tail(UL5, k, k.member as u64 + 1, 0);
    }
}

/// Tells the next member what it gets: the lock with what is left of the budget, or the place of the head.
fn hand(m: &Machine, v: &mut View, nx: u64) {
    let k = link(m, v);
    v.guess = nx;
    let b = v.left[v.lvl as usize];
    let code = if k.budget == NONE { 2 } else if b > 0 { 1 + b as u64 } else { 1 };
    v.store(FL4, k.base + (nx as u32 - 1) * m.stride + 1, code);
}

fn learn<E: Env>(m: &Machine, v: &mut View, env: &mut E, got: u64) -> usize {
    match v.pc {
        SPIN => {
            if got == 0 {
                enter_w(m, v, env);
            } else {
                v.op = TAKE;
            }
        }
        REL_END => v.op = IDLE,
        // Joining a queue.
        J1 => {
            let w = v.word;
            v.store(J2, w + 1, 0);
        }
        J2 => {
            let k = link(m, v);
            v.guess = 0;
            v.tail(J3, k, 0, k.member as u64 + 1);
        }
        J3 => {
            let k = link(m, v);
            if got != v.guess {
                v.guess = got;
                v.tail(J3, k, got, k.member as u64 + 1);
                return MOVED;
            }
            env.event(v.shard, E_JOIN, k.queue, k.member as u8);
            if got == 0 {
                head(m, v, env);
            } else {
                v.store(J4, k.base + (got as u32 - 1) * m.stride, k.member as u64 + 1);
            }
        }
        J4 => {
            let w = link(m, v).next + 1;
            v.load(J5, w);
        }
        J5 => {
            if got == 0 {
                // The same load comes again.
                return WAITING;
            }
            if got == 1 {
                head(m, v, env);
            } else if v.lvl == 0 {
                v.left[0] = (got - 2) as u32;
                enter_w(m, v, env);
            } else {
                settle(m, v, env, v.lvl - 1);
            }
        }
        // Between the cohorts.
        PT1 => {
            let q = link(m, v).queue;
            env.event(v.shard, E_ANNOUNCE, q + 1, 0);
            v.load(PT2, m.sh[v.shard as usize].tails[1 - q as usize]);
        }
        PT2 => {
            if got == 0 {
                settle(m, v, env, 0);
            } else {
                v.load(PT3, m.sh[v.shard as usize].word);
            }
        }
        PT3 => {
            let q = link(m, v).queue;
            if got != q as u64 + 1 {
                settle(m, v, env, 0);
            } else {
                v.load(PT2, m.sh[v.shard as usize].tails[1 - q as usize]);
                return WAITING;
            }
        }
        // Leaving the highest queue.
        FL1 => {
            if got != 0 {
                hand(m, v, got);
            } else {
                let k = link(m, v);
                v.tail(FL2, k, k.member as u64 + 1, 0);
            }
        }
        FL2 => {
            let k = link(m, v);
            if got == k.member as u64 + 1 {
                left(m, v);
            } else {
                v.load(FL3, k.next);
            }
        }
        FL3 => {
            if got == 0 {
                return WAITING;
            }
            hand(m, v, got);
        }
        FL4 => {
            let k = link(m, v);
            if v.a != 1 {
                env.event(v.shard, E_PASS, k.queue, v.guess as u8 - 1);
            }
            left(m, v);
        }
        // Leaving a queue with others above it.
        UL1 => {
            let k = link(m, v);
            let l = v.lvl as usize;
            v.nx[l] = got as u8;
            if got != 0 && v.left[l] > 0 {
                v.store(UL2, k.base + (got as u32 - 1) * m.stride + 1, 1 + v.left[l] as u64);
            } else if k.top {
                v.ctr = 0;
                depart_swap(m, v, MD1);
            } else {
                let up = m.links[v.base as usize + l + 1].next + 1;
                v.load(UA, up);
            }
        }
        UL2 => {
            let k = link(m, v);
            env.event(v.shard, E_PASS, k.queue, v.nx[v.lvl as usize] - 1);
            left(m, v);
        }
        UA => {
            v.lvl += 1;
            let k = link(m, v);
            v.left[v.lvl as usize] = if got < 2 { k.budget } else { (got - 2) as u32 };
            v.load(if k.top && m.lock == Lock::Mcs { FL1 } else { UL1 }, k.next);
        }
        UL4 => left(m, v),
        UL5 => {
            let k = link(m, v);
            if got == k.member as u64 + 1 {
                left(m, v);
            } else {
                v.load(UL6, k.next);
            }
        }
        UL6 => {
            if got == 0 {
                return WAITING;
            }
            let k = link(m, v);
            v.store(UL4, k.base + (got as u32 - 1) * m.stride + 1, 1);
        }
        // A writer's marks.
        MU1 => {
            if v.ctr + 1 < m.counters {
                v.ctr += 1;
                arrive(m, v, MU1, F);
            } else {
                v.ctr = 0;
                v.load(MU2, arrive_word(m, v));
            }
        }
        MU2 => {
            v.reg = got.wrapping_sub(F);
            v.load(MU3, depart_word(m, v));
        }
        MU3 => {
            if got != v.reg {
                v.load(MU2, arrive_word(m, v));
                return WAITING;
            }
            v.ctr += 1;
            if v.ctr == m.counters {
                settle(m, v, env, v.lvl);
            } else {
                v.load(MU2, arrive_word(m, v));
            }
        }
        MD1 => arrive(m, v, MD2, F.wrapping_add(got).wrapping_neg()),
        MD2 => {
            v.ctr += 1;
            if v.ctr < m.counters {
                depart_swap(m, v, MD1);
            } else {
                resume(m, v);
            }
        }
        // A reader.
        RD1 => {
            if got < m.place.readers as u64 {
                env.event(v.shard, E_ENTER_R, 0, v.rank as u8);
                v.load(W_COUNT, m.sh[v.shard as usize].count);
            } else {
                v.reg = got;
                arrive(m, v, RD2, 1u64.wrapping_neg());
            }
        }
        RD2 => v.load(RD3, m.sh[v.shard as usize].root_tail),
        RD3 => {
            if got == 0 && v.reg < F {
                depart_swap(m, v, RD4);
            } else {
                v.load(RD6, arrive_word(m, v));
            }
        }
        RD4 => arrive(m, v, RD5, got.wrapping_neg()),
        RD5 => arrive(m, v, RD1, 1),
        RD6 => {
            if got < m.place.readers as u64 {
                arrive(m, v, RD1, 1);
            } else {
                v.reg = got;
                v.load(RD7, m.sh[v.shard as usize].root_tail);
            }
        }
        RD7 => {
            if v.reg < F && got == 0 {
                arrive(m, v, RD1, 1);
            } else {
                v.load(RD6, arrive_word(m, v));
                return WAITING;
            }
        }
        // A block's work.
        W_COUNT => {
            v.c = got as u32;
            if v.cur.kind == HOLD {
                let e = Entry {
                    value: 0, at: v.c, seq: v.seq0 as u16, rank: v.rank as u8, code: HELD, batch: 0, part: 0, update: false,
                };
                env.entry(v.shard, e);
                release(m, v, env);
            } else {
                v.bi = 0;
                v.nw = 0;
                v.failed = false;
                v.seen.now += 1;
                walk_start(m, v);
                walk(m, v, env);
            }
        }
        W_WALK => {
            let w = v.asked as usize;
            v.seen.val[w] = got;
            v.seen.gen[w] = v.seen.now;
            walk(m, v, env);
        }
        W_JOURNAL => {
            v.jf += 1;
            if v.jf == 6 {
                v.jf = 0;
                v.jp += 1;
            }
            journal(m, v);
        }
        W_WRITE => {
            v.wi += 1;
            write(m, v);
        }
        W_DONE => {
            if m.lock == Lock::Combine {
                let (code, value) = v.seen.reps[0];
                let e = Entry {
                    value, at: v.c, seq: v.seqj as u16, rank: v.sj as u8, code, batch: 0, part: 0, update: true,
                };
                env.entry(v.shard, e);
                let at = v.c as u64;
                v.c += 1;
                v.store(K_AT, post(m, v, v.sj) + 6, at);
                return MOVED;
            }
            for i in 0..v.blk {
                let (code, value) = v.seen.reps[i as usize];
                let (batch, part) = if v.blk > 1 { (v.blk, i) } else { (0, 0) };
                let e = Entry {
                    value, at: v.c + i as u32, seq: v.seq0 as u16 + i as u16, rank: v.rank as u8, code, batch, part, update: true,
                };
                env.entry(v.shard, e);
            }
            if m.lock == Lock::Seq {
                v.store(V_EVEN, m.sh[v.shard as usize].ver, v.ver.wrapping_add(2));
            } else {
                release(m, v, env);
            }
        }
        // Optimistic readers.
        V_LOAD => {
            v.ver = got;
            v.store(V_ODD, m.sh[v.shard as usize].ver, got.wrapping_add(1));
        }
        V_ODD => journal(m, v),
        V_EVEN => release(m, v, env),
        G_VER => {
            if got & 1 == 1 {
                return WAITING;
            }
            v.ver = got;
            v.load(W_COUNT, m.sh[v.shard as usize].count);
        }
        G_AGAIN => {
            if got != v.ver {
                v.load(G_VER, m.sh[v.shard as usize].ver);
                return LOST;
            }
            let (code, value) = v.seen.reps[0];
            let e = Entry {
                value, at: v.c, seq: v.seq0 as u16, rank: v.rank as u8, code, batch: 0, part: 0, update: false,
            };
            env.entry(v.shard, e);
            v.op = IDLE;
        }
        // Flat combining.
        P1 => v.store(P2, v.word + 1, v.cur.key),
        P2 => {
            let x = if matches!(v.cur.kind, PUT | ADD | CAS) { v.cur.a } else { 0 };
            v.store(P3, v.word + 1, x);
        }
        P3 => {
            let x = if v.cur.kind == CAS { v.cur.b } else { 0 };
            v.store(P4, v.word + 1, x);
        }
        P4 => v.store(P5, v.word + 1, v.seq0 as u64),
        P5 => v.store(P6, post(m, v, v.rank), 1),
        P6 => join(m, v, 0),
        K_FLAG => {
            if got == 2 {
                v.load(O_AT, post(m, v, v.rank) + 6);
            } else {
                v.sj = NONE;
                v.load(K_J, m.sh[v.shard as usize].count);
            }
        }
        K_J => {
            if v.sj == NONE {
                // That was the count.
                v.c = got as u32;
                v.sj = 0;
                v.load(K_J, post(m, v, 0));
            } else if got == 1 {
                v.load(K_KIND, v.word + 1);
            } else {
                sweep_next(m, v);
            }
        }
        K_KIND => {
            v.cur.kind = got as u8;
            v.load(K_KEY, v.word + 1);
        }
        K_KEY => {
            v.cur.key = got;
            v.load(K_FIRST, v.word + 1);
        }
        K_FIRST => {
            v.cur.a = got;
            v.load(K_SECOND, v.word + 1);
        }
        K_SECOND => {
            v.cur.b = got;
            v.load(K_SEQ, v.word + 1);
        }
        K_SEQ => {
            v.seqj = got as u32;
            v.bi = 0;
            v.nw = 0;
            if v.cur.kind == HOLD {
                v.seen.reps[0] = (HELD, 0);
                v.store(K_AT, post(m, v, v.sj) + 6, v.c as u64);
            } else {
                v.seen.now += 1;
                walk_start(m, v);
                walk(m, v, env);
            }
        }
        K_AT => v.store(K_CODE, v.word + 1, v.seen.reps[0].0 as u64),
        K_CODE => v.store(K_VALUE, v.word + 1, v.seen.reps[0].1),
        K_VALUE => v.store(K_SET, v.word - 8, 2),
        K_SET => {
            if v.cur.kind > CAS {
                let (code, value) = v.seen.reps[0];
                let e = Entry {
                    value, at: v.c, seq: v.seqj as u16, rank: v.sj as u8, code, batch: 0, part: 0, update: false,
                };
                env.entry(v.shard, e);
            }
            sweep_next(m, v);
        }
        O_AT => v.load(O_CODE, v.word + 1),
        O_CODE => v.load(O_VALUE, v.word + 1),
        O_VALUE => v.store(O_CLEAR, v.word - 8, 0),
        _ => release(m, v, env),
    }
    MOVED
}

fn sweep_next(m: &Machine, v: &mut View) {
    v.sj += 1;
    if v.sj == m.ranks {
        v.load(O_AT, post(m, v, v.rank) + 6);
    } else {
        v.load(K_J, post(m, v, v.sj));
    }
}

// The volume.

fn walk_start(m: &Machine, v: &mut View) {
    v.bkt = ((v.cur.key / m.shards as u64) % m.buckets as u64) as u32;
    v.prev = NONE;
    v.passed = 0;
    v.wk = WK_STATE;
}

/// Goes on with the reading: either the next load stands ready, or the reading is over and what
/// follows it stands ready.
fn walk<E: Env>(m: &Machine, v: &mut View, env: &mut E) {
    let cells = 1 + 3 * m.buckets;
    let bw = 1 + 3 * v.bkt;
    macro_rules! need {
        ($word:expr) => {{
            let w: u32 = $word;
            if v.seen.gen[w as usize] != v.seen.now {
                v.asked = w;
                v.load(W_WALK, m.sh[v.shard as usize].vol + w);
                return;
            }
            v.seen.val[w as usize]
        }};
    }
    loop {
        match v.wk {
            WK_STATE => {
                let st = need!(bw);
                if st == 0 {
                    v.found = ABSENT;
                    break;
                }
                v.wk = WK_KEY;
            }
            WK_KEY => {
                let key = need!(bw + 1);
                if key == v.cur.key {
                    v.found = INLINE;
                    v.wk = WK_VAL;
                    continue;
                }
                let st = v.seen.val[bw as usize];
                if !follow(m, v, st - 1) {
                    break;
                }
            }
            WK_VAL => {
                need!(bw + 2);
                let st = v.seen.val[bw as usize];
                if v.cur.kind != DEL || st < 2 {
                    break;
                }
                let i = st - 2;
                if i >= m.overflow as u64 {
                    break;
                }
                v.cell = i as u32;
                v.wk = WK_DKEY;
            }
            WK_DKEY => {
                need!(cells + 3 * v.cell + 1);
                v.wk = WK_DVAL;
            }
            WK_DVAL => {
                need!(cells + 3 * v.cell + 2);
                v.wk = WK_DLINK;
            }
            WK_DLINK => {
                need!(cells + 3 * v.cell);
                v.wk = WK_DFREE;
            }
            WK_DFREE => {
                need!(0);
                break;
            }
            WK_CKEY => {
                let key = need!(cells + 3 * v.cell + 1);
                if key == v.cur.key {
                    v.found = CELL;
                    v.wk = WK_CVAL;
                } else {
                    v.wk = WK_LINK;
                }
            }
            WK_CVAL => {
                need!(cells + 3 * v.cell + 2);
                if v.cur.kind != DEL {
                    break;
                }
                v.wk = WK_CLINK;
            }
            WK_CLINK => {
                need!(cells + 3 * v.cell);
                v.wk = WK_CFREE;
            }
            WK_CFREE => {
                need!(0);
                break;
            }
            WK_LINK => {
                let link = need!(cells + 3 * v.cell);
                v.prev = v.cell;
                v.passed += 1;
                if !follow(m, v, link) {
                    break;
                }
            }
            WK_FREE => {
                let free = need!(0);
                if free == 0 || free > m.overflow as u64 {
                    break;
                }
                v.cell = free as u32 - 1;
                v.wk = WK_FLINK;
            }
            _ => {
                // The cell that the free list names.
                need!(cells + 3 * v.cell);
                break;
            }
        }
    }
    over(m, v, env);
}

/// Goes to the cell that a link names. False where the reading is over.
#[inline]
fn follow(m: &Machine, v: &mut View, link: u64) -> bool {
    if link == 0 {
        v.found = ABSENT;
        if v.cur.kind != PUT {
            return false;
        }
        v.wk = WK_FREE;
        return true;
    }
    if link > m.overflow as u64 || v.passed >= m.overflow {
        v.found = ABSENT;
        return false;
    }
    v.cell = link as u32 - 1;
    v.wk = WK_CKEY;
    true
}

/// The reading of one call is over: it is decided, and the next thing is made ready.
fn over<E: Env>(m: &Machine, v: &mut View, env: &mut E) {
    let from = v.nw;
    let rep = decide(m, v);
    v.seen.reps[v.bi as usize] = rep;
    if v.cur.kind == GET {
        match m.lock {
            Lock::Combine => v.store(K_AT, post(m, v, v.sj) + 6, v.c as u64),
            Lock::Seq => v.load(G_AGAIN, m.sh[v.shard as usize].ver),
            _ => {
                let e = Entry {
                    value: rep.1, at: v.c, seq: v.seq0 as u16, rank: v.rank as u8, code: rep.0, batch: 0, part: 0, update: false,
                };
                env.entry(v.shard, e);
                release(m, v, env);
            }
        }
        return;
    }
    if v.blk > 1 {
        if rep.0 == FULL || rep.0 == OVER {
            v.nw = 0;
            for i in 0..v.blk {
                if i != v.bi {
                    v.seen.reps[i as usize] = (UNDONE, 0);
                }
            }
        } else {
            for i in from..v.nw {
                let (w, x) = v.seen.writes[i as usize];
                v.seen.val[w as usize] = x;
                v.seen.gen[w as usize] = v.seen.now;
            }
            v.bi += 1;
            if v.bi < v.blk {
                v.cur = m.ops.by_rank[v.rank as usize][(v.seq0 + v.bi as u32) as usize];
                walk_start(m, v);
                return walk(m, v, env);
            }
        }
    }
    v.jp = 0;
    v.jf = 0;
    v.wi = 0;
    if m.lock == Lock::Seq {
        v.load(V_LOAD, m.sh[v.shard as usize].ver);
    } else {
        journal(m, v);
    }
}

/// Makes the next store into the journal ready; after the last the writes.
fn journal(m: &Machine, v: &mut View) {
    if v.jp == v.blk {
        return write(m, v);
    }
    let combine = m.lock == Lock::Combine;
    let (rank, seq) = if combine { (v.sj, v.seqj) } else { (v.rank, v.seq0 + v.jp as u32) };
    let call = if v.blk > 1 { &m.ops.by_rank[v.rank as usize][seq as usize] } else { &v.cur };
    let (code, value) = v.seen.reps[v.jp as usize];
    let x = match v.jf {
        0 => (rank as u64) << 32 | seq as u64,
        1 => {
            let (n, p) = if v.blk > 1 { (v.blk as u64, v.jp as u64) } else { (0, 0) };
            call.kind as u64 + 8 * code as u64 + 128 * n + 2048 * p
        }
        2 => call.key,
        3 => call.a,
        4 => call.b,
        _ => value,
    };
    let w = m.sh[v.shard as usize].journal + 6 * (v.c + v.jp as u32) + v.jf as u32;
    v.store(W_JOURNAL, w, x);
}

/// Makes the next write to the volume ready; after the last the count.
fn write(m: &Machine, v: &mut View) {
    let x = &m.sh[v.shard as usize];
    if v.wi < v.nw {
        let (w, value) = v.seen.writes[v.wi as usize];
        v.store(W_WRITE, x.vol + w, value);
    } else {
        v.store(W_DONE, x.count, v.c as u64 + v.blk as u64);
    }
}

/// Reply and writes of the current call; the writes are appended to those kept.
fn decide(m: &Machine, v: &mut View) -> (u8, u64) {
    let cells = 1 + 3 * m.buckets;
    let bw = 1 + 3 * v.bkt;
    let call = v.cur;
    let s = &v.seen.val;
    let there = match v.found {
        INLINE => Some(bw + 2),
        CELL => Some(cells + 3 * v.cell + 2),
        _ => None,
    };
    let mut n = v.nw as usize;
    let w = &mut v.seen.writes;
    let mut push = |word: u32, value: u64| {
        w[n] = (word, value);
        n += 1;
    };
    let rep = match (call.kind, there) {
        (GET, Some(p)) => (VAL, s[p as usize]),
        (GET, None) | (DEL, None) | (ADD, None) | (CAS, None) => (NOTHING, 0),
        (PUT, Some(p)) => {
            push(p, call.a);
            (WAS, s[p as usize])
        }
        (PUT, None) => {
            // Where the bucket is empty nothing but its state was read.
            let st = s[bw as usize];
            if st == 0 {
                push(bw + 1, call.key);
                push(bw + 2, call.a);
                push(bw, 1);
                (NEW, 0)
            } else if s[0] == 0 {
                (FULL, 0)
            } else {
                let i = s[0] - 1;
                let c = cells + 3 * i as u32;
                push(c, st - 1);
                push(c + 1, call.key);
                push(c + 2, call.a);
                push(0, s[c as usize]);
                push(bw, 2 + i);
                (NEW, 0)
            }
        }
        (ADD, Some(p)) => {
            let x = s[p as usize];
            match x.checked_add(call.a) {
                None => (OVER, x),
                Some(y) => {
                    push(p, y);
                    (SUM, y)
                }
            }
        }
        (CAS, Some(p)) => {
            let x = s[p as usize];
            if x == call.a {
                push(p, call.b);
                (WAS, x)
            } else {
                (NO, x)
            }
        }
        (_, Some(p)) => {
            // A del.
            let st = s[bw as usize];
            if v.found == INLINE {
                if st == 1 {
                    push(bw, 0);
                } else {
                    let c = cells + 3 * v.cell;
                    push(bw + 1, s[c as usize + 1]);
                    push(bw + 2, s[c as usize + 2]);
                    push(bw, s[c as usize] + 1);
                    push(c, s[0]);
                    push(0, 1 + v.cell as u64);
                }
            } else {
                let c = cells + 3 * v.cell;
                if v.prev == NONE {
                    push(bw, s[c as usize] + 1);
                } else {
                    push(cells + 3 * v.prev, s[c as usize]);
                }
                push(c, s[0]);
                push(0, 1 + v.cell as u64);
            }
            (WAS, s[p as usize])
        }
        _ => (HELD, 0),
    };
    v.nw = n as u8;
    rep
}
