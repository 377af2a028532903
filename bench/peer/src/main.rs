//! A plain `rmalock`: a second implementation of the whole program, unproved and fast, with nothing but std.
//!
//! It takes the same words, prints the same bytes and ends with the same status, but says nothing on standard error. README.md beside this
//! folder says what it is for.

mod check;
mod machine;
mod model;
mod report;
mod text;

use std::fs::File;
use std::io::{Read, Write};
use std::os::unix::ffi::{OsStrExt, OsStringExt};
use std::sync::atomic::{AtomicU64, Ordering::SeqCst};

use machine::*;
use model::*;
use report::*;
use text::*;

const USAGE: &str = "usage: rmalock run PLACE CALLS | replay PLACE CALLS SCHEDULE | make NUMBER RANKS CALLS | check PLACE CALLS REPORT | show PLACE\n";
const SMALL: u64 = 4_194_304;
const LARGE: u64 = 16_777_216;

/// A status, and the bytes that belong to it.
type Out = (u8, Vec<u8>);

fn refused(name: &[u8], f: Refusal) -> Out {
    let mut o = b"refused ".to_vec();
    o.extend_from_slice(name);
    put_kv(&mut o, " ", f.line as u64);
    put_kv(&mut o, " ", f.word as u64);
    o.push(b' ');
    put(&mut o, f.why.name());
    o.push(b'\n');
    (2, o)
}

fn read_file(name: &[u8], max: u64) -> Result<Vec<u8>, Out> {
    let fault = |_| (3, vec![]);
    let f = File::open(std::ffi::OsStr::from_bytes(name)).map_err(fault)?;
    let size = f.metadata().map_err(fault)?.len().min(max + 1);
    let mut bytes = Vec::with_capacity(size as usize + 1);
    f.take(max + 1).read_to_end(&mut bytes).map_err(fault)?;
    if bytes.len() as u64 > max {
        return Err(refused(name, Refusal { line: 0, word: 0, why: Why::TooLong }));
    }
    Ok(bytes)
}

fn word_refusal(name: &[u8], line: u32, word: u32) -> Out { refused(name, Refusal { line, word, why: Why::Word }) }

fn get_place(name: &[u8]) -> Result<Place, Out> {
    let bytes = read_file(name, SMALL)?;
    read_place(&bytes).map_err(|f| refused(name, f))
}

fn get_ops(name: &[u8], place: &Place) -> Result<Ops, Out> {
    let bytes = read_file(name, SMALL)?;
    let ops = read_ops(place.ranks(), place.shards, &bytes).map_err(|f| refused(name, f))?;
    if ops.batches && place.lock == Lock::Combine {
        return Err(word_refusal(name, 0, 0));
    }
    Ok(ops)
}

// Replays and `make`.

/// Plain words, for one thread.
struct Flat<const EVENTS: bool> {
    words: Vec<u64>,
    step: u32,
    queues: usize,
    tallies: Vec<[u64; 2]>,
    events: Vec<Vec<Ev>>,
    entries: Vec<Vec<Entry>>,
    done: Vec<u64>,
}

impl<const EVENTS: bool> Env for Flat<EVENTS> {
    #[inline(always)]
    fn load(&mut self, w: u32) -> u64 { self.words[w as usize] }
    #[inline(always)]
    fn store(&mut self, w: u32, v: u64) { self.words[w as usize] = v }
    #[inline(always)]
    fn cas(&mut self, w: u32, old: u64, new: u64) -> u64 {
        let p = &mut self.words[w as usize];
        let found = *p;
        if found == old {
            *p = new;
        }
        found
    }
    #[inline(always)]
    fn event(&mut self, shard: u32, kind: u8, queue: u8, member: u8) {
        if kind == E_SETTLE || kind == E_PASS {
            self.tallies[shard as usize * self.queues + queue as usize][(kind == E_PASS) as usize] += 1;
        }
        if EVENTS {
            self.events[shard as usize].push(Ev { step: self.step, kind, queue, member });
        }
    }
    #[inline(always)]
    fn entry(&mut self, shard: u32, e: Entry) {
        self.done[e.rank as usize] += 1;
        self.entries[shard as usize].push(e);
    }
}

fn flat<const EVENTS: bool>(m: &Machine) -> (Flat<EVENTS>, Vec<View>) {
    let p = m.place;
    let mut words = vec![0; m.words as usize];
    m.fill(|w, v| words[w as usize] = v);
    let s = p.shards as usize;
    let env = Flat {
        words, step: 0, queues: p.queues(), tallies: vec![[0; 2]; s * p.queues()],
        events: (0..s).map(|_| vec![]).collect(), entries: (0..s).map(|_| vec![]).collect(), done: vec![0; p.ranks()],
    };
    let views = (0..p.ranks() as u32).map(|k| m.view(k)).collect();
    (env, views)
}

fn replay(words: &[Vec<u8>]) -> Result<Out, Out> {
    let place = get_place(&words[1])?;
    let ops = get_ops(&words[2], &place)?;
    let turns = {
        let bytes = read_file(&words[3], LARGE)?;
        read_schedule(place.ranks(), &bytes).map_err(|f| refused(&words[3], f))?
    };
    let m = Machine::new(&place, &ops, false);
    let (mut env, mut views) = flat::<true>(&m);
    let mut answers = [0u64; 5];
    for turn in &turns {
        let v = &mut views[(turn & 31) as usize];
        for _ in 0..turn >> 5 {
            let a = step(&m, v, &mut env);
            answers[a] += 1;
            env.step += 1;
        }
    }
    drop(turns);
    let mut o = Vec::with_capacity(ops.total() * 60 + env.events.iter().map(|e| e.len()).sum::<usize>() * 30 + 10_000);
    head(&mut o, &place, "replay ");
    let mut tails = Tails::new(&place);
    let q = place.queues();
    for i in 0..place.shards as usize {
        let updates = env.words[m.sh[i].count as usize];
        shard(&mut o, &place, &ops, i, updates, &mut env.entries[i], &env.tallies[i * q..(i + 1) * q]);
        tails.events(&mut o, &place, &env.events[i]);
    }
    ranks(&mut o, &env.done, &ops);
    steps(&mut o, &answers);
    Ok((0, o))
}

fn generate(number: u64, ranks: u32, calls: u32) -> (Place, Ops) {
    let mut p = Place::new();
    p.lock = Lock::Alock;
    p.local = 4;
    p.remote = 4;
    p.shards = 4;
    p.buckets = 16;
    p.overflow = 16;
    for k in 0..ranks {
        p.add_rank([k / 4, 0, 0]);
    }
    p.homes = (0..4).map(|s| s % p.nodes).collect();
    let mut g = number % (1 << 31);
    let mut draw = |n: u64| {
        g = (g * 1103515245 + 12345) % (1 << 31);
        g / 65536 % n
    };
    let r = ranks as usize;
    let mut o = Ops { by_rank: vec![vec![]; r], sizes: vec![vec![]; r], batches: false };
    for i in 0..calls as usize {
        let kind = [PUT, PUT, PUT, GET, GET, DEL, ADD, CAS][draw(8) as usize];
        let key = draw(100);
        let a = if matches!(kind, PUT | ADD | CAS) { draw(1000) } else { 0 };
        let b = if kind == CAS { draw(1000) } else { 0 };
        o.by_rank[i % r].push(Call { kind, key, a, b });
        o.sizes[i % r].push(1);
    }
    (p, o)
}

fn make(number: u64, ranks: u32, calls: u32) -> Out {
    let (place, ops) = generate(number, ranks, calls);
    let m = Machine::new(&place, &ops, false);
    let (mut env, mut views) = flat::<false>(&m);
    let mut answers = [0u64; 5];
    let mut n = 0;
    'all: while views.iter().any(|v| !v.finished()) {
        for v in views.iter_mut() {
            if n == MAX_STEPS {
                break 'all;
            }
            n += 1;
            let a = step(&m, v, &mut env);
            answers[a] += 1;
        }
    }
    let mut o = vec![];
    put_kv(&mut o, "rmalock-summary 1\nranks ", ranks as u64);
    put_kv(&mut o, " calls ", calls as u64);
    o.push(b'\n');
    for i in 0..4 {
        put_kv(&mut o, "shard ", i as u64);
        put_kv(&mut o, " updates ", env.words[m.sh[i].count as usize]);
        put_kv(&mut o, " reads ", env.entries[i].iter().filter(|e| !e.update).count() as u64);
        let t = &env.tallies[i * 2..i * 2 + 2];
        put_kv(&mut o, " settled ", t[0][0] + t[1][0]);
        put_kv(&mut o, " passed ", t[0][1] + t[1][1]);
        o.push(b'\n');
    }
    put_kv(&mut o, "done ", env.done.iter().sum());
    put_kv(&mut o, " of ", calls as u64);
    o.push(b'\n');
    steps(&mut o, &answers);
    (0, o)
}

// Runs by threads.

/// Words that threads share.
struct Shared<'a> { words: &'a [AtomicU64], queues: usize, tallies: Vec<[u64; 2]>, entries: Vec<(u32, Entry)> }

impl Env for Shared<'_> {
    #[inline(always)]
    fn load(&mut self, w: u32) -> u64 { self.words[w as usize].load(SeqCst) }
    #[inline(always)]
    fn store(&mut self, w: u32, v: u64) { self.words[w as usize].store(v, SeqCst) }
    #[inline(always)]
    fn cas(&mut self, w: u32, old: u64, new: u64) -> u64 {
        match self.words[w as usize].compare_exchange(old, new, SeqCst, SeqCst) {
            Ok(x) | Err(x) => x,
        }
    }
    #[inline(always)]
    fn event(&mut self, shard: u32, kind: u8, queue: u8, _: u8) {
        if kind == E_SETTLE || kind == E_PASS {
            self.tallies[shard as usize * self.queues + queue as usize][(kind == E_PASS) as usize] += 1;
        }
    }
    #[inline(always)]
    fn entry(&mut self, shard: u32, e: Entry) { self.entries.push((shard, e)) }
}

/// Waits a little: it spins at first, and then gives the processor away.
struct Backoff { tries: u32 }

impl Backoff {
    #[inline]
    fn wait(&mut self) {
        if self.tries < 7 {
            for _ in 0..1 << self.tries {
                std::hint::spin_loop();
            }
            self.tries += 1;
        } else {
            std::thread::yield_now();
        }
    }
}

/// Steps one rank to its end. Two things matter where there are more threads than processors:
/// - A rank that has lost may still be in the card, which others need, the holder of the lock too. So it leaves the card first, and only then waits.
/// - One atom that moved is no sign that the waiting is over: a round of a wait may have two loads, and a lost act is followed by its leave and
///   the next taking of the card. So a wait begins anew, short, only after four atoms in a row that moved. (Were it begun anew with each, it
///   would never come to give the processor away, and each wait would last a whole time slice.)
fn work(m: &Machine, env: &mut Shared, rank: u32) {
    let mut v = m.view(rank);
    let mut b = Backoff { tries: 0 };
    let mut calm = 0u32;
    loop {
        match step(m, &mut v, env) {
            MOVED => {
                calm += 1;
                if calm == 4 {
                    b.tries = 0;
                }
            }
            FINISHED => return,
            LOST => {
                calm = 0;
                if v.in_card() {
                    step(m, &mut v, env);
                }
                b.wait();
            }
            _ => {
                calm = 0;
                b.wait();
            }
        }
    }
}

fn run(words: &[Vec<u8>]) -> Result<Out, Out> {
    let place = get_place(&words[1])?;
    let ops = get_ops(&words[2], &place)?;
    let m = Machine::new(&place, &ops, true);
    let mut cells: Vec<AtomicU64> = Vec::with_capacity(m.words as usize);
    cells.resize_with(m.words as usize, || AtomicU64::new(0));
    m.fill(|w, v| cells[w as usize].store(v, SeqCst));
    let q = place.queues();
    let s = place.shards as usize;
    let mut envs: Vec<Shared> = ops.by_rank.iter()
        .map(|c| Shared { words: &cells, queues: q, tallies: vec![[0; 2]; s * q], entries: Vec::with_capacity(c.len()) })
        .collect();
    let mut slots: Vec<_> = envs.iter_mut().map(|e| std::sync::Mutex::new(Some(e))).collect();
    std::thread::scope(|scope| {
        let m = &m;
        let mut own = vec![0];
        for (k, slot) in slots.iter().enumerate().skip(1) {
            let body = move || {
                let e = slot.lock().unwrap().take().unwrap();
                work(m, e, k as u32)
            };
            if std::thread::Builder::new().stack_size(256 * 1024).spawn_scoped(scope, body).is_err() {
                own.push(k);
            }
        }
        // The caller's own thread makes the steps of rank 0, and of those for which no thread could be started.
        for k in own {
            let e = slots[k].lock().unwrap().take().unwrap();
            work(m, e, k as u32);
        }
    });
    slots.clear();
    drop(slots);
    let mut tallies = vec![[0u64; 2]; s * q];
    let mut entries: Vec<Vec<Entry>> = vec![vec![]; s];
    let mut done = vec![0u64; place.ranks()];
    for e in envs {
        for (t, x) in tallies.iter_mut().zip(&e.tallies) {
            t[0] += x[0];
            t[1] += x[1];
        }
        for (shard, x) in e.entries {
            entries[shard as usize].push(x);
            done[x.rank as usize] += 1;
        }
    }
    let mut o = Vec::with_capacity(ops.total() * 60 + 10_000);
    head(&mut o, &place, "run ");
    for i in 0..s {
        let updates = cells[m.sh[i].count as usize].load(SeqCst);
        shard(&mut o, &place, &ops, i, updates, &mut entries[i], &tallies[i * q..(i + 1) * q]);
        for (k, v) in m.pairs(i, |w| cells[w as usize].load(SeqCst)) {
            put_kv(&mut o, "pair ", k);
            put_kv(&mut o, " ", v);
            o.push(b'\n');
        }
    }
    ranks(&mut o, &done, &ops);
    put(&mut o, "end\n");
    Ok((0, o))
}

// `check`, and the words of the command line.

fn check_form(words: &[Vec<u8>]) -> Result<Out, Out> {
    let place = get_place(&words[1])?;
    let ops = get_ops(&words[2], &place)?;
    let rep = {
        let bytes = read_file(&words[3], LARGE)?;
        read_report(&place, &bytes).map_err(|f| refused(&words[3], f))?
    };
    Ok(match check::check(&place, &ops, &rep) {
        Ok(()) => (0, b"legal\n".to_vec()),
        Err(line) => (6, line),
    })
}

fn top(words: &[Vec<u8>]) -> Out {
    let form = words.first().map(|w| w.as_slice()).unwrap_or(b"");
    let r = match (form, words.len()) {
        (b"replay", 4) => replay(words),
        (b"run", 3) => run(words),
        (b"show", 2) => get_place(&words[1]).map(|p| (0, shape_text(&p))),
        (b"check", 4) => check_form(words),
        (b"make", 4) => match (number(&words[1]), number(&words[2]), number(&words[3])) {
            (Some(n), Some(r @ 1..=32), Some(c @ 0..=20_000)) => Ok(make(n, r as u32, c as u32)),
            _ => Ok((1, USAGE.into())),
        },
        _ => Ok((1, USAGE.into())),
    };
    r.unwrap_or_else(|o| o)
}

fn main() {
    let words: Vec<Vec<u8>> = std::env::args_os().skip(1).map(|w| w.into_vec()).collect();
    let utf8 = words.iter().all(|w| std::str::from_utf8(w).is_ok());
    let (status, bytes) = if utf8 { top(&words) } else { (1, USAGE.into()) };
    let mut out = std::io::stdout().lock();
    let status = match out.write_all(&bytes).and_then(|_| out.flush()) {
        Ok(()) => status,
        Err(_) => 4,
    };
    std::process::exit(status as i32);
}
