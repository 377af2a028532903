//! Lines, words, numbers and refusals, and the building of output text. FORMATS in `docs/` says which fault comes first.

#[derive(Clone, Copy, PartialEq, Eq, Debug)]
pub enum Why { Word, Number, Range, Repeat, Missing, Extra, Order, NoEnd, Version, TooLong }

impl Why {
    pub fn name(self) -> &'static str {
        match self {
            Why::Word => "word",
            Why::Number => "number",
            Why::Range => "range",
            Why::Repeat => "repeat",
            Why::Missing => "missing",
            Why::Extra => "extra",
            Why::Order => "order",
            Why::NoEnd => "noend",
            Why::Version => "version",
            Why::TooLong => "toolong",
        }
    }
}

#[derive(Clone, Copy, PartialEq, Eq, Debug)]
pub struct Refusal { pub line: u32, pub word: u32, pub why: Why }

pub type Res<T> = Result<T, Refusal>;

/// The number that a word spells; none where the word isn't its one decimal spelling.
#[inline]
pub fn number(w: &[u8]) -> Option<u64> {
    let n = w.len();
    if n == 0 || n > 20 || (w[0] == b'0' && n > 1) {
        return None;
    }
    let mut v: u64 = 0;
    if n < 20 {
        for &c in w {
            let d = c.wrapping_sub(b'0');
            if d > 9 {
                return None;
            }
            v = v * 10 + d as u64;
        }
        return Some(v);
    }
    for &c in w {
        let d = c.wrapping_sub(b'0');
        if d > 9 {
            return None;
        }
        v = v.checked_mul(10)?.checked_add(d as u64)?;
    }
    Some(v)
}

/// A text, read line by line and word by word. Lines and words are counted from 1.
#[derive(Clone, Copy)]
pub struct Text<'a> {
    pub b: &'a [u8],
    pub pos: usize,
    pub line: u32,
    cur: usize,
    end: usize,
    more: bool,
    n: u32,
}

impl<'a> Text<'a> {
    pub fn new(b: &'a [u8]) -> Text<'a> {
        Text { b, pos: 0, line: 0, cur: 0, end: 0, more: false, n: 0 }
    }

    /// A refusal at a word of this line.
    #[cold]
    pub fn at(&self, word: u32, why: Why) -> Refusal {
        Refusal { line: self.line, word, why }
    }

    /// A refusal at the word that was read last.
    #[cold]
    pub fn here(&self, why: Why) -> Refusal {
        Refusal { line: self.line, word: self.n, why }
    }

    /// Goes to the next line, which must be there and be ended.
    #[inline]
    pub fn next_line(&mut self) -> Res<()> {
        self.line += 1;
        let rest = &self.b[self.pos..];
        match find(rest, b'\n') {
            None => Err(self.at(0, Why::NoEnd)),
            Some(i) => {
                self.cur = self.pos;
                self.end = self.pos + i;
                self.pos = self.end + 1;
                self.more = true;
                self.n = 0;
                Ok(())
            }
        }
    }

    /// The next word of the line, if there is one.
    #[inline]
    pub fn word(&mut self) -> Option<&'a [u8]> {
        if !self.more {
            return None;
        }
        self.n += 1;
        let part = &self.b[self.cur..self.end];
        match find(part, b' ') {
            None => {
                self.more = false;
                Some(part)
            }
            Some(i) => {
                self.cur += i + 1;
                Some(&part[..i])
            }
        }
    }

    /// The next word, which must be there.
    #[inline]
    pub fn need(&mut self) -> Res<&'a [u8]> {
        match self.word() {
            Some(w) => Ok(w),
            None => Err(self.at(self.n + 1, Why::Missing)),
        }
    }

    /// The next word, which must be this one.
    #[inline]
    pub fn fixed(&mut self, want: &[u8]) -> Res<()> {
        if self.need()? == want { Ok(()) } else { Err(self.here(Why::Word)) }
    }

    /// The next word, which must be a number.
    #[inline]
    pub fn num(&mut self) -> Res<u64> {
        match number(self.need()?) {
            Some(v) => Ok(v),
            None => Err(self.here(Why::Number)),
        }
    }

    /// The next word, which must be a number in this range.
    #[inline]
    pub fn num_in(&mut self, lo: u64, hi: u64) -> Res<u64> {
        let v = self.num()?;
        if v < lo || v > hi { Err(self.here(Why::Range)) } else { Ok(v) }
    }

    /// No further word.
    #[inline]
    pub fn last(&self) -> Res<()> {
        if self.more { Err(self.at(self.n + 1, Why::Extra)) } else { Ok(()) }
    }

    #[inline]
    pub fn has_more(&self) -> bool { self.more }

    /// After `end`: nothing further.
    pub fn finish(&self) -> Res<()> {
        self.last()?;
        if self.pos < self.b.len() {
            return Err(Refusal { line: self.line + 1, word: 0, why: Why::Extra });
        }
        Ok(())
    }

    /// The first line: a name and a version out of `1` and, where allowed, `2`.
    pub fn header(&mut self, name: &[u8], two: bool) -> Res<u32> {
        self.next_line()?;
        self.fixed(name)?;
        let w = self.need()?;
        let v = if w == b"1" { 1 } else if two && w == b"2" { 2 } else { return Err(self.here(Why::Version)) };
        self.last()?;
        Ok(v)
    }
}

/// Where a byte stands first.
#[inline]
fn find(b: &[u8], c: u8) -> Option<usize> {
    // Eight bytes at a time, where there are so many.
    const LO: u64 = 0x0101_0101_0101_0101;
    const HI: u64 = 0x8080_8080_8080_8080;
    let pat = LO * c as u64;
    let mut i = 0;
    while i + 8 <= b.len() {
        let x = u64::from_le_bytes(b[i..i + 8].try_into().unwrap()) ^ pat;
        let t = x.wrapping_sub(LO) & !x & HI;
        if t != 0 {
            return Some(i + (t.trailing_zeros() >> 3) as usize);
        }
        i += 8;
    }
    while i < b.len() {
        if b[i] == c {
            return Some(i);
        }
        i += 1;
    }
    None
}

/// The digits of 00 to 99.
static TWO: [u8; 200] = {
    let mut t = [0u8; 200];
    let mut i = 0;
    while i < 100 {
        t[2 * i] = b'0' + (i / 10) as u8;
        t[2 * i + 1] = b'0' + (i % 10) as u8;
        i += 1;
    }
    t
};

#[inline]
pub fn put_num(out: &mut Vec<u8>, v: u64) {
    if v < 10 {
        out.push(b'0' + v as u8);
        return;
    }
    let mut buf = [0u8; 20];
    let mut i = 20;
    let mut v = v;
    while v >= 100 {
        let r = (v % 100) as usize;
        v /= 100;
        i -= 2;
        buf[i..i + 2].copy_from_slice(&TWO[2 * r..2 * r + 2]);
    }
    if v >= 10 {
        let r = v as usize;
        i -= 2;
        buf[i..i + 2].copy_from_slice(&TWO[2 * r..2 * r + 2]);
    } else {
        i -= 1;
        buf[i] = b'0' + v as u8;
    }
    out.extend_from_slice(&buf[i..]);
}

#[inline]
pub fn put(out: &mut Vec<u8>, s: &str) { out.extend_from_slice(s.as_bytes()); }

/// A text and a number behind it, as in `put_kv(out, "shard ", 3)`.
#[inline]
pub fn put_kv(out: &mut Vec<u8>, s: &str, v: u64) {
    put(out, s);
    put_num(out, v);
}
