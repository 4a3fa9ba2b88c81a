// Times the check of a sound chain bundle of about 3,000 words, proved against plain, and compares both on damaged ones.
use std::hint::black_box;
use std::time::Instant;

extern "C" {
    fn chain_check(words: *const u64, words_len: usize, bytes: *const u8, bytes_len: usize) -> u64;
}

fn proved(w: &[u64], b: &[u8]) -> u64 {
    unsafe { chain_check(w.as_ptr(), w.len(), b.as_ptr(), b.len()) }
}

// Whether every row is right, asked first as the proved check does it: no word is noted.
fn fine(w: &[u64], b: &[u8]) -> bool {
    let rows = |c: usize, size: usize| w[w[c + 1] as usize..][..w[c] as usize * size].chunks_exact(size);
    let (strings, attributes, rdns, names, usages) = (w[1], w[3], w[5], w[7], w[9]);
    let fits = |first: u64, n: u64, count: u64| first <= count && n <= count - first;
    let ascii = |n: u64| {
        let q = w[2] as usize + 2 * n as usize;
        n < strings && b[w[q] as usize..(w[q] + w[q + 1]) as usize].is_ascii()
    };
    rows(1, 2).all(|r| fits(r[0], r[1], b.len() as u64))
        && rows(3, 2).all(|r| r[0] < strings && ascii(r[1]))
        && rows(5, 2).all(|r| fits(r[0], r[1], attributes))
        && rows(7, 3).all(|r| match r[0] {
            0 => ascii(r[1]),
            1 => fits(r[1], r[2], rdns),
            2 => r[1] < strings,
            kind => kind <= 4,
        })
        && rows(9, 1).all(|r| r[0] <= 7)
        && rows(11, 41).all(|r| {
            const MARKS: [usize; 9] = [15, 19, 21, 24, 28, 30, 33, 38, 39];
            [0, 2, 3, 4].iter().all(|k| r[*k] < strings)
                && [13, 14].iter().all(|k| r[*k] <= strings)
                && (r[15] == 0 || [16, 17, 18].iter().all(|k| r[*k] <= strings))
                && (r[19] == 0 || r[20] < strings)
                && [7, 9].iter().all(|k| fits(r[*k], r[*k + 1], rdns))
                && (r[21] == 0 || fits(r[22], r[23], usages))
                && (r[30] == 0 || fits(r[31], r[32], names))
                && (r[33] == 0 || fits(r[34], r[35], names) && fits(r[36], r[37], names))
                && r[1] <= u32::MAX as u64
                && r[11] <= 2
                && (r[24] == 0 || r[25] <= 1 && r[26] <= 1)
                && (r[28] == 0 || r[29] <= 511)
                && MARKS.iter().all(|k| r[*k] <= 3)
                && (r[40] == 1 || r[40] == 0 && MARKS.iter().all(|k| r[*k] == 0))
        })
        && (w[13] == 0 || ascii(w[13] - 1))
        && w[14] == 0
}

// The same check as one would write it in Rust: 0 if sound, else the number times 2^16 plus the word.
// One long function on purpose: split into small ones it ran about a tenth slower, and the proved check would look better than it is.
#[inline(never)]
fn plain(w: &[u64], b: &[u8]) -> u64 {
    let total = w.len() as u64;
    if w.len() < 16 || w.len() > 8192 || b.len() > 65536 || w[11] > 16 {
        return 2 << 16;
    }
    if w[0] != 1 {
        return 3 << 16;
    }
    for (c, size) in [(1, 2), (3, 2), (5, 2), (7, 3), (9, 1), (11, 41)] {
        let (n, at) = (w[c], w[c + 1]);
        if at < 16 || at > total || n > (total - at) / size {
            return (4 << 16) + c as u64;
        }
    }
    if fine(w, b) {
        return 0;
    }
    let rows = |c: usize, size: usize| {
        let at = w[c + 1] as usize;
        w[at..at + w[c] as usize * size].chunks_exact(size).enumerate().map(move |(i, row)| (at + size * i, row))
    };
    let (strings, attributes, rdns, names, usages) = (w[1], w[3], w[5], w[7], w[9]);
    let out = |first: u64, n: u64, count: u64| first > count || n > count - first;
    let mut at = usize::MAX;
    let mut note = |wrong: bool, p: usize| {
        if wrong && p < at {
            at = p;
        }
    };
    note(w[13] > strings, 13);
    for (q, r) in rows(1, 2) {
        note(out(r[0], r[1], b.len() as u64), q);
    }
    for (q, r) in rows(3, 2) {
        note(r[0] >= strings, q);
        note(r[1] >= strings, q + 1);
    }
    for (q, r) in rows(5, 2) {
        note(out(r[0], r[1], attributes), q);
    }
    for (q, r) in rows(7, 3) {
        match r[0] {
            0 | 2 => note(r[1] >= strings, q + 1),
            1 => note(out(r[1], r[2], rdns), q + 1),
            _ => {}
        }
    }
    for (q, r) in rows(11, 41) {
        for k in [0, 2, 3, 4] {
            note(r[k] >= strings, q + k);
        }
        for k in [7, 9] {
            note(out(r[k], r[k + 1], rdns), q + k);
        }
        for k in [13, 14] {
            note(r[k] > strings, q + k);
        }
        for k in [16, 17, 18] {
            note(r[15] != 0 && r[k] > strings, q + k);
        }
        note(r[19] != 0 && r[20] >= strings, q + 20);
        note(r[21] != 0 && out(r[22], r[23], usages), q + 22);
        note(r[30] != 0 && out(r[31], r[32], names), q + 31);
        for k in [34, 36] {
            note(r[33] != 0 && out(r[k], r[k + 1], names), q + k);
        }
    }
    if at != usize::MAX {
        return (5 << 16) + at as u64;
    }
    let mut note = |wrong: bool, p: usize| {
        if wrong && p < at {
            at = p;
        }
    };
    for (q, r) in rows(7, 3) {
        note(r[0] > 4, q);
    }
    for (q, r) in rows(9, 1) {
        note(r[0] > 7, q);
    }
    for (q, r) in rows(11, 41) {
        const MARKS: [usize; 9] = [15, 19, 21, 24, 28, 30, 33, 38, 39];
        note(r[1] > u32::MAX as u64, q + 1);
        note(r[11] > 2, q + 11);
        for k in MARKS {
            note(r[k] > 3, q + k);
        }
        for k in [25, 26] {
            note(r[24] != 0 && r[k] > 1, q + k);
        }
        note(r[28] != 0 && r[29] > 511, q + 29);
        note(r[40] > 1 || r[40] == 0 && MARKS.iter().any(|k| r[*k] != 0), q + 40);
    }
    if at != usize::MAX {
        return (6 << 16) + at as u64;
    }
    let high = |n: u64| {
        let q = w[2] as usize + 2 * n as usize;
        !b[w[q] as usize..(w[q] + w[q + 1]) as usize].is_ascii()
    };
    let mut note = |wrong: bool, p: usize| {
        if wrong && p < at {
            at = p;
        }
    };
    note(w[13] != 0 && high(w[13] - 1), 13);
    for (q, r) in rows(3, 2) {
        note(high(r[1]), q + 1);
    }
    for (q, r) in rows(7, 3) {
        note(r[0] == 0 && high(r[1]), q + 1);
    }
    if at != usize::MAX {
        return (7 << 16) + at as u64;
    }
    if w[14] != 0 {
        return (8 << 16) + 14;
    }
    0
}

// A small generator of numbers, the same on every run.
struct Numbers(u64);

impl Numbers {
    fn below(&mut self, k: u64) -> u64 {
        self.0 ^= self.0 << 13;
        self.0 ^= self.0 >> 7;
        self.0 ^= self.0 << 17;
        self.0 % k
    }

    fn range(&mut self, count: u64) -> (u64, u64) {
        let first = self.below(count + 1);
        (first, self.below(count - first + 1))
    }
}

// How many rows each section has, and how many bytes there are.
struct Sizes {
    strings: u64,
    attributes: u64,
    rdns: u64,
    names: u64,
    usages: u64,
    certs: u64,
    bytes: u64,
}

fn certificate(r: &mut Numbers, s: &Sizes) -> Vec<u64> {
    let mut c = vec![0; 41];
    for k in [0, 2, 3, 4, 20] {
        c[k] = r.below(s.strings);
    }
    for k in [13, 14, 16, 17, 18] {
        c[k] = r.below(s.strings + 1);
    }
    for k in [15, 19, 21, 24, 28, 30, 33, 38, 39] {
        c[k] = r.below(4);
    }
    for (k, n) in [(7, s.rdns), (9, s.rdns), (22, s.usages), (31, s.names), (34, s.names), (36, s.names)] {
        (c[k], c[k + 1]) = r.range(n);
    }
    (c[1], c[11], c[12], c[25], c[26]) = (2, r.below(3), 2048, r.below(2), r.below(2));
    (c[27], c[29], c[40]) = (u64::MAX, r.below(512), 1);
    c
}

fn sound_bundle(r: &mut Numbers, s: &Sizes) -> (Vec<u64>, Vec<u8>) {
    let bytes = (0..s.bytes).map(|_| (r.below(95) + 32) as u8).collect();
    let mut w = vec![1];
    let mut at = 16;
    for (n, size) in [(s.strings, 2), (s.attributes, 2), (s.rdns, 2), (s.names, 3), (s.usages, 1), (s.certs, 41)] {
        w.extend([n, at]);
        at += n * size;
    }
    w.extend([r.below(s.strings + 1), 0, 1_600_000_000]);
    for _ in 0..s.strings {
        let n = r.below(s.bytes.min(40) + 1);
        w.extend([r.below(s.bytes - n + 1), n]);
    }
    for _ in 0..s.attributes {
        w.extend([r.below(s.strings), r.below(s.strings)]);
    }
    for _ in 0..s.rdns {
        let (first, n) = r.range(s.attributes);
        w.extend([first, n]);
    }
    for _ in 0..s.names {
        let kind = r.below(5);
        let (x, y) = if kind == 1 { r.range(s.rdns) } else { (r.below(s.strings), 0) };
        w.extend([kind, x, y]);
    }
    w.extend((0..s.usages).map(|_| r.below(8)));
    for _ in 0..s.certs {
        w.extend(certificate(r, s));
    }
    (w, bytes)
}

fn damage(r: &mut Numbers, w: &mut Vec<u64>, b: &mut [u8]) {
    for _ in 0..r.below(3) {
        let i = r.below(w.len() as u64) as usize;
        w[i] = match r.below(6) {
            0 => u64::MAX - r.below(4),
            1 => 1 << 63,
            2 => r.below(w.len() as u64 + 3),
            3 => r.below(10),
            4 => 0,
            _ => w[i].wrapping_add(1),
        };
    }
    if r.below(6) == 0 && !b.is_empty() {
        let i = r.below(b.len() as u64) as usize;
        b[i] = 200;
    }
    if r.below(50) == 0 {
        w.truncate(r.below(18) as usize);
    }
}

// The least time of one call, in nanoseconds, of 400 samples of 20 calls.
fn least(check: fn(&[u64], &[u8]) -> u64, w: &[u64], b: &[u8]) -> f64 {
    let sample = || {
        let start = Instant::now();
        for _ in 0..20 {
            black_box(check(black_box(w), black_box(b)));
        }
        start.elapsed().as_nanos() as f64 / 20.0
    };
    (0..400).map(|_| sample()).fold(f64::MAX, f64::min)
}

fn main() {
    let mut r = Numbers(88172645463325252);
    let mut numbers = [0u64; 9];
    for _ in 0..400_000 {
        let s = Sizes {
            strings: 1 + r.below(6),
            attributes: r.below(4),
            rdns: r.below(4),
            names: r.below(4),
            usages: r.below(3),
            certs: r.below(4),
            bytes: r.below(30),
        };
        let (mut w, mut b) = sound_bundle(&mut r, &s);
        damage(&mut r, &mut w, &mut b);
        let (x, y) = (proved(&w, &b), plain(&w, &b));
        assert_eq!(x, y, "words {w:?} bytes {b:?}");
        numbers[(x >> 16) as usize] += 1;
    }
    println!("the same answer to 400,000 bundles; by number: {numbers:?}");
    let s = Sizes { strings: 500, attributes: 400, rdns: 250, names: 100, usages: 44, certs: 8, bytes: 12_000 };
    let (w, b) = sound_bundle(&mut r, &s);
    assert_eq!(proved(&w, &b), 0);
    let (p, q) = (least(proved, &w, &b), least(plain, &w, &b));
    println!("{} words, {} bytes, sound: proved {p:.0} ns, plain {q:.0} ns, {:.2} times", w.len(), b.len(), p / q);
}
