//! The same operations in plain Rust, as `run` measures them beside the proved crates. Standard library only.
use std::hint::black_box;
use std::time::Instant;

const N: usize = 4096;
const LEVELS: u32 = 12;
const FIRST: u64 = 1231453023109121;
const SECOND: u64 = 1337006139375617;
const PLAIN: u64 = 65537;
const WHOLE: u128 = FIRST as u128 * SECOND as u128;
const INVERSE: u64 = 891337426250424;
const DIGITS: usize = 6;
const DIGIT_BITS: u32 = 17;

fn multiply(x: u64, y: u64, q: u64) -> u64 {
    (x as u128 * y as u128 % q as u128) as u64
}

fn power(base: u64, exponent: u64, q: u64) -> u64 {
    (0..64).rev().fold(1, |found, bit| {
        let square = multiply(found, found, q);
        if exponent >> bit & 1 == 1 { multiply(square, base, q) } else { square }
    })
}

fn quotient(factor: u64, q: u64) -> u64 {
    (((factor as u128) << 64) / q as u128) as u64
}

fn reversed(place: usize) -> usize {
    place.reverse_bits() >> (usize::BITS - LEVELS)
}

/// x * w modulo q, below 2q.
#[inline(always)]
fn lazy(x: u64, w: u64, quotient: u64, q: u64) -> u64 {
    let part = ((x as u128 * quotient as u128) >> 64) as u64;
    x.wrapping_mul(w).wrapping_sub(part.wrapping_mul(q))
}

#[inline(always)]
fn less(x: u64, q: u64) -> u64 {
    if x >= q { x - q } else { x }
}

struct Table {
    q: u64,
    roots: Vec<[u64; 2]>,
    inverses: Vec<[u64; 2]>,
    one: u64,
    scale: [u64; 2],
    barrett: u64,
}

impl Table {
    fn new(q: u64) -> Table {
        let psi = power(3, (q - 1) / (2 * N as u64), q);
        let back = power(psi, 2 * N as u64 - 1, q);
        let with = |factor| [factor, quotient(factor, q)];
        let powers = |base| (0..N).map(|t| with(power(base, reversed(t) as u64, q))).collect();
        Table {
            q,
            roots: powers(psi),
            inverses: powers(back),
            one: quotient(1, q),
            scale: with(q - (q - 1) / N as u64),
            barrett: ((1u128 << 104) / q as u128) as u64,
        }
    }

    /// To values, wholly lazy: numbers grow by 2q a layer, and the last two layers reduce them.
    fn forward(&self, a: &mut [u64]) {
        let q = self.q;
        let pair = |x: u64, y: u64, [w, s]: [u64; 2]| {
            let t = lazy(y, w, s, q);
            (x + t, x + (2 * q - t))
        };
        let mut half = N / 2;
        while half >= 4 {
            let roots = &self.roots[N / 2 / half..];
            for (block, root) in a.chunks_exact_mut(2 * half).zip(roots) {
                let (low, high) = block.split_at_mut(half);
                let (low, _) = low.as_chunks_mut::<4>();
                let (high, _) = high.as_chunks_mut::<4>();
                for (x, y) in low.iter_mut().zip(high) {
                    let ([x0, x1, x2, x3], [y0, y1, y2, y3]) = (*x, *y);
                    let (a0, b0) = pair(x0, y0, *root);
                    let (a1, b1) = pair(x1, y1, *root);
                    let (a2, b2) = pair(x2, y2, *root);
                    let (a3, b3) = pair(x3, y3, *root);
                    *x = [a0, a1, a2, a3];
                    *y = [b0, b1, b2, b3];
                }
            }
            half /= 2;
        }
        let (upper, lower) = (&self.roots[N / 4..N / 2], self.roots[N / 2..].as_chunks::<2>().0);
        let end = |x| less(lazy(x, 1, self.one, q), q);
        for ((block, root), [left, right]) in a.as_chunks_mut::<4>().0.iter_mut().zip(upper).zip(lower) {
            let [x0, x1, x2, x3] = *block;
            let (a0, a2) = pair(x0, x2, *root);
            let (a1, a3) = pair(x1, x3, *root);
            let (b0, b1) = pair(a0, a1, *left);
            let (b2, b3) = pair(a2, a3, *right);
            *block = [end(b0), end(b1), end(b2), end(b3)];
        }
    }

    /// Back to coefficients: sums double a layer, up to 2^12 q.
    fn inverse(&self, a: &mut [u64]) {
        let q = self.q;
        let pair = |x: u64, y: u64, [w, s]: [u64; 2], top: u64| (x + y, lazy(x + (top - y), w, s, q));
        let (upper, lower) = (&self.inverses[N / 4..N / 2], self.inverses[N / 2..].as_chunks::<2>().0);
        for ((block, root), [left, right]) in a.as_chunks_mut::<4>().0.iter_mut().zip(upper).zip(lower) {
            let [x0, x1, x2, x3] = *block;
            let (a0, a1) = pair(x0, x1, *left, q);
            let (a2, a3) = pair(x2, x3, *right, q);
            let (b0, b2) = pair(a0, a2, *root, 2 * q);
            let (b1, b3) = pair(a1, a3, *root, 2 * q);
            *block = [b0, b1, b2, b3];
        }
        let (mut half, mut top) = (4, 4 * q);
        while half < N {
            let roots = &self.inverses[N / 2 / half..];
            for (block, root) in a.chunks_exact_mut(2 * half).zip(roots) {
                let (low, high) = block.split_at_mut(half);
                let (low, _) = low.as_chunks_mut::<4>();
                let (high, _) = high.as_chunks_mut::<4>();
                for (x, y) in low.iter_mut().zip(high) {
                    let ([x0, x1, x2, x3], [y0, y1, y2, y3]) = (*x, *y);
                    let (a0, b0) = pair(x0, y0, *root, top);
                    let (a1, b1) = pair(x1, y1, *root, top);
                    let (a2, b2) = pair(x2, y2, *root, top);
                    let (a3, b3) = pair(x3, y3, *root, top);
                    *x = [a0, a1, a2, a3];
                    *y = [b0, b1, b2, b3];
                }
            }
            half *= 2;
            top *= 2;
        }
        let [scale, quotient] = self.scale;
        for x in a {
            *x = less(lazy(*x, scale, quotient, q), q);
        }
    }

    /// A number below 2^104 modulo q.
    #[inline(always)]
    fn reduce(&self, x: u128) -> u64 {
        let part = ((((x >> 49) as u64) as u128 * self.barrett as u128) >> 55) as u64;
        let rest = (x as u64).wrapping_sub(part.wrapping_mul(self.q));
        less(less(rest, 2 * self.q), self.q)
    }

    /// Six products at each place, reduced once.
    fn sums(&self, into: &mut [u64], a: &[Vec<u64>], b: &[Vec<u64>]) {
        let [a0, a1, a2, a3, a4, a5]: [&[u64]; 6] = std::array::from_fn(|j| &a[j][..N]);
        let [b0, b1, b2, b3, b4, b5]: [&[u64]; 6] = std::array::from_fn(|j| &b[j][..N]);
        let times = |x: u64, y: u64| x as u128 * y as u128;
        for (i, place) in into[..N].iter_mut().enumerate() {
            *place = self.reduce(
                times(a0[i], b0[i]) + times(a1[i], b1[i]) + times(a2[i], b2[i])
                    + times(a3[i], b3[i]) + times(a4[i], b4[i]) + times(a5[i], b5[i]),
            );
        }
    }
}

struct Chance(u64);

impl Chance {
    fn word(&mut self) -> u64 {
        self.0 = self.0.wrapping_add(0x9E3779B97F4A7C15);
        let z = (self.0 ^ (self.0 >> 30)).wrapping_mul(0xBF58476D1CE4E5B9);
        let z = (z ^ (z >> 27)).wrapping_mul(0x94D049BB133111EB);
        z ^ (z >> 31)
    }

    fn wide(&mut self) -> u128 {
        (self.word() as u128) << 64 | self.word() as u128
    }

    fn poly(&mut self, q: u64) -> Vec<u64> {
        (0..N).map(|_| (self.wide() % q as u128) as u64).collect()
    }

    fn noise(&mut self) -> i64 {
        let word = self.word();
        (word % (1 << 21)).count_ones() as i64 - (word >> 21 & 0x1fffff).count_ones() as i64
    }
}

fn substitute(a: &[u64], g: usize, q: u64, into: &mut [u64]) {
    let mut at = 0;
    for &x in a {
        if at < N {
            into[at] = x;
        } else {
            into[at - N] = if x == 0 { 0 } else { q - x };
        }
        at = (at + g) % (2 * N);
    }
}

fn add_in(a: &mut [u64], b: &[u64], q: u64) {
    for (x, y) in a.iter_mut().zip(b) {
        *x = less(*x + y, q);
    }
}

fn sub_in(a: &mut [u64], b: &[u64], q: u64) {
    for (x, y) in a.iter_mut().zip(b) {
        *x = if *x >= *y { *x - y } else { *x + (q - y) };
    }
}

#[inline(always)]
fn compose(first: u64, second: u64, quotient: u64) -> u128 {
    let apart = if second >= first { second - first } else { second + (SECOND - first) };
    first as u128 + FIRST as u128 * less(lazy(apart, INVERSE, quotient, SECOND), SECOND) as u128
}

type Pair = [Vec<u64>; 2];

/// What a key switch writes on its way.
struct Room {
    turned: Pair,
    digits: Vec<Vec<u64>>,
    values: Vec<Vec<u64>>,
}

fn room() -> Room {
    Room { turned: [vec![0; N], vec![0; N]], digits: vec![vec![0; N]; DIGITS], values: vec![vec![0; N]; DIGITS] }
}

struct Scheme {
    tables: [Table; 2],
    plain: Table,
    small: Small,
    quotient: u64,
    places: Vec<usize>,
}

impl Scheme {
    fn moduli() -> [u64; 2] {
        [FIRST, SECOND]
    }

    fn digits(&self, pair: &Pair, into: &mut [Vec<u64>]) {
        let [d0, d1, d2, d3, d4, d5] = into else { return };
        for i in 0..N {
            let x = compose(pair[0][i], pair[1][i], self.quotient);
            let digit = |j: u32| (x >> (j * DIGIT_BITS)) as u64 & 0x1ffff;
            (d0[i], d1[i], d2[i]) = (digit(0), digit(1), digit(2));
            (d3[i], d4[i], d5[i]) = (digit(3), digit(4), digit(5));
        }
    }

    /// A key switch: 12 transforms, 24 products at each place, 4 transforms back. It takes no memory.
    fn switch(&self, cipher: &[Pair; 2], g: usize, key: &[[Vec<Vec<u64>>; 2]; 2], room: &mut Room, found: &mut [Pair; 2]) {
        for (m, q) in Self::moduli().into_iter().enumerate() {
            substitute(&cipher[1][m], g, q, &mut room.turned[m]);
        }
        self.digits(&room.turned, &mut room.digits);
        for m in 0..2 {
            for (values, digit) in room.values.iter_mut().zip(&room.digits) {
                values.copy_from_slice(digit);
                self.tables[m].forward(values);
            }
            for part in 0..2 {
                self.tables[m].sums(&mut found[part][m], &room.values, &key[part][m]);
                self.tables[m].inverse(&mut found[part][m]);
            }
        }
        for (m, q) in Self::moduli().into_iter().enumerate() {
            substitute(&cipher[0][m], g, q, &mut room.turned[m]);
            add_in(&mut found[0][m], &room.turned[m], q);
        }
    }

    /// a * s, where s is kept by its values.
    fn masked(&self, a: &Pair, secret: &Pair) -> Pair {
        let mut found = a.clone();
        for m in 0..2 {
            let table = &self.tables[m];
            table.forward(&mut found[m]);
            for (x, y) in found[m].iter_mut().zip(&secret[m]) {
                *x = table.reduce(*x as u128 * *y as u128);
            }
            table.inverse(&mut found[m]);
        }
        found
    }

    fn encrypt(&self, message: &[u64], secret: &Pair, chance: &mut Chance) -> [Pair; 2] {
        let mut a = [Vec::with_capacity(N), Vec::with_capacity(N)];
        for _ in 0..N {
            a[0].push((chance.wide() % FIRST as u128) as u64);
            a[1].push((chance.wide() % SECOND as u128) as u64);
        }
        let errors: Vec<i64> = (0..N).map(|_| chance.noise()).collect();
        let mask = self.masked(&a, secret);
        let scaled: Vec<u128> = message
            .iter()
            .map(|&x| (2 * WHOLE * x as u128 + PLAIN as u128) / (2 * PLAIN as u128))
            .collect();
        let mut first = [vec![0; N], vec![0; N]];
        for (m, q) in Self::moduli().into_iter().enumerate() {
            for i in 0..N {
                let error = if errors[i] < 0 { q - (-errors[i]) as u64 } else { errors[i] as u64 };
                first[m][i] = less((scaled[i] % q as u128) as u64 + error, q);
            }
            sub_in(&mut first[m], &mask[m], q);
        }
        [first, a]
    }

    fn decrypt(&self, cipher: &[Pair; 2], secret: &Pair) -> Vec<u64> {
        let mut phase = self.masked(&cipher[1], secret);
        for (m, q) in Self::moduli().into_iter().enumerate() {
            add_in(&mut phase[m], &cipher[0][m], q);
        }
        (0..N)
            .map(|i| {
                let x = compose(phase[0][i], phase[1][i], self.quotient);
                ((2 * PLAIN as u128 * x + WHOLE) / (2 * WHOLE) % PLAIN as u128) as u64
            })
            .collect()
    }

    fn encode(&self, slots: &[u64], words: &mut [u32], into: &mut [u64]) {
        for (place, slot) in self.places.iter().zip(slots) {
            words[*place] = *slot as u32;
        }
        self.small.inverse(words);
        for (place, word) in into.iter_mut().zip(words) {
            *place = *word as u64;
        }
    }

    fn decode(&self, poly: &[u64], words: &mut [u32], into: &mut [u64]) {
        for (word, x) in words.iter_mut().zip(poly) {
            *word = *x as u32;
        }
        self.small.forward(words);
        for (slot, place) in into.iter_mut().zip(&self.places) {
            *slot = words[*place] as u64;
        }
    }
}

/// The transform modulo t in 32-bit words.
struct Small {
    roots: Vec<u32>,
    inverses: Vec<u32>,
    scale: u32,
}

/// A product of two numbers up to 2^17 modulo t, where 2^16 is -1.
#[inline(always)]
fn small_product(x: u32, y: u32) -> u32 {
    let product = x as u64 * y as u64;
    let rest = (product & 0xffff) as u32 + 2 * PLAIN as u32 - (product >> 16) as u32;
    small_less(if rest >= 2 * PLAIN as u32 { rest - 2 * PLAIN as u32 } else { rest })
}

#[inline(always)]
fn small_less(x: u32) -> u32 {
    if x >= PLAIN as u32 { x - PLAIN as u32 } else { x }
}

impl Small {
    fn new(table: &Table) -> Small {
        let words = |factors: &[[u64; 2]]| factors.iter().map(|factor| factor[0] as u32).collect();
        Small { roots: words(&table.roots), inverses: words(&table.inverses), scale: table.scale[0] as u32 }
    }

    fn forward(&self, a: &mut [u32]) {
        let mut half = N / 2;
        while half >= 1 {
            for (block, &root) in a.chunks_exact_mut(2 * half).zip(&self.roots[N / 2 / half..]) {
                let (low, high) = block.split_at_mut(half);
                for (x, y) in low.iter_mut().zip(high) {
                    let turned = small_product(*y, root);
                    (*x, *y) = (small_less(*x + turned), small_less(*x + PLAIN as u32 - turned));
                }
            }
            half /= 2;
        }
    }

    fn inverse(&self, a: &mut [u32]) {
        let mut half = 1;
        while half < N {
            for (block, &root) in a.chunks_exact_mut(2 * half).zip(&self.inverses[N / 2 / half..]) {
                let (low, high) = block.split_at_mut(half);
                for (x, y) in low.iter_mut().zip(high) {
                    let apart = *x + PLAIN as u32 - *y;
                    *x = small_less(*x + *y);
                    *y = small_product(apart, root);
                }
            }
            half *= 2;
        }
        for x in a {
            *x = small_product(*x, self.scale);
        }
    }
}

/// The exponent of a slot's point, and the place of its value.
fn places() -> Vec<usize> {
    let turn = 2 * N as u64;
    (0..N)
        .map(|slot| {
            let three = power(3, (slot % (N / 2)) as u64, turn);
            let exponent = if slot < N / 2 { three } else { turn - three };
            reversed(exponent as usize / 2)
        })
        .collect()
}

/// Prints the time of a call, twenty times over so many of them.
fn row(name: &str, times: u32, mut work: impl FnMut()) {
    for _ in 0..20 {
        let begun = Instant::now();
        for _ in 0..times {
            work();
        }
        println!("{name} {}", begun.elapsed().as_nanos() / times as u128);
    }
}

/// Forward and back is the same, and a product by values that by sums, at the start of the run.
fn check(scheme: &Scheme, chance: &mut Chance) {
    for table in [&scheme.tables[0], &scheme.tables[1], &scheme.plain] {
        let (a, b) = (chance.poly(table.q), chance.poly(table.q));
        let (mut x, mut y) = (a.clone(), b.clone());
        table.forward(&mut x);
        table.forward(&mut y);
        let mut found: Vec<u64> = x.iter().zip(&y).map(|(x, y)| multiply(*x, *y, table.q)).collect();
        table.inverse(&mut found);
        for k in [0, 1, N - 1] {
            let wanted = (0..N).fold(0, |sum, i| {
                let product = multiply(a[i], b[(N + k - i) % N], table.q);
                (sum + if i <= k { product } else { table.q - product }) % table.q
            });
            assert_eq!(found[k], wanted);
        }
    }
}

/// Takes and frees as much as a client's keys take on their way: a program that has done so keeps what it frees.
fn begin() {
    drop(black_box(vec![0u8; 1 << 24]));
}

fn main() {
    begin();
    let mut chance = Chance(7);
    let scheme = Scheme {
        tables: [Table::new(FIRST), Table::new(SECOND)],
        plain: Table::new(PLAIN),
        small: Small::new(&Table::new(PLAIN)),
        quotient: quotient(INVERSE, SECOND),
        places: places(),
    };
    check(&scheme, &mut chance);
    let first = &scheme.tables[0];
    let (a, mut b) = (chance.poly(FIRST), vec![0; N]);
    row("forward", 100, || {
        b.copy_from_slice(black_box(&a));
        first.forward(&mut b);
        black_box(&mut b);
    });
    row("inverse", 100, || {
        b.copy_from_slice(black_box(&a));
        first.inverse(&mut b);
        black_box(&mut b);
    });
    let six = |chance: &mut Chance, q| -> Vec<Vec<u64>> { (0..DIGITS).map(|_| chance.poly(q)).collect() };
    let (x, y) = (six(&mut chance, FIRST), six(&mut chance, FIRST));
    row("sums", 100, || {
        first.sums(&mut b, black_box(&x), black_box(&y));
        black_box(&mut b);
    });
    let pair = |chance: &mut Chance| [chance.poly(FIRST), chance.poly(SECOND)];
    let cipher = [pair(&mut chance), pair(&mut chance)];
    let mut half = || [six(&mut chance, FIRST), six(&mut chance, SECOND)];
    let key = [half(), half()];
    let (mut room, mut switched) = (room(), cipher.clone());
    row("switch", 10, || {
        scheme.switch(black_box(&cipher), 3, &key, &mut room, &mut switched);
        black_box(&mut switched);
    });
    let ternary: Vec<u64> = (0..N).map(|_| chance.word() % 3).collect();
    let secret: Pair = std::array::from_fn(|m| {
        let table = &scheme.tables[m];
        let mut s: Vec<u64> = ternary.iter().map(|x| (x + table.q - 1) % table.q).collect();
        table.forward(&mut s);
        s
    });
    let message = chance.poly(PLAIN);
    let sent = scheme.encrypt(&message, &secret, &mut chance);
    assert_eq!(scheme.decrypt(&sent, &secret), message);
    row("encrypt", 5, || {
        black_box(scheme.encrypt(black_box(&message), &secret, &mut chance));
    });
    row("decrypt", 5, || {
        black_box(scheme.decrypt(black_box(&sent), &secret));
    });
    let (mut poly, mut words, mut slots) = (vec![0; N], vec![0; N], vec![0; N]);
    row("encode", 100, || scheme.encode(black_box(&message), &mut words, black_box(&mut poly)));
    row("decode", 100, || scheme.decode(black_box(&poly), &mut words, black_box(&mut slots)));
    assert_eq!(slots, message);
}
