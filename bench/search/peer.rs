// The work of a server in plain Rust, over the arithmetic of bench/arithmetic/peer.rs, which stands before it: by the number
// of words 1 scores 4,096 documents by 8,192 terms, 4 answers over 64 rows of 256 chunks, 7 makes 1,024 rows of 8 chunks,
// expands and answers, 8 expands a query for 4,096 rows.

type Parts = [Pair; 2];
type Key = [[Vec<Vec<u64>>; 2]; 2];

impl Scheme {
    /// The values of both parts.
    fn values(&self, cipher: &Parts) -> Parts {
        let mut found = cipher.clone();
        for part in &mut found {
            for (table, poly) in self.tables.iter().zip(part.iter_mut()) {
                table.forward(poly);
            }
        }
        found
    }

    /// The values of a polynomial modulo t with its centred coefficients.
    fn plain_values(&self, plain: &[u64], into: &mut Pair) {
        for (table, poly) in self.tables.iter().zip(into.iter_mut()) {
            for (y, &x) in poly.iter_mut().zip(plain) {
                *y = if x <= 32768 { x } else { x + (table.q - PLAIN) };
            }
            table.forward(poly);
        }
    }

    /// The ciphertext of sums of products.
    fn turned_back(&self, sums: [Vec<u128>; 4]) -> Parts {
        let mut found: Parts = std::array::from_fn(|_| [vec![0; N], vec![0; N]]);
        for (place, sum) in sums.iter().enumerate() {
            let table = &self.tables[place % 2];
            let poly = &mut found[place / 2][place % 2];
            for (y, x) in poly.iter_mut().zip(sum) {
                *y = (*x % table.q as u128) as u64;
            }
            table.inverse(poly);
        }
        found
    }

    /// The values of payloads of 8,192 bytes each.
    fn rows(&self, bytes: &[u8]) -> Vec<Pair> {
        let mut plain = vec![0; N];
        bytes
            .chunks_exact(2 * N)
            .map(|payload| {
                for (x, two) in plain.iter_mut().zip(payload.as_chunks::<2>().0) {
                    *x = two[0] as u64 * 256 + two[1] as u64;
                }
                let mut values = [vec![0; N], vec![0; N]];
                self.plain_values(&plain, &mut values);
                values
            })
            .collect()
    }

    fn expand(&self, query: &Parts, key: &Key, rows: usize) -> Vec<Parts> {
        let mut ciphers = vec![query.clone()];
        let (mut room, mut switched) = (room(), query.clone());
        while ciphers.len() < rows {
            let count = ciphers.len();
            for k in 0..count {
                self.switch(&ciphers[k], N / count + 1, key, &mut room, &mut switched);
                let mut odd: Parts = std::array::from_fn(|_| [vec![0; N], vec![0; N]]);
                for part in 0..2 {
                    for (m, q) in Self::moduli().into_iter().enumerate() {
                        halve(&mut ciphers[k][part][m], &switched[part][m], &mut odd[part][m], 2 * N - count, q);
                    }
                }
                ciphers.push(odd);
            }
        }
        ciphers
    }

    fn answer(&self, rows: &[Pair], query: &Parts, key: &Key, count: usize) -> Vec<Parts> {
        let values: Vec<Parts> = self.expand(query, key, count).iter().map(|cipher| self.values(cipher)).collect();
        rows.chunks_exact(count).map(|chunk| self.row_sums(&values, chunk)).collect()
    }

    /// Four rows a pass.
    fn row_sums(&self, values: &[Parts], rows: &[Pair]) -> Parts {
        let mut sums: [Vec<u128>; 4] = std::array::from_fn(|_| vec![0; N]);
        for (values, rows) in values.as_chunks::<4>().0.iter().zip(rows.as_chunks::<4>().0) {
            for (place, sum) in sums.iter_mut().enumerate() {
                let of = |j: usize| (&values[j][place / 2][place % 2][..N], &rows[j][place % 2][..N]);
                let [(a0, b0), (a1, b1), (a2, b2), (a3, b3)] = [of(0), of(1), of(2), of(3)];
                let times = |x: u64, y: u64| x as u128 * y as u128;
                for (i, x) in sum[..N].iter_mut().enumerate() {
                    *x += times(a0[i], b0[i]) + times(a1[i], b1[i]) + times(a2[i], b2[i]) + times(a3[i], b3[i]);
                }
            }
        }
        self.turned_back(sums)
    }

    fn score(&self, query: &Parts, key: &Key) -> Parts {
        let mut sums: [Vec<u128>; 4] = std::array::from_fn(|_| vec![0; N]);
        let (mut slots, mut words, mut poly) = (vec![0; N], vec![0; N], vec![0; N]);
        let mut values = [vec![0; N], vec![0; N]];
        let (mut room, mut next) = (room(), query.clone());
        for _ in 0..4 {
            let mut turned = query.clone();
            for i in 0..N / 2 {
                let own = self.values(&turned);
                slots.iter_mut().for_each(|slot| *slot = 0);
                (slots[i * 5 % N], slots[(i * 7 + 2048) % N]) = (5, 5);
                self.encode(&slots, &mut words, &mut poly);
                self.plain_values(&poly, &mut values);
                for (place, sum) in sums.iter_mut().enumerate() {
                    let (a, b) = (&own[place / 2][place % 2][..N], &values[place % 2][..N]);
                    for (k, x) in sum[..N].iter_mut().enumerate() {
                        *x += a[k] as u128 * b[k] as u128;
                    }
                }
                if i + 1 < N / 2 {
                    self.switch(&turned, 3, key, &mut room, &mut next);
                    std::mem::swap(&mut turned, &mut next);
                }
            }
        }
        self.turned_back(sums)
    }
}

/// The sum with a switch, and the difference times X^exponent.
fn halve(own: &mut [u64], switched: &[u64], odd: &mut [u64], exponent: usize, q: u64) {
    for i in 0..N {
        let (a, b) = (own[i], switched[i]);
        let apart = if a >= b { a - b } else { a + q - b };
        own[i] = less(a + b, q);
        let at = (i + exponent) & (2 * N - 1);
        if at < N {
            odd[at] = apart;
        } else {
            odd[at - N] = if apart == 0 { 0 } else { q - apart };
        }
    }
}

fn told<T>(name: &str, work: impl FnOnce() -> T) -> T {
    let begun = Instant::now();
    let found = black_box(work());
    println!("{name} {}", begun.elapsed().as_nanos());
    found
}

fn main() {
    begin();
    let mut chance = Chance(7);
    let scheme = Scheme {
        tables: [Table::new(FIRST), Table::new(SECOND)],
        plain: Table::new(PLAIN),
        small: Small::new(&Table::new(PLAIN)),
        quotient: quotient(INVERSE, SECOND),
        places: places(),
    };
    let six = |chance: &mut Chance, q| -> Vec<Vec<u64>> { (0..DIGITS).map(|_| chance.poly(q)).collect() };
    let mut half = || [six(&mut chance, FIRST), six(&mut chance, SECOND)];
    let key: Key = [half(), half()];
    let pair = |chance: &mut Chance| [chance.poly(FIRST), chance.poly(SECOND)];
    let query: Parts = [pair(&mut chance), pair(&mut chance)];
    let words = std::env::args().count() - 1;
    if words <= 3 {
        told("score", || scheme.score(&query, &key));
    } else if words == 8 {
        told("expand", || scheme.expand(&query, &key, 1024));
    } else {
        let (rows, chunks) = if words == 7 { (1024, 8) } else { (64, 256) };
        let bytes: Vec<u8> = (0..rows * chunks * 2 * N).map(|i| (i % 251) as u8).collect();
        let values = told("rows", || scheme.rows(&bytes));
        for _ in 0..3 {
            told("small", || scheme.expand(&query, &key, rows));
            told("answer", || scheme.answer(&values, &query, &key, rows));
        }
    }
}
