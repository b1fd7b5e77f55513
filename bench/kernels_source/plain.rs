// The plain loops that the kernels are measured against, over 1,024 numbers a call.
use std::hint::black_box;
use std::time::Instant;

/// How many calls are timed together, so few that a round mostly ends before another process comes
/// in between.
const CALLS: u32 = 200;

/// How many rounds, of which the quickest counts.
const ROUNDS: u32 = 500;

#[inline(never)]
fn compare_const(numbers: &[i64], valid: &[u64], c: i64, truth: &mut [u64], known: &mut [u64]) {
    for w in 0..valid.len() {
        let mut word = 0u64;
        for (k, &number) in numbers[w * 64..w * 64 + 64].iter().enumerate() {
            word |= ((number > c) as u64) << k;
        }
        truth[w] = word & valid[w];
        known[w] = valid[w];
    }
}

#[inline(never)]
fn compare_columns(
    xs: &[i64],
    xv: &[u64],
    ys: &[i64],
    yv: &[u64],
    truth: &mut [u64],
    known: &mut [u64],
) {
    for w in 0..xv.len() {
        let mut word = 0u64;
        for k in 0..64 {
            word |= ((xs[w * 64 + k] < ys[w * 64 + k]) as u64) << k;
        }
        truth[w] = word & xv[w] & yv[w];
        known[w] = xv[w] & yv[w];
    }
}

#[inline(never)]
fn not3(a: &[u64], b: &[u64], truth: &mut [u64], known: &mut [u64]) {
    for w in 0..a.len() {
        truth[w] = b[w] & !a[w];
        known[w] = b[w];
    }
}

#[inline(never)]
fn and3(a: &[u64], b: &[u64], c: &[u64], d: &[u64], truth: &mut [u64], known: &mut [u64]) {
    for w in 0..a.len() {
        truth[w] = a[w] & c[w];
        known[w] = (b[w] & d[w]) | (b[w] & !a[w]) | (d[w] & !c[w]);
    }
}

#[inline(never)]
fn or3(a: &[u64], b: &[u64], c: &[u64], d: &[u64], truth: &mut [u64], known: &mut [u64]) {
    for w in 0..a.len() {
        truth[w] = a[w] | c[w];
        known[w] = (b[w] & d[w]) | a[w] | c[w];
    }
}

#[inline(never)]
fn sum_signed(numbers: &[i64], minus: &[u64]) -> i64 {
    let mut total = 0;
    for (i, &number) in numbers.iter().enumerate() {
        total += if minus[i / 64] >> (i % 64) & 1 == 1 { -number } else { number };
    }
    total
}

#[inline(never)]
fn count_set(words: &[u64]) -> u32 {
    words.iter().map(|word| word.count_ones()).sum()
}

#[inline(never)]
fn count_signed(valid: &[u64], minus: &[u64]) -> i64 {
    let signs = |(word, minus): (&u64, &u64)| {
        word.count_ones() as i64 - 2 * (word & minus).count_ones() as i64
    };
    valid.iter().zip(minus).map(signs).sum()
}

/// `x > c And y < d Or x = y`, row by row; it is unknown where it is neither true nor false.
#[inline(never)]
fn run_condition(
    xs: &[i64],
    xv: &[u64],
    ys: &[i64],
    yv: &[u64],
    c: i64,
    d: i64,
    truth: &mut [u64],
    known: &mut [u64],
) {
    for w in 0..xv.len() {
        let (mut yes, mut no) = (0u64, 0u64);
        for k in 0..64 {
            let (x, y) = (xs[w * 64 + k], ys[w * 64 + k]);
            let (x_is, y_is) = (xv[w] >> k & 1, yv[w] >> k & 1);
            let (above, below, equal) = ((x > c) as u64, (y < d) as u64, (x == y) as u64);
            yes |= (x_is & above & y_is & below | x_is & y_is & equal) << k;
            no |= ((x_is & !above | y_is & !below) & x_is & y_is & !equal & 1) << k;
        }
        truth[w] = yes;
        known[w] = yes | no;
    }
}

fn report(name: &str, mut call: impl FnMut(u32)) {
    let mut least = u128::MAX;
    for _ in 0..ROUNDS {
        let start = Instant::now();
        for i in 0..CALLS {
            call(i);
        }
        least = start.elapsed().as_nanos().min(least);
    }
    println!("{name} {}", least * 1000 / CALLS as u128);
}

fn main() {
    let a: Vec<i64> = (0..1024).map(|i| i * 7919 % 2001).collect();
    let b: Vec<i64> = (0..1024).map(|i| i * 104_729 % 2001).collect();
    let (valid, minus) = (vec![u64::MAX; 16], vec![0x5555_aaaa_0f0f_3333u64; 16]);
    let (mut truth, mut known) = (vec![0u64; 16], vec![0u64; 16]);
    let (mut other, mut known_other) = (vec![0u64; 16], vec![0u64; 16]);
    report("compare_const", |i| {
        compare_const(black_box(&a), &valid, i as i64, black_box(&mut truth), &mut known)
    });
    report("compare_columns", |_| {
        let other = black_box(&mut other);
        compare_columns(black_box(&a), &valid, &b, &valid, other, &mut known_other)
    });
    let (t, k, u, l) = (truth.clone(), known.clone(), other.clone(), known_other.clone());
    report("not3", |_| not3(black_box(&t), &k, black_box(&mut truth), &mut known));
    report("and3", |_| and3(black_box(&t), &k, &u, &l, black_box(&mut truth), &mut known));
    report("or3", |_| or3(black_box(&t), &k, &u, &l, black_box(&mut truth), &mut known));
    report("sum_signed", |_| {
        black_box(sum_signed(black_box(&a), &minus));
    });
    report("count_set", |_| {
        black_box(count_set(black_box(&t)));
    });
    report("count_signed", |_| {
        black_box(count_signed(black_box(&valid), &minus));
    });
    report("run_condition", |i| {
        let (d, truth) = (black_box(1000), black_box(&mut truth));
        run_condition(black_box(&a), &valid, &b, &valid, i as i64, d, truth, &mut known)
    });
}
