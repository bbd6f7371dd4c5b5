//! Codes ue(v) read through the static library, against two plain Rust readers, on the same bytes.
//! Best of several rounds, in nanoseconds of processor time a code; the ratio to the Rust that reads by windows comes first.

use std::hint::black_box;

use crate::cpu::nanoseconds;
use crate::random::Random;

extern "C" {
    /// crates/exports: up to n codes from place 0 on, as count * 2^32 + sum.
    fn tuz_ue_run(bytes: *const u8, len: usize, n: u32) -> u64;
}

fn library(bytes: &[u8], n: u32) -> u64 {
    // SAFETY: the pointer and the length are those of a live slice, which the library only reads.
    unsafe { tuz_ue_run(bytes.as_ptr(), bytes.len(), n) }
}

/// A code's value and the place after it; nothing where the bits ran out or 32 zeros stand there.
type Code = Option<(u32, usize)>;

/// 64 bits from a place on, zeros past the end.
#[inline]
fn window(bytes: &[u8], at: usize) -> u64 {
    let k = at / 8;
    let word = match bytes.get(k..k + 8) {
        Some(eight) => u64::from_be_bytes(eight.try_into().unwrap()),
        None => {
            let mut eight = [0; 8];
            for (to, from) in eight.iter_mut().zip(bytes.iter().skip(k)) {
                *to = *from;
            }
            u64::from_be_bytes(eight)
        }
    };
    word << (at % 8)
}

#[inline]
fn by_windows(bytes: &[u8], at: usize) -> Code {
    let end = bytes.len() * 8;
    if end < at {
        return None;
    }
    let w = window(bytes, at);
    let zeros = ((w >> 32) as u32).leading_zeros() as usize;
    let size = 2 * zeros + 1;
    if zeros == 32 || end - at < size {
        return None;
    }
    let value = if zeros < 29 {
        (w >> (63 - 2 * zeros)) - 1
    } else {
        (window(bytes, at + zeros) >> (63 - zeros)) - 1
    };
    Some((value as u32, at + size))
}

fn bit(bytes: &[u8], i: usize) -> Option<u32> {
    bytes.get(i / 8).map(|b| u32::from(b >> (7 - i % 8)) & 1)
}

fn by_bits(bytes: &[u8], at: usize) -> Code {
    let mut zeros = 0;
    while bit(bytes, at + zeros)? == 0 {
        zeros += 1;
        if zeros == 32 {
            return None;
        }
    }
    let mut value = 1u64;
    for j in 0..zeros {
        value = value * 2 + u64::from(bit(bytes, at + zeros + 1 + j)?);
    }
    Some(((value - 1) as u32, at + 2 * zeros + 1))
}

fn run(bytes: &[u8], n: u32, code: impl Fn(&[u8], usize) -> Code) -> u64 {
    let (mut at, mut sum, mut count) = (0, 0u32, 0u32);
    while count < n {
        let Some((value, next)) = code(bytes, at) else {
            break;
        };
        sum = sum.wrapping_add(value);
        at = next;
        count += 1;
    }
    (u64::from(count) << 32) + u64::from(sum)
}

/// The codes of n values below `top`, one after the other.
fn codes(random: &mut Random, n: u32, top: u64) -> Vec<u8> {
    let (mut bytes, mut at) = (Vec::new(), 0);
    for _ in 0..n {
        let x = random.next() % top + 1;
        let size = 2 * (63 - x.leading_zeros()) + 1;
        for j in (0..size).rev() {
            if at % 8 == 0 {
                bytes.push(0);
            }
            *bytes.last_mut().unwrap() |= ((x >> j & 1) as u8) << (7 - at % 8);
            at += 1;
        }
    }
    bytes
}

/// Short bodies of every kind, where the three readers must agree to the last bit.
fn agree(random: &mut Random) -> u64 {
    let mut count = 0;
    for len in 0..40 {
        for round in 0..400 {
            let body: Vec<u8> = (0..len)
                .map(|_| {
                    let x = random.next();
                    match round % 3 {
                        0 => x as u8,
                        1 if x % 5 == 0 => (x >> 8) as u8,
                        1 => 0,
                        _ => 1u8.checked_shl((x % 9) as u32).unwrap_or(0),
                    }
                })
                .collect();
            for n in [0, 1, 2, u32::MAX] {
                let want = run(&body, n, by_bits);
                assert_eq!(library(&body, n), want, "{body:?} {n}");
                assert_eq!(run(&body, n, by_windows), want, "{body:?} {n}");
                count += 1;
            }
        }
    }
    count
}

fn best(n: u32, want: u64, f: impl Fn() -> u64) -> f64 {
    let mut best = f64::MAX;
    for _ in 0..25 {
        let start = nanoseconds();
        let got = black_box(f());
        best = best.min((nanoseconds() - start) / f64::from(n));
        assert_eq!(got, want);
    }
    best
}

/// Prints each kind of codes, and gives the worst ratio to the Rust that reads by windows.
pub fn measure() -> f64 {
    let mut random = Random::new();
    println!("codes: agree on {} bodies", agree(&mut random));
    let n = 200_000;
    let mut worst = 0f64;
    for (name, top) in [
        ("values 0 to 7", 8),
        ("values 0 to 63", 64),
        ("values to 2^31", 1 << 31),
    ] {
        let bytes = codes(&mut random, n, top);
        let want = run(&bytes, n, by_bits);
        let ours = best(n, want, || library(black_box(&bytes), n));
        let windows = best(n, want, || run(black_box(&bytes), n, by_windows));
        let bits = best(n, want, || run(black_box(&bytes), n, by_bits));
        worst = worst.max(ours / windows);
        println!("codes: {name:15} {:.2} of Rust by windows: library {ours:.2} ns a code, Rust by windows {windows:.2}, Rust by bits {bits:.2}", ours / windows);
    }
    worst
}
