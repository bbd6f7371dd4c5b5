//! The width of slice_group_change_cycle by itself.

/// The Rust's f64 expression, as it stands in slice/mod.rs, against the rules' integer width,
/// for each rate at every size where the width changes.
pub fn width_check(max: u32) {
    let (mut n, mut bad) = (0u64, 0u64);
    let mut check = |size: u32, rate: u32| {
        let f = (f64::from(size) / f64::from(rate) + 1.0).log2().ceil() as u32;
        let mut w = 0;
        while (u64::from(rate) << w) < u64::from(size) + u64::from(rate) {
            w += 1;
        }
        n += 1;
        if f != w {
            bad += 1;
            if bad <= 10 {
                println!("size={size} rate={rate} f64={f} integer={w}");
            }
        }
    };
    for rate in 1..=max {
        check(1, rate);
        check(max, rate);
        for w in 0..25 {
            let edge = (u64::from(rate) << w) - u64::from(rate);
            for size in [edge, edge + 1] {
                if size >= 1 && size <= u64::from(max) {
                    check(size as u32, rate);
                }
            }
        }
    }
    println!("width check up to {max}: {n} pairs, {bad} differ");
}
