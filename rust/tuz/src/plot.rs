//! QP over a recording, as SVG: a colour for each slice type, and a red line over the whole height where a unit is refused, with the refusal's number.

use crate::answer::FAMILIES;
use crate::shown;
use std::fmt::Write;

const WIDTH: f64 = 1200.0;
const HEIGHT: f64 = 440.0;
pub const LEFT: f64 = 62.0;
pub const RIGHT: f64 = 1150.0;
pub const TOP: f64 = 66.0;
pub const BOTTOM: f64 = 372.0;
const COLOURS: [&str; 5] = ["#1F77B4", "#2C8C2C", "#E67800", "#8C564B", "#9467BD"];
pub const TORN: &str = "#D60000";

/// No more columns are kept than this, however many things there are.
const COLUMNS: usize = 2048;

/// What falls on one column of a picture.
pub trait Column: Copy {
    /// Where the first of it stands in the recording.
    fn place(&self) -> u64;
    fn join(self, next: Self) -> Self;
}

/// Things one after the other, whatever lies between them in the recording; where there are many, several in a column.
pub struct Columns<C> {
    all: Vec<C>,
    /// how many of them a column holds, and the last one
    step: u64,
    in_last: u64,
    pub count: u64,
}

impl<C> Default for Columns<C> {
    fn default() -> Columns<C> {
        Columns {
            all: Vec::new(),
            step: 1,
            in_last: 0,
            count: 0,
        }
    }
}

impl<C: Column> Columns<C> {
    pub fn take(&mut self, column: C) {
        self.count += 1;
        match self.all.last_mut() {
            Some(last) if self.in_last < self.step => {
                *last = last.join(column);
                self.in_last += 1;
                return;
            }
            _ => {}
        }
        if self.all.len() == COLUMNS {
            let pairs = self.all.chunks(2);
            self.all = pairs.map(|p| p[0].join(p[1])).collect();
            self.step *= 2;
        }
        self.all.push(column);
        self.in_last = 1;
    }

    /// How many columns there are.
    pub fn len(&self) -> usize {
        self.all.len()
    }

    /// Each with the number of its first thing, from 0 on.
    pub fn iter(&self) -> impl Iterator<Item = (u64, &C)> {
        self.all.iter().zip(0..).map(|(c, i)| (i * self.step, c))
    }

    /// The order of the things, and where they stand in the recording.
    pub fn axis(&self, svg: &mut Svg, none: &str, some: &str) {
        let step = nice(svg.count as f64 / 8.0).max(1);
        let ticks = (1..).map(|k| k * step - 1).take_while(|i| *i < self.count);
        let first = (self.count > 0).then_some(0);
        for i in first.into_iter().chain(ticks.filter(|i| *i > 0)) {
            let place = self.all[(i / self.step) as usize].place();
            svg.tick(i, &(i + 1).to_string(), &grouped(place));
        }
        svg.below(if self.count == 0 { none } else { some });
    }
}

/// Slices and refused units.
#[derive(Clone, Copy, Default)]
struct Units {
    place: u64,
    /// the least and the greatest QP of each slice type
    ends: [Option<(i64, i64)>; 5],
    /// how many units are refused, and the number of the first
    refused: u64,
    number: u32,
}

impl Column for Units {
    fn place(&self) -> u64 {
        self.place
    }

    fn join(self, next: Units) -> Units {
        let mut both = self;
        for (mine, other) in both.ends.iter_mut().zip(next.ends) {
            *mine = match (*mine, other) {
                (Some(a), Some(b)) => Some((a.0.min(b.0), a.1.max(b.1))),
                (a, b) => a.or(b),
            };
        }
        if self.refused == 0 {
            both.number = next.number;
        }
        both.refused += next.refused;
        both
    }
}

/// Slices and refused units one after the other.
pub struct Course {
    columns: Columns<Units>,
    /// how many units each number refuses
    refused: [u64; 64],
}

impl Default for Course {
    fn default() -> Course {
        Course {
            columns: Columns::default(),
            refused: [0; 64],
        }
    }
}

impl Course {
    /// A slice by its type and QP, or a refused unit by its number.
    pub fn take(&mut self, place: u64, what: Result<(u32, i64), u32>) {
        let mut column = Units {
            place,
            ..Units::default()
        };
        match what {
            Ok((family, qp)) => column.ends[family as usize % 5] = Some((qp, qp)),
            Err(number) => {
                (column.refused, column.number) = (1, number);
                self.refused[number.min(63) as usize] += 1;
            }
        }
        self.columns.take(column);
    }

    /// The picture.
    pub fn svg(&self, name: &str) -> String {
        let ends = self.columns.iter().flat_map(|(_, c)| c.ends).flatten();
        let mut svg = Svg::over(ends, self.columns.count);
        svg.begin("QP over", name);
        svg.qp_axis("slice QP");
        self.columns.axis(
            &mut svg,
            "no slice and no refused unit",
            "slices and refused units in their order, and the place of each in bytes",
        );
        // those that are many lie below those that are few
        let mut order: Vec<usize> = (0..5).collect();
        order.sort_by_key(|k| std::cmp::Reverse(self.of_family(*k).count()));
        for family in order {
            self.marks(family, &mut svg);
        }
        self.torn(&mut svg);
        self.legend(&mut svg);
        svg.text + "</svg>\n"
    }

    fn of_family(&self, family: usize) -> impl Iterator<Item = (u64, (i64, i64))> + '_ {
        let columns = self.columns.iter();
        columns.filter_map(move |(i, c)| c.ends[family].map(|ends| (i, ends)))
    }

    /// Each column from its least to its greatest QP: points where there are few, thin marks where there are many.
    fn marks(&self, family: usize, svg: &mut Svg) {
        let colour = COLOURS[family];
        if self.columns.len() <= 600 {
            let radius = if self.columns.len() <= 150 { 4.0 } else { 2.2 };
            let _ = writeln!(svg.text, r#"<g fill="{colour}">"#);
            for (i, (least, _)) in self.of_family(family) {
                let (x, y) = (svg.x(i), svg.y(least));
                let _ = writeln!(
                    svg.text,
                    r#"<circle cx="{x:.1}" cy="{y:.1}" r="{radius}"/>"#
                );
            }
            svg.text += "</g>\n";
            return;
        }
        let (mut path, height) = (String::new(), 2.0);
        for (i, (least, greatest)) in self.of_family(family) {
            let x = svg.x(i);
            let (above, below) = (svg.y(greatest) - height, svg.y(least) + height);
            let _ = write!(path, "M{x:.1} {above:.1}V{below:.1}");
        }
        let wide = (RIGHT - LEFT) / self.columns.len() as f64;
        let _ = writeln!(
            svg.text,
            r#"<path d="{path}" stroke="{colour}" stroke-width="{:.2}" stroke-opacity="0.75" fill="none"/>"#,
            wide.max(1.4)
        );
    }

    /// Red lines over the slices, so that none is hidden, and numbers where there is room.
    fn torn(&self, svg: &mut Svg) {
        let (mut path, mut numbers, mut last) = (String::new(), String::new(), f64::MIN);
        for (i, column) in self.columns.iter() {
            if column.refused == 0 {
                continue;
            }
            let x = svg.x(i);
            let _ = write!(path, "M{x:.1} {TOP}V{BOTTOM}");
            if x - last >= 20.0 {
                last = x;
                let (y, number) = (TOP - 5.0, column.number);
                let _ = writeln!(
                    numbers,
                    r#"<text x="{x:.1}" y="{y}" text-anchor="middle" fill="{TORN}">{number}</text>"#
                );
            }
        }
        if !path.is_empty() {
            let wide = if self.columns.len() <= 600 { 2.0 } else { 1.0 };
            let _ = writeln!(
                svg.text,
                r#"<path d="{path}" stroke="{TORN}" stroke-width="{wide}" fill="none"/>"#
            );
            svg.text += &numbers;
        }
    }

    /// How many there are of each type, and what was refused.
    fn legend(&self, svg: &mut Svg) {
        let mut x = LEFT;
        let mut entry = |colour: &str, words: &str| svg.entry(&mut x, colour, words);
        for (family, name) in FAMILIES.iter().enumerate() {
            if self.of_family(family).next().is_some() {
                entry(COLOURS[family], name);
            }
        }
        let all: u64 = self.refused.iter().sum();
        if all == 0 {
            return;
        }
        let mut numbers: Vec<_> = (1..64).filter(|n| self.refused[*n] > 0).collect();
        numbers.sort_by_key(|n| std::cmp::Reverse(self.refused[*n]));
        let more = if numbers.len() > 6 { ", .." } else { "" };
        let told: Vec<_> = (numbers.iter().take(6))
            .map(|n| format!("{n}: {}", self.refused[*n]))
            .collect();
        entry(TORN, &format!("refused {all} ({}{more})", told.join(", ")));
    }
}

/// A picture that has begun, with its scales.
pub struct Svg {
    pub text: String,
    low: i64,
    high: i64,
    count: u64,
}

impl Svg {
    /// From the least to the greatest of these QPs with some room, or what 8 bits allow where there is none; with so many things side by side.
    pub fn over(ends: impl Iterator<Item = (i64, i64)>, count: u64) -> Svg {
        let ends = ends.reduce(|a, b| (a.0.min(b.0), a.1.max(b.1)));
        let (least, greatest) = ends.unwrap_or((0, 51));
        let room = (10 - (greatest - least)).max(2) / 2;
        Svg {
            text: String::new(),
            low: least - room,
            high: greatest + room,
            count: count.max(1),
        }
    }

    pub fn x(&self, i: u64) -> f64 {
        LEFT + (RIGHT - LEFT) * (i as f64 + 0.5) / self.count as f64
    }

    fn y(&self, qp: i64) -> f64 {
        self.at(qp as f64)
    }

    pub fn at(&self, qp: f64) -> f64 {
        let part = (qp - self.low as f64) / (self.high - self.low) as f64;
        BOTTOM - (BOTTOM - TOP) * part
    }

    /// An entry of the legend, which ends where the next begins.
    pub fn entry(&mut self, x: &mut f64, colour: &str, words: &str) {
        let (at, y) = (*x, 42.0);
        let _ = writeln!(
            self.text,
            r#"<rect x="{at:.0}" y="{:.0}" width="12" height="12" fill="{colour}"/>"#,
            y - 11.0
        );
        let _ = writeln!(
            self.text,
            r#"<text x="{:.0}" y="{y:.0}">{words}</text>"#,
            at + 18.0
        );
        *x += 44.0 + 8.0 * words.len() as f64;
    }

    /// A line upwards, with two lines of words below it.
    fn tick(&mut self, i: u64, number: &str, place: &str) {
        let x = self.x(i);
        let _ = writeln!(
            self.text,
            r##"<path d="M{x:.1} {TOP}V{:.0}" stroke="#E2E2E2" fill="none"/>"##,
            BOTTOM + 5.0
        );
        for (words, y) in [(number, 20.0), (place, 38.0)] {
            let y = BOTTOM + y;
            let _ = writeln!(
                self.text,
                r#"<text x="{x:.1}" y="{y:.0}" text-anchor="middle">{words}</text>"#
            );
        }
    }

    /// What the things side by side are.
    fn below(&mut self, words: &str) {
        let (x, y) = ((LEFT + RIGHT) / 2.0, BOTTOM + 58.0);
        let _ = writeln!(
            self.text,
            r#"<text x="{x:.0}" y="{y:.0}" text-anchor="middle">{words}</text>"#
        );
    }

    pub fn begin(&mut self, what: &str, name: &str) {
        let (w, h) = (WIDTH, HEIGHT);
        let _ = writeln!(
            self.text,
            r##"<svg xmlns="http://www.w3.org/2000/svg" width="{w}" height="{h}" viewBox="0 0 {w} {h}" font-family="sans-serif" font-size="14" fill="#222222">
<rect width="{w}" height="{h}" fill="#FFFFFF"/>
<text x="{LEFT}" y="22" font-size="18">{what} {}</text>"##,
            escaped(&shown::text(name))
        );
    }

    pub fn qp_axis(&mut self, words: &str) {
        let step = nice((self.high - self.low) as f64 / 8.0).max(1) as i64;
        let first = self.low.div_euclid(step) * step;
        let ticks = (0..).map(|k| first + k * step);
        let (low, high) = (self.low, self.high);
        for qp in ticks.skip_while(|q| *q < low).take_while(|q| *q <= high) {
            let y = self.y(qp);
            let _ = writeln!(
                self.text,
                r##"<path d="M{LEFT} {y:.1}H{RIGHT}" stroke="#E2E2E2" fill="none"/>
<text x="{:.0}" y="{:.1}" text-anchor="end">{qp}</text>"##,
                LEFT - 8.0,
                y + 5.0
            );
        }
        let y = (TOP + BOTTOM) / 2.0;
        let _ = writeln!(
            self.text,
            r##"<path d="M{LEFT} {TOP}V{BOTTOM}H{RIGHT}" stroke="#888888" fill="none"/>
<text x="18" y="{y:.0}" text-anchor="middle" transform="rotate(-90 18 {y:.0})">{words}</text>"##
        );
    }
}

/// 1, 2 or 5 and zeros: not less than asked for.
fn nice(least: f64) -> u64 {
    let mut ten = 1u64;
    loop {
        for k in [1, 2, 5] {
            if (k * ten) as f64 >= least {
                return k * ten;
            }
        }
        ten *= 10;
    }
}

/// 1234567 as 1,234,567.
fn grouped(n: u64) -> String {
    let digits = n.to_string();
    let mut told = String::new();
    for (i, digit) in digits.chars().enumerate() {
        if i > 0 && (digits.len() - i) % 3 == 0 {
            told.push(',');
        }
        told.push(digit);
    }
    told
}

fn escaped(text: &str) -> String {
    let text = text.replace('&', "&amp;").replace('<', "&lt;");
    text.replace('>', "&gt;").replace('"', "&quot;")
}
