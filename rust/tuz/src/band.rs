//! QP by exposure, as SVG: the mean over a band from the least to the greatest, with marks where frames are missing and where units were refused.

use crate::plot::{Column, Columns, Svg, BOTTOM, LEFT, RIGHT, TOP, TORN};
use std::fmt::Write;
use tuzmarghil::{Exposure, ExposureTotals};

const MEAN: &str = "#1F77B4";
const BAND: &str = "#B9D4EA";
const GAP: &str = "#E67800";

/// Exposures of one column.
#[derive(Clone, Copy)]
struct Pictures {
    place: u64,
    least: i64,
    greatest: i64,
    /// of so many exposures the sum of the means
    sum: f64,
    count: u64,
    gap: bool,
    refused: u64,
}

impl Column for Pictures {
    fn place(&self) -> u64 {
        self.place
    }

    fn join(self, next: Pictures) -> Pictures {
        Pictures {
            place: self.place,
            least: self.least.min(next.least),
            greatest: self.greatest.max(next.greatest),
            sum: self.sum + next.sum,
            count: self.count + next.count,
            gap: self.gap || next.gap,
            refused: self.refused + next.refused,
        }
    }
}

/// Exposures one after the other.
#[derive(Default)]
pub struct Band {
    columns: Columns<Pictures>,
}

impl Band {
    pub fn take(&mut self, e: &Exposure) {
        self.columns.take(Pictures {
            place: e.place,
            least: e.qp_least,
            greatest: e.qp_greatest,
            sum: e.qp_mean,
            count: 1,
            gap: e.gap,
            refused: e.refused_before,
        });
    }

    /// The picture.
    pub fn svg(&self, name: &str, totals: &ExposureTotals) -> String {
        let ends = self.columns.iter().map(|(_, c)| (c.least, c.greatest));
        let mut svg = Svg::over(ends, self.columns.count);
        svg.begin("QP by exposure in", name);
        svg.qp_axis("QP");
        self.columns.axis(
            &mut svg,
            "no exposure",
            "exposures in their order, and the place of each in bytes",
        );
        self.marks(&mut svg);
        self.legend(totals, &mut svg);
        svg.text + "</svg>\n"
    }

    fn marks(&self, svg: &mut Svg) {
        let wide = ((RIGHT - LEFT) / self.columns.len().max(1) as f64).clamp(1.4, 14.0);
        let (mut band, mut mean, mut gaps, mut torn) =
            (String::new(), String::new(), String::new(), String::new());
        for (i, c) in self.columns.iter() {
            let x = svg.x(i);
            let (above, below) = (svg.at(c.greatest as f64), svg.at(c.least as f64));
            let middle = svg.at(c.sum / c.count as f64);
            let _ = write!(band, "M{x:.1} {:.1}V{:.1}", above - 2.0, below + 2.0);
            let half = wide / 2.0;
            let _ = write!(mean, "M{:.1} {middle:.1}h{wide:.1}", x - half);
            if c.gap {
                let _ = write!(gaps, "M{:.1} {TOP}V{BOTTOM}", x - half);
            }
            if c.refused > 0 {
                let _ = write!(torn, "M{:.1} {TOP}V{BOTTOM}", x - half - 2.0);
            }
        }
        let lines = [
            (band, BAND, wide),
            (mean, MEAN, 3.0),
            (gaps, GAP, 2.0),
            (torn, TORN, 2.0),
        ];
        for (path, colour, width) in lines {
            if !path.is_empty() {
                let _ = writeln!(
                    svg.text,
                    r#"<path d="{path}" stroke="{colour}" stroke-width="{width:.1}" fill="none"/>"#
                );
            }
        }
    }

    fn legend(&self, t: &ExposureTotals, svg: &mut Svg) {
        let mut x = LEFT;
        let entries = [
            (MEAN, format!("{} exposures: mean", t.exposures), true),
            (BAND, "least to greatest".to_owned(), true),
            (GAP, format!("{} gaps", t.gaps), t.gaps > 0),
            (TORN, format!("refused {}", t.refused), t.refused > 0),
        ];
        for (colour, words, there) in entries {
            if there {
                svg.entry(&mut x, colour, &words);
            }
        }
    }
}
