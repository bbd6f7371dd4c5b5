//! The bars, which have to hold, and the goals, which are told.

#[derive(Default)]
pub struct Bars {
    lines: Vec<String>,
    broken: bool,
}

impl Bars {
    pub fn at_least(&mut self, name: &str, got: f64, bar: f64) {
        self.bar(format!("{name}: {got:.2}, at least {bar:.2}"), got >= bar);
    }

    pub fn at_most(&mut self, name: &str, got: f64, bar: f64) {
        self.bar(format!("{name}: {got:.2}, at most {bar:.2}"), got <= bar);
    }

    /// A bar over h264-reader as tests/oracle builds it, of Debian's packages; a goal over its build with the newest memchr.
    pub fn over_build(&mut self, name: &str, build: &str, got: f64, bar: f64) {
        if build.ends_with('+') {
            self.goal(name, got, bar);
        } else {
            self.at_least(name, got, bar);
        }
    }

    fn bar(&mut self, text: String, holds: bool) {
        let word = if holds { "holds " } else { "BROKEN" };
        self.lines.push(format!("  bar  {word} {text}"));
        self.broken |= !holds;
    }

    pub fn goal(&mut self, name: &str, got: f64, goal: f64) {
        let word = if got >= goal { "reached" } else { "not yet" };
        let line = format!("  goal {word} {name}: {got:.2}, at least {goal:.2}");
        self.lines.push(line);
    }

    /// Prints all of them; true where every bar holds.
    pub fn print(&self) -> bool {
        println!("\nbars and goals");
        for line in &self.lines {
            println!("{line}");
        }
        if self.lines.is_empty() {
            println!("  none measured: the peers are not at hand, or the part has none");
        }
        !self.broken
    }
}
