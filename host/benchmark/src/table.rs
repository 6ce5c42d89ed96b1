//! The best times, and how they are printed.

pub const LENGTHS: [u64; 3] = [128, 512, 2048];

/// A line of the table: the best time seen at each length, in ns.
struct Line {
    name: String,
    best: [f64; 3],
}

#[derive(Default)]
pub struct Table {
    lines: Vec<Line>,
}

impl Table {
    /// Takes a time in, at a column, if it is the best so far.
    pub fn take(&mut self, name: &str, column: usize, time: f64) {
        let at = self.lines.iter().position(|line| line.name == name).unwrap_or_else(|| {
            self.lines.push(Line { name: name.to_string(), best: [f64::INFINITY; 3] });
            self.lines.len() - 1
        });
        let best = &mut self.lines[at].best[column];
        *best = best.min(time);
    }

    fn find(&self, name: &str) -> Option<&Line> {
        self.lines.iter().find(|line| line.name == name)
    }

    /// Prints the lines, then how many times the first of each pair takes what the second does.
    pub fn print(&self, ratios: &[(&'static str, &'static str)]) {
        print_head("ns per instruction");
        for line in &self.lines {
            print_line(&line.name, line.best);
        }
        println!();
        print_head("times as long");
        for (above, below) in ratios {
            if let (Some(a), Some(b)) = (self.find(above), self.find(below)) {
                print_line(&format!("{above} / {below}"), [0, 1, 2].map(|i| a.best[i] / b.best[i]));
            }
        }
    }
}

fn print_head(name: &str) {
    println!("{name:44}{:>9}{:>9}{:>9}", "128", "512", "2,048");
}

fn print_line(name: &str, numbers: [f64; 3]) {
    let [a, b, c] = numbers;
    println!("{name:44}{a:>9.2}{b:>9.2}{c:>9.2}");
}
