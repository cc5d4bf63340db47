//! Timing several functions on one input, in turns, so that they share the machine's moods; and
//! one layout for all tables and all bars.

use std::hint::black_box;
use std::time::{Duration, Instant};

/// A name, and the function to time.
pub type Contender<'a> = (&'a str, &'a mut dyn FnMut(&[u8]) -> u32);

/// The nanoseconds of one call, a figure for each round.
pub struct Figures(Vec<f64>);

impl Figures {
    /// Least, median and most.
    fn spread(&self) -> [f64; 3] {
        let mut sorted = self.0.clone();
        sorted.sort_by(f64::total_cmp);
        [0, sorted.len() / 2, sorted.len() - 1].map(|i| sorted[i])
    }

    pub fn median(&self) -> f64 {
        self.spread()[1]
    }

    /// This one's time over the other's, round by round.
    fn over(&self, other: &Figures) -> Figures {
        self.with(other, |a, b| a / b)
    }

    pub fn with(&self, other: &Figures, join: impl Fn(f64, f64) -> f64) -> Figures {
        let pairs = self.0.iter().zip(&other.0);
        Figures(pairs.map(|(a, b)| join(*a, *b)).collect())
    }
}

/// Times one kind of calls, and prints their tables and then their bars.
pub struct Report {
    kind: &'static str,
    rounds: usize,
    batch: Duration,
    bars: Vec<String>,
    /// Whether the tables say what a byte of the input takes.
    pub per_byte: bool,
}

impl Report {
    /// With rounds that count, after one that warms up, and the least that a batch of calls lasts.
    pub fn new(kind: &'static str, rounds: usize, ms: u64) -> Self {
        Report { kind, rounds, batch: Duration::from_millis(ms), bars: Vec::new(), per_byte: false }
    }

    pub fn say(&self, line: &str) {
        println!("bench: {}: {line}", self.kind);
    }

    /// Times the contenders on `input`; `bar` is what the second is to stay under, over the first.
    pub fn table(
        &mut self,
        title: &str,
        contenders: &mut [Contender],
        input: &[u8],
        bar: Option<f64>,
    ) -> Vec<Figures> {
        let figures = self.measure(contenders, input);
        println!("  {title}");
        for ((name, _), own) in contenders.iter().zip(&figures) {
            let ([least, ns, most], ratio) = (own.spread(), own.over(&figures[0]).median());
            let range = format!("({least:.1} .. {most:.1})");
            print!("    {name:<40} {ns:>10.1} ns {range:>24} {ratio:>8.2} x first");
            match self.per_byte {
                true => println!(" {:>7.3} ns a byte", ns / input.len() as f64),
                false => println!(),
            }
        }
        if bar.is_some() {
            self.bar(title, &figures[1], &figures[0], bar);
        }
        figures
    }

    /// One batch of each contender in every round.
    fn measure(&self, contenders: &mut [Contender], input: &[u8]) -> Vec<Figures> {
        let calls = |c| calls_that_last(c, input, self.batch);
        let calls: Vec<u32> = contenders.iter_mut().map(calls).collect();
        let mut figures: Vec<Figures> = calls.iter().map(|_| Figures(Vec::new())).collect();
        for round in 0..=self.rounds {
            for (i, contender) in contenders.iter_mut().enumerate() {
                let time = time(contender, input, calls[i]);
                if round > 0 {
                    figures[i].0.push(time.as_nanos() as f64 / calls[i] as f64);
                }
            }
        }
        figures
    }

    /// The same for the Rust, the port, and what does less: a bar over the first, and one over the
    /// third if it has any.
    pub fn table_over_both(
        &mut self,
        title: &str,
        mut contenders: [Contender; 3],
        input: &[u8],
        (rust, less): (f64, Option<f64>),
    ) {
        let figures = self.table(title, &mut contenders, input, Some(rust));
        let name = format!("{title}, over {}", contenders[2].0);
        self.bar(&name, &figures[1], &figures[2], less);
    }

    /// Keeps for the end what is to be said of the port's time over the Rust's.
    pub fn bar(&mut self, name: &str, port: &Figures, rust: &Figures, bar: Option<f64>) {
        let [least, ratio, most] = port.over(rust).spread();
        let (word, end) = match bar {
            None => ("no bar", String::new()),
            Some(bar) if ratio <= bar => ("met", format!(", bar {bar}")),
            Some(bar) => ("NOT MET", format!(", bar {bar}")),
        };
        let times = format!("{:.1} / {:.1} ns", port.median(), rust.median());
        let ratio = format!("{ratio:.3} ({least:.3} .. {most:.3})");
        let line = format!("{word}: {name}: {times} = {ratio}{end}");
        self.bars.push(line);
    }

    pub fn print_bars(&self) {
        self.say("bars: port over Rust, the median of the rounds' ratios (least .. most)");
        self.bars.iter().for_each(|line| println!("  {line}"));
    }
}

fn calls_that_last(contender: &mut Contender, input: &[u8], batch: Duration) -> u32 {
    let mut calls = 1;
    while time(contender, input, calls) < batch {
        calls *= 2;
    }
    calls
}

fn time((_, call): &mut Contender, input: &[u8], calls: u32) -> Duration {
    let start = Instant::now();
    for _ in 0..calls {
        black_box(call(black_box(input)));
    }
    start.elapsed()
}

#[cfg(test)]
mod tests {
    use super::*;

    #[test]
    fn figures_are_ordered() {
        let figures = Figures(vec![3.0, 1.0, 2.0]);
        assert_eq!(figures.spread(), [1.0, 2.0, 3.0]);
        let ratio = figures.over(&Figures(vec![1.0, 1.0, 4.0]));
        assert_eq!(ratio.0, [3.0, 1.0, 0.5]);
    }

    #[test]
    fn every_contender_gets_every_round() {
        let report = Report::new("", 3, 1);
        let mut length = |data: &[u8]| data.len() as u32;
        let figures = report.measure(&mut [("length", &mut length)], &[0; 8]);
        assert_eq!((figures.len(), figures[0].0.len()), (1, 3));
    }

    #[test]
    fn a_bar_is_met_up_to_itself() {
        let mut report = Report::new("", 1, 1);
        let (port, rust) = (Figures(vec![3.0]), Figures(vec![2.0]));
        for bar in [None, Some(1.5), Some(1.4)] {
            report.bar("it", &port, &rust, bar);
        }
        let same = "it: 3.0 / 2.0 ns = 1.500 (1.500 .. 1.500)";
        assert_eq!(report.bars[0], format!("no bar: {same}"));
        assert_eq!(report.bars[1], format!("met: {same}, bar 1.5"));
        assert_eq!(report.bars[2], format!("NOT MET: {same}, bar 1.4"));
    }
}
