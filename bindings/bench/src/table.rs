//! Rows that are timed in turn.
use std::time::Instant;

/// A contender: its name, and what takes one sample, in nanoseconds a round trip.
pub struct Row {
    name: &'static str,
    sample: Box<dyn FnMut() -> f64>,
}

impl Row {
    /// A row whose sample times `trips` round trips; `trip` gets a number and returns its successor.
    pub fn of_trips(name: &'static str, trips: u64, mut trip: impl FnMut(u64) -> u64 + 'static) -> Row {
        let mut number = 0;
        let sample = move || {
            let (first, start) = (number, Instant::now());
            for _ in 0..trips {
                number = trip(number);
            }
            let nanoseconds = start.elapsed().as_nanos();
            assert_eq!(number, first + trips, "{name}: an answer is wrong");
            nanoseconds as f64 / trips as f64
        };
        Row { name, sample: Box::new(sample) }
    }

    /// A row that times itself.
    pub fn timed(name: &'static str, sample: impl FnMut() -> f64 + 'static) -> Row {
        Row { name, sample: Box::new(sample) }
    }
}

/// Takes `rounds` samples of each row, in turn, and prints the best, the middle, and their ratios to the first row's.
pub fn print(title: &str, rounds: usize, mut rows: Vec<Row>) {
    let mut samples = vec![Vec::with_capacity(rounds); rows.len()];
    for _ in 0..rounds {
        for (row, taken) in rows.iter_mut().zip(&mut samples) {
            taken.push((row.sample)());
        }
    }
    samples.iter_mut().for_each(|taken| taken.sort_by(f64::total_cmp));
    println!("{title}");
    let (best, middle) = (samples[0][0], samples[0][rounds / 2]);
    for (row, taken) in rows.iter().zip(&samples) {
        let (fast, usual) = (taken[0], taken[rounds / 2]);
        println!("  {:52} {fast:9.1} {usual:9.1}   {:5.2} {:5.2}", row.name, fast / best, usual / middle);
    }
}
