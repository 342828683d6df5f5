//! Least times, taken in turns.
use std::time::Instant;

/// The least time of each part of a run, over all rounds so far.
#[derive(Default)]
pub struct Laps {
    least: Vec<f64>,
    next: usize,
    start: Option<Instant>,
}

impl Laps {
    fn begin(&mut self) {
        self.next = 0;
        self.start = Some(Instant::now());
    }

    /// Begins the part of the run anew: what was done since the last does not count.
    pub fn anew(&mut self) {
        self.start = Some(Instant::now());
    }

    /// Ends a part of the run.
    pub fn lap(&mut self) {
        let now = Instant::now();
        let time = (now - self.start.unwrap_or(now)).as_secs_f64();
        match self.least.get_mut(self.next) {
            Some(least) => *least = least.min(time),
            None => self.least.push(time),
        }
        self.next += 1;
        self.start = Some(Instant::now());
    }
}

pub type Contestant<'a> = Box<dyn FnMut(&mut Laps) + 'a>;

/// The time of each contestant in seconds: for each part of its run the least of all rounds, added up. So a disturbance spoils one part of one
/// round only, however long the run is. The contestants take turns, in every other round backwards: who runs right after a queue is slower for a
/// while, and so nobody is that in every round.
pub fn in_turns<const N: usize>(rounds: usize, mut contestants: [Contestant; N]) -> [f64; N] {
    let mut laps = [(); N].map(|_| Laps::default());
    for round in 0..rounds {
        for k in 0..N {
            let i = if round % 2 == 0 { k } else { N - 1 - k };
            laps[i].begin();
            contestants[i](&mut laps[i]);
            laps[i].lap();
        }
    }
    laps.map(|l| l.least.iter().sum())
}

pub fn geometric_mean(xs: &[f64]) -> f64 {
    (xs.iter().map(|x| x.ln()).sum::<f64>() / xs.len() as f64).exp()
}
