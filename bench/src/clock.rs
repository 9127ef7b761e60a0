//! Times of several sides of one question, in rounds that take turns.

use crate::spent;
use std::time::Duration;

const ROUNDS: usize = 61;
const BATCH: Duration = Duration::from_millis(2);

/// What one side took in each round, in seconds a call
pub struct Times(Vec<f64>);

impl Times {
    pub fn least(&self) -> f64 {
        self.at(0.0)
    }

    pub fn median(&self) -> f64 {
        self.at(0.5)
    }

    fn at(&self, part: f64) -> f64 {
        quantile(&self.0, part)
    }
}

fn quantile(numbers: &[f64], part: f64) -> f64 {
    let mut sorted = numbers.to_vec();
    sorted.sort_by(f64::total_cmp);
    sorted[((sorted.len() - 1) as f64 * part).round() as usize]
}

/// How many times faster the second is, by the least times, and by nine of ten rounds
pub struct Ratio {
    pub least: f64,
    pub from: f64,
    pub to: f64,
}

pub fn ratio(slow: &Times, fast: &Times) -> Ratio {
    let rounds = slow.0.iter().zip(&fast.0);
    let ratios: Vec<f64> = rounds.map(|(slow, fast)| slow / fast).collect();
    Ratio {
        least: slow.least() / fast.least(),
        from: quantile(&ratios, 0.05),
        to: quantile(&ratios, 0.95),
    }
}

pub type Side<'a> = Box<dyn FnMut() + 'a>;

/// Each side in each round, so that what disturbs one disturbs all
pub fn measure(mut sides: Vec<Side>) -> Vec<Times> {
    let batches: Vec<u32> = sides.iter_mut().map(calls_in_a_batch).collect();
    let mut times: Vec<Times> = sides.iter().map(|_| Times(Vec::new())).collect();
    for _ in 0..ROUNDS {
        for ((side, calls), times) in sides.iter_mut().zip(&batches).zip(&mut times) {
            let taken = take(side, *calls);
            times.0.push(taken.as_secs_f64() / f64::from(*calls));
        }
    }
    times
}

fn take(side: &mut Side, calls: u32) -> Duration {
    let before = spent::here();
    for _ in 0..calls {
        side();
    }
    spent::here() - before
}

fn calls_in_a_batch(side: &mut Side) -> u32 {
    let mut calls = 1;
    while take(side, calls) < BATCH {
        calls *= 2;
    }
    calls
}
