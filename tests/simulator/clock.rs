//! The clocks of a host: real time, which may jump, and monotonic time. Both have the host's own rate, and both may stand still.

use crate::chance::{Chance, FaultKind, Faults};

/// The number of the clock of real time; every other number is the monotonic clock's.
pub const CLOCK_REALTIME: i32 = 0;
/// The number of the clock of real time that is read faster and more coarsely.
pub const CLOCK_REALTIME_COARSE: i32 = 5;

const MILLISECOND: u64 = 1_000_000;
const SECOND: u64 = 1_000 * MILLISECOND;
const DAY: u64 = 86_400 * SECOND;
/// Real time when a world begins, but for what the host's clock is wrong by: 2026-11-29, since the epoch of Unix.
pub const BEGIN: u64 = 1_795_910_400 * SECOND;
/// The clock of no host is wrong by more when a world begins.
const MOST_WRONG: u64 = 2 * SECOND;
/// No host has run longer when a world begins.
const MOST_RUN: u64 = 400 * DAY;
/// The rate of no clock is wrong by more parts in a million.
const MOST_PARTS: u64 = 200;

/// The clocks of one host.
#[derive(Clone)]
pub struct Clock {
    /// What the clock gains of true time: parts in a million, less where it is negative.
    parts: i64,
    /// The monotonic clock when the world began.
    zero: u64,
    /// Real time less the monotonic clock.
    ahead: u64,
    /// The nanoseconds that a stop took away for good.
    lost: u64,
    /// The stop that goes on: from when, until when, and whether the clocks catch up behind it.
    stop: Option<Stop>,
    /// The last that the monotonic clock showed.
    last: u64,
}

#[derive(Clone, Copy)]
struct Stop {
    from: u64,
    until: u64,
    catches_up: bool,
}

impl Clock {
    /// Clocks with a zero and a rate of their own.
    pub fn new(chance: &mut Chance) -> Self {
        let zero = chance.below(MOST_RUN);
        let parts = chance.below(2 * MOST_PARTS + 1) as i64 - MOST_PARTS as i64;
        let ahead = BEGIN - MOST_WRONG + chance.below(2 * MOST_WRONG) - zero;
        Clock { parts, zero, ahead, lost: 0, stop: None, last: zero }
    }

    /// What a clock shows at a moment, in nanoseconds. Real time may jump at this chance, and both clocks may stop.
    pub fn read(&mut self, which: i32, now: u64, faults: &mut Faults) -> u64 {
        if let Some(chance) = faults.happens(FaultKind::ClockStop, now) {
            self.stand_still(now, chance, faults.until);
        }
        let shown = self.monotonic(now);
        if which != CLOCK_REALTIME && which != CLOCK_REALTIME_COARSE {
            return shown;
        }
        if let Some(chance) = faults.happens(FaultKind::ClockJump, now) {
            self.jump(chance);
        }
        shown.wrapping_add(self.ahead)
    }

    /// Nothing goes wrong any more: a stop ends now.
    pub fn calm(&mut self, now: u64) {
        if let Some(stop) = &mut self.stop {
            stop.until = stop.until.min(now.max(stop.from));
        }
    }

    /// What the monotonic clock shows.
    fn monotonic(&mut self, now: u64) -> u64 {
        let mut moment = now;
        if let Some(stop) = self.stop {
            moment = now.min(stop.from);
            if now >= stop.until {
                self.stop = None;
                self.lost += if stop.catches_up { 0 } else { stop.until - stop.from };
                moment = now;
            }
        }
        let gained = i128::from(moment) * i128::from(self.parts) / 1_000_000;
        let shown = i128::from(self.zero) + i128::from(moment) + gained - i128::from(self.lost);
        self.last = self.last.max(u64::try_from(shown).unwrap_or(0));
        self.last
    }

    /// Both clocks stop for a while. Behind it they go on from where they stood, or catch up.
    fn stand_still(&mut self, now: u64, mut chance: Chance, end: u64) {
        self.monotonic(now);
        if self.stop.is_none() {
            let most = *chance.pick(&[20 * MILLISECOND, 200 * MILLISECOND, 3 * SECOND]);
            let until = (now + 1 + chance.below(most)).min(end.max(now));
            self.stop = Some(Stop { from: now, until, catches_up: chance.one_in(2) });
        }
    }

    /// Real time jumps by milliseconds, minutes or days, back or ahead.
    fn jump(&mut self, mut chance: Chance) {
        let most = *chance.pick(&[20 * MILLISECOND, 2 * SECOND, 600 * SECOND, 300 * DAY]);
        let by = 1 + chance.below(most);
        self.ahead = if chance.one_in(2) { self.ahead.saturating_add(by) } else { self.ahead.saturating_sub(by) };
    }
}

#[cfg(test)]
mod tests {
    use super::*;
    use std::collections::BTreeSet;

    const CLOCK_MONOTONIC: i32 = 1;

    fn faults(seed: u64, rate: u64, until: u64) -> Faults {
        let mut rates = [0; 16];
        rates[FaultKind::ClockJump as usize] = rate;
        rates[FaultKind::ClockStop as usize] = rate;
        Faults::new(seed, rates, until, BTreeSet::new())
    }

    #[test]
    fn clocks_differ_in_zero_and_rate_by_no_more_than_they_may() {
        let mut none = faults(0, 0, 0);
        let (mut zeros, mut parts) = (BTreeSet::new(), BTreeSet::new());
        for seed in 0..100 {
            let mut clock = Clock::new(&mut Chance::new(seed, "clock", 0));
            let (zero, real) = (clock.read(CLOCK_MONOTONIC, 0, &mut none), clock.read(CLOCK_REALTIME, 0, &mut none));
            assert!(real.abs_diff(BEGIN) <= MOST_WRONG);
            let gained = (clock.read(CLOCK_MONOTONIC, 1_000 * SECOND, &mut none) - zero) as i64 - 1_000 * SECOND as i64;
            zeros.insert(zero);
            parts.insert(gained / (1_000 * 1_000));
            assert_eq!(clock.read(CLOCK_REALTIME, 1_000 * SECOND, &mut none) - clock.last, real - zero);
        }
        assert!(zeros.len() == 100 && parts.len() > 50);
        assert!(parts.first() < Some(&-100) && parts.last() > Some(&100), "{parts:?}");
        assert!(parts.first() >= Some(&-200) && parts.last() <= Some(&200), "{parts:?}");
    }

    #[test]
    fn monotonic_time_never_goes_back_stands_still_and_real_time_jumps_both_ways() {
        let (mut stood, mut back, mut ahead) = (0, 0, 0);
        for seed in 0..50 {
            let mut faults = faults(seed, 300, 3_000 * MILLISECOND);
            let mut clock = Clock::new(&mut Chance::new(seed, "clock", 0));
            let mut last = (clock.read(CLOCK_MONOTONIC, 0, &mut faults), clock.read(CLOCK_REALTIME, 0, &mut faults));
            for now in (1..4_000).map(|step| step * MILLISECOND) {
                let seen = (clock.read(CLOCK_MONOTONIC, now, &mut faults), clock.read(CLOCK_REALTIME, now, &mut faults));
                assert!(seen.0 >= last.0);
                let is_over = now > 3_001 * MILLISECOND;
                assert!(!is_over || seen.0 - last.0 > 999_000 && seen.1 - last.1 == seen.0 - last.0, "nothing goes wrong any more");
                stood += u32::from(seen.0 == last.0);
                back += u32::from(seen.1 < last.1);
                ahead += u32::from(seen.1 > last.1 + 10 * MILLISECOND);
                last = seen;
            }
        }
        assert!(stood > 1_000 && back > 50 && ahead > 50, "{stood} {back} {ahead}");
    }
}
