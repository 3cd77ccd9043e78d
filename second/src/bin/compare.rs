//! Seeded random runs through the proved library and the second program.
//!
//!     compare SEED COUNT          scenarios of SEED, SEED + 1 and so on, until COUNT packets
//!     compare one SEED            that scenario alone
//!     compare forever [SECONDS]   fresh seeds, until it is stopped or so many seconds are over
//!
//! Prints each scenario in which the two differ with its seed, then what was compared. Status 1
//! where something differed, or where a long run tried a scenario, a refusal, a stop, an answer or
//! anything else of `Tally::seen` too seldom.
#![forbid(unsafe_code)]

use std::process::ExitCode;

#[cfg(linked)]
fn main() -> ExitCode {
    match linked::run() {
        Ok(true) => ExitCode::SUCCESS,
        Ok(false) => ExitCode::FAILURE,
        Err(text) => {
            eprintln!("compare: {text}");
            ExitCode::from(2)
        }
    }
}

#[cfg(not(linked))]
fn main() -> ExitCode {
    eprintln!("compare: built without the proved library: run tools/archive, then build again");
    ExitCode::from(2)
}

#[cfg(linked)]
mod linked {
    use second::morning::Dice;
    use second::scenarios::{name_of, run as scenario, Ran, SCENARIOS};
    use second::twins::Tally;
    use std::panic::catch_unwind;
    use std::time::{Duration, Instant, SystemTime};

    /// After so many differences a run has said enough.
    const MOST_DIFFERENCES: u64 = 20;
    /// A run of so many packets must have tried everything: each scenario as often as its weight says
    /// for each hundred thousand packets, and all else so often for each of them.
    const LONG_RUN: u64 = 100_000;
    /// A scenario of weight 1 comes up about three times in a long run, and in one of twenty not at all: it is asked
    /// for over so many of them.
    const ROUND: u64 = 5;
    const LEAST_SEEN: u64 = 10;

    const USAGE: &str = "compare SEED COUNT | compare one SEED | compare forever [SECONDS]";

    pub fn run() -> Result<bool, String> {
        let words: Vec<String> = std::env::args().skip(1).collect();
        let words: Vec<&str> = words.iter().map(String::as_str).collect();
        let mut total = Total::default();
        match words.as_slice() {
            ["one", seed] => total.scenario(number(seed)?),
            ["forever"] => total.forever(None),
            ["forever", seconds] => total.forever(Some(Duration::from_secs(number(seconds)?))),
            [seed, count] => total.until(number(seed)?, number(count)?),
            _ => return Err(USAGE.to_string()),
        }
        Ok(total.verdict())
    }

    fn number(word: &str) -> Result<u64, String> {
        word.parse()
            .map_err(|_| format!("{word} is no number: {USAGE}"))
    }

    /// All scenarios of a run together.
    #[derive(Default)]
    struct Total {
        tally: Tally,
        scenarios: [u64; SCENARIOS.len()],
        packets: [u64; SCENARIOS.len()],
        differences: u64,
    }

    impl Total {
        fn until(&mut self, first: u64, packets: u64) {
            let mut seed = first;
            while self.tally.packets < packets && self.differences < MOST_DIFFERENCES {
                self.scenario(seed);
                seed = seed.wrapping_add(1);
            }
        }

        /// Seeds from the clock on. A line a minute tells what was compared so far, since a run
        /// that is stopped from outside says nothing at its end.
        fn forever(&mut self, time: Option<Duration>) {
            let begun = Instant::now();
            let clock = SystemTime::now().duration_since(SystemTime::UNIX_EPOCH);
            let mut seed = Dice::new(clock.map_or(1, |time| time.as_nanos() as u64)).bits();
            println!("compare: from seed {seed}");
            let mut minutes = 0;
            while time.is_none_or(|time| begun.elapsed() < time)
                && self.differences < MOST_DIFFERENCES
            {
                self.scenario(seed);
                seed = seed.wrapping_add(1);
                if begun.elapsed().as_secs() / 60 > minutes {
                    minutes += 1;
                    println!(
                        "compare: {} packets, {} differences, seed {seed} is next",
                        self.tally.packets, self.differences
                    );
                }
            }
        }

        /// One scenario. A panic of the second program counts as a difference.
        fn scenario(&mut self, seed: u64) {
            let ran = catch_unwind(|| scenario(seed)).unwrap_or_else(|_| Ran {
                name: name_of(seed),
                tally: Tally::default(),
                difference: Some("a panic".to_string()),
            });
            for (place, scenario) in SCENARIOS.iter().enumerate() {
                if scenario.name == ran.name {
                    self.scenarios[place] += 1;
                    self.packets[place] += ran.tally.packets;
                }
            }
            self.tally.add(&ran.tally);
            if let Some(difference) = ran.difference {
                self.differences += 1;
                println!(
                    "compare: seed {seed} ({}) differs after {} packets of its own and {} of all: {difference}",
                    ran.name, ran.tally.packets, self.tally.packets
                );
            }
        }

        /// Prints what was compared; true if nothing differed and nothing was tried too seldom.
        fn verdict(&self) -> bool {
            let tally = &self.tally;
            for (place, scenario) in SCENARIOS.iter().enumerate() {
                println!(
                    "compare: {:15} {:6} scenarios, {:7} packets",
                    scenario.name, self.scenarios[place], self.packets[place]
                );
            }
            println!(
                "compare: {} packets accepted, {} messages applied, {} bodies read",
                tally.refusals[0], tally.applied, tally.bodies
            );
            for (what, count) in tally.seen() {
                println!("compare: {what:50} {count:9}");
            }
            let seldom = self.seldom();
            for (what, count, least) in &seldom {
                println!("compare: {what}: {count} times, and {least} are the least");
            }
            println!(
                "compare: {} scenarios, {} packets, {} differences",
                self.scenarios.iter().sum::<u64>(),
                tally.packets,
                self.differences
            );
            self.differences == 0 && seldom.is_empty() && tally.packets > 0
        }

        /// What a long run tried too seldom: what, how often, and the least.
        fn seldom(&self) -> Vec<(String, u64, u64)> {
            let long = self.tally.packets / LONG_RUN;
            let rounds = self.tally.packets / (ROUND * LONG_RUN) * ROUND;
            let mut tried = Vec::new();
            for (scenario, count) in SCENARIOS.iter().zip(self.scenarios) {
                tried.push((scenario.name.to_string(), count, scenario.weight * rounds));
            }
            for (what, count) in self.tally.seen() {
                tried.push((what, count, LEAST_SEEN * long));
            }
            tried.retain(|(_, count, least)| count < least);
            tried
        }
    }
}
