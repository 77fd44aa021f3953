//! What the calls have answered.

use crate::shown::Shown;
use std::fmt;

#[derive(Clone, Debug, Default)]
pub struct Tally {
    pub minimise: u64,
    pub verify: u64,
    /// networks of the minimiser, their products, and those of the independent one, plain and joining
    pub networks: u64,
    pub products: u64,
    pub independent_products: u64,
    pub joining_products: u64,
    /// of the networks, those for no transition; and of the verdicts
    pub networks_alone: u64,
    pub verdicts_alone: [u64; 5],
    /// by number
    pub minimise_refusals: [u64; 16],
    pub verify_refusals: [u64; 16],
    pub verdicts: [u64; 5],
    /// runs replayed: at a rise, at a fall, from 1 to 1; and of the last those without a wire
    pub rises: u64,
    pub falls: u64,
    pub gaps: u64,
    pub empty: u64,
    /// differences at rest: a 1 of the network at a 0 of the table, and a 0 at a 1
    pub zeros: u64,
    pub ones: u64,
    /// steps of refusal 10
    pub steps: [u64; 11],
}

impl Tally {
    pub fn calls(&self) -> u64 {
        self.minimise + self.verify
    }

    /// A verifier's answer, packed, and whether there was no transition.
    pub fn count_verify(&mut self, answer: u64, alone: bool) {
        let verdict = (answer & 255) as usize;
        self.verify += 1;
        self.verdicts[verdict] += 1;
        self.verdicts_alone[verdict] += u64::from(alone);
        if verdict == 0 {
            self.verify_refusals[(answer >> 8 & 255) as usize] += 1;
        }
    }

    /// What shows a fault, and whether it is without a wire.
    pub fn count_shown(&mut self, shown: Shown, empty: bool) {
        match shown {
            Shown::Nothing => {}
            Shown::Point { value: 0, .. } => self.zeros += 1,
            Shown::Point { .. } => self.ones += 1,
            Shown::Run { values: [0, _], .. } => self.rises += 1,
            Shown::Run { values: [_, 0], .. } => self.falls += 1,
            Shown::Run { .. } => {
                self.gaps += 1;
                self.empty += u64::from(empty);
            }
        }
    }

    /// What the faults were shown by.
    fn runs(&self, f: &mut fmt::Formatter<'_>) -> fmt::Result {
        let Tally {
            rises,
            falls,
            gaps,
            empty,
            zeros,
            ones,
            ..
        } = self;
        writeln!(f, "    runs for 3   {rises} at a rise, {falls} at a fall")?;
        writeln!(f, "    runs for 4   {gaps} from 1 to 1 (empty: {empty})")?;
        writeln!(f, "    at rest      {zeros} for 2, {ones} for 4")
    }

    /// The refusals, verdicts and runs that no call has met, and the answers without transitions. Refusal 8 never comes, and 13 is the
    /// program's; without transitions verdict 3 never comes.
    pub fn never_met(&self) -> Vec<String> {
        let refusals = (1..=7)
            .chain(9..=12)
            .chain([14, 15])
            .filter(|&k| self.minimise_refusals[k] + self.verify_refusals[k] == 0)
            .map(|k| format!("refusal {k}"));
        let verdicts = (0..5)
            .filter(|&k| self.verdicts[k] == 0)
            .map(|k| format!("verdict {k}"));
        let networks = (self.networks_alone == 0).then(|| "a network for no transition".into());
        let alone = [0, 1, 2, 4]
            .into_iter()
            .filter(|&k| self.verdicts_alone[k] == 0)
            .map(|k| format!("verdict {k} for no transition"));
        let shown = [
            (self.rises, "a run at a rise"),
            (self.falls, "a run at a fall"),
            (self.gaps - self.empty, "a run from 1 to 1"),
            (self.empty, "an empty run"),
            (self.zeros, "a 0 that differs at rest"),
            (self.ones, "a 1 that differs at rest"),
        ];
        let unseen = shown.into_iter().filter(|(count, _)| *count == 0);
        refusals
            .chain(verdicts)
            .chain(networks)
            .chain(alone)
            .chain(unseen.map(|(_, words)| words.into()))
            .collect()
    }
}

/// A line for each refusal that came.
fn refusals(f: &mut fmt::Formatter<'_>, counts: &[u64]) -> fmt::Result {
    for (number, count) in counts.iter().enumerate() {
        if *count > 0 {
            writeln!(f, "    refusal {number:2}   {count}")?;
        }
    }
    Ok(())
}

impl fmt::Display for Tally {
    fn fmt(&self, f: &mut fmt::Formatter<'_>) -> fmt::Result {
        writeln!(f, "calls            {}", self.calls())?;
        writeln!(f, "  minimise       {}", self.minimise)?;
        writeln!(
            f,
            "    networks     {} (for no transition: {})",
            self.networks, self.networks_alone
        )?;
        writeln!(
            f,
            "    products     {} (independent: {}, joining: {})",
            self.products, self.independent_products, self.joining_products
        )?;
        refusals(f, &self.minimise_refusals)?;
        writeln!(f, "    its steps    {:?}", self.steps)?;
        writeln!(f, "  verify         {}", self.verify)?;
        for (number, count) in self.verdicts.iter().enumerate() {
            let alone = self.verdicts_alone[number];
            writeln!(
                f,
                "    verdict {number:2}   {count} (for no transition: {alone})"
            )?;
        }
        refusals(f, &self.verify_refusals)?;
        self.runs(f)
    }
}
