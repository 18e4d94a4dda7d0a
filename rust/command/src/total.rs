//! Sums over all streams of a call, and how the call stands.

use crate::outcome::{Found, Outcome};
use crate::readable::unjudged;
use crate::standing::Standing;
use crate::words::counted;

/// Sums over all streams.
#[derive(Default)]
pub struct Total {
    listed: Option<usize>,
    standings: Vec<Standing>,
    accepted: usize,
    refused: usize,
    remainders: usize,
    /// JSON items.
    unjudged: usize,
}

impl Total {
    pub fn over(listed: Option<usize>) -> Total {
        Total {
            listed,
            ..Total::default()
        }
    }

    pub fn add(&mut self, outcome: &Outcome) {
        self.standings.push(outcome.standing());
        if let Found::Judged(_, report) = &outcome.found {
            self.accepted = self.accepted.saturating_add(report.accepted());
            self.refused = self.refused.saturating_add(report.refused());
            let unjudged = report.unjudged().unwrap_or(0);
            self.unjudged = self.unjudged.saturating_add(unjudged);
            let rest = usize::from(report.remainder().is_some());
            self.remainders = self.remainders.saturating_add(rest);
        }
    }

    /// No stream at all is no pass, nor is a pass of other streams than the
    /// manifest has lines.
    pub fn worst(&self) -> Standing {
        let worst = self.standings.iter().max().copied();
        let listed = self.listed.unwrap_or(self.standings.len());
        match worst {
            Some(worst) if listed == self.standings.len() => worst,
            _ => Standing::Error,
        }
    }

    pub fn count(&self, standing: Standing) -> usize {
        let alike = self.standings.iter().filter(|one| **one == standing);
        alike.count()
    }

    pub fn in_words(&self) -> String {
        let (passed, failed) = (self.count(Standing::Passed), self.count(Standing::Failed));
        let not_judged = self
            .standings
            .len()
            .saturating_sub(passed.saturating_add(failed));
        let items = counted(self.accepted.saturating_add(self.refused), "item");
        let mut streams = counted(self.standings.len(), "stream");
        if let Some(listed) = self.listed {
            streams.push_str(&format!(", {listed} expected"));
        }
        let rest = counted(self.remainders, "remainder");
        let mut said = format!(
            "{streams}: {passed} passed, {failed} failed, {not_judged} not judged; \
             {items}, {} accepted, {} refused, {rest}",
            self.accepted, self.refused
        );
        if let Some(bodies) = unjudged(self.unjudged) {
            said.push_str(&format!("; {bodies}"));
        }
        said
    }
}
