//! The step table, found by asking the reference.

use crate::condition::{Condition, Topic};
use crate::kind::{self, Form, Kind};
use crate::name;
use crate::outcome::Outcome;
use crate::probe::{probe, Probe};
use reference::State;

const HEAD: &str = "\
| state | request or frame | when | next state | record | sends | notice |
|---|---|---|---|---|---|---|
";

/// A row: what an end does in a state with requests or frames of these kinds.
#[derive(Clone, Debug)]
pub struct Row {
    pub state: State,
    pub kinds: Vec<Kind>,
    pub when: Condition,
    pub outcome: Outcome,
}

/// The samples that one outcome says everything of, by their places in the list of probes.
struct Group {
    outcome: Outcome,
    places: Vec<usize>,
}

/// All rows: the states in their order, in each the requests and then the frames.
pub fn rows() -> Result<Vec<Row>, String> {
    let kinds = kind::all()?;
    let mut rows = Vec::new();
    for state in State::ALL {
        let mut of_state = Vec::new();
        for &kind in kinds {
            let place = |error| format!("{}, {}: {error}", name::state(state), kind.name);
            of_state.extend(rows_of(state, kind).map_err(place)?);
        }
        rows.extend(joined(of_state));
    }
    Ok(rows)
}

/// The table as Markdown.
pub fn markdown(rows: &[Row]) -> Result<String, String> {
    let lines: Result<Vec<_>, _> = rows.iter().map(Row::markdown).collect();
    Ok(format!("{HEAD}{}", lines?.concat()))
}

/// The rows of one state and kind. What is passed over or not allowed has none.
fn rows_of(state: State, kind: Kind) -> Result<Vec<Row>, String> {
    let probes = probe(state, kind)?;
    let groups = groups(&probes)?.into_iter();
    let telling = groups.filter(|group| !group.outcome.is_silent());
    let row = |group: Group| {
        Ok(Row {
            state,
            kinds: vec![kind],
            when: group.condition(&probes)?,
            outcome: group.outcome,
        })
    };
    telling.map(row).collect()
}

/// The probes of accepted calls, in groups of one outcome each.
fn groups(probes: &[Probe]) -> Result<Vec<Group>, String> {
    let mut groups: Vec<Group> = Vec::new();
    for (place, probe) in probes.iter().enumerate() {
        let outcome = Outcome::of(probe).map_err(|error| format!("{error}: {probe:?}"))?;
        let Some(outcome) = outcome else {
            continue;
        };
        if !groups.iter_mut().any(|group| group.takes(place, &outcome)) {
            let places = vec![place];
            groups.push(Group { outcome, places });
        }
    }
    Ok(groups)
}

/// Rows that differ in their kinds alone become one.
fn joined(rows: Vec<Row>) -> Vec<Row> {
    let mut joined: Vec<Row> = Vec::new();
    for row in rows {
        match joined.iter_mut().find(|other| other.says_the_same(&row)) {
            Some(other) => other.kinds.extend(row.kinds),
            None => joined.push(row),
        }
    }
    joined
}

impl Group {
    /// Takes a probe whose outcome the same symbols say; or else leaves it.
    fn takes(&mut self, place: usize, outcome: &Outcome) -> bool {
        let Some(shared) = self.outcome.shared(outcome) else {
            return false;
        };
        self.outcome = shared;
        self.places.push(place);
        true
    }

    /// When the probes are those of this group.
    fn condition(&self, probes: &[Probe]) -> Result<Condition, String> {
        let samples: Vec<_> = probes
            .iter()
            .enumerate()
            .map(|(place, probe)| (&probe.sample, self.places.contains(&place)))
            .collect();
        let texts = (self.outcome.record(), self.outcome.sends());
        Condition::of(&samples).ok_or_else(|| format!("no condition says when {texts:?} counts"))
    }
}

impl Row {
    /// The names of its kinds. The count of an ACK is n where the condition looks at it.
    pub fn triggers(&self) -> Vec<String> {
        let has_count = self.when.is_about(Topic::Count);
        let name = |kind: &Kind| match kind.form {
            Form::Ack if has_count => format!("{} n", kind.name),
            _ => kind.name.to_string(),
        };
        self.kinds.iter().map(name).collect()
    }

    /// Does it lead to another state?
    pub fn changes_state(&self) -> bool {
        self.state != self.outcome.next
    }

    /// Is it a row of requests?
    pub fn is_request(&self) -> bool {
        self.kinds.iter().all(|kind| kind.form.is_request())
    }

    fn markdown(&self) -> Result<String, String> {
        let cells = [
            name::state(self.state).to_string(),
            self.triggers().join(", "),
            self.when.to_string(),
            name::state(self.outcome.next).to_string(),
            self.outcome.record(),
            self.outcome.sends(),
            name::notice(self.outcome.notice)?.to_string(),
        ];
        let cells = cells.map(|cell| match cell.is_empty() {
            true => " ".to_string(),
            false => format!(" {cell} "),
        });
        Ok(format!("|{}|\n", cells.join("|")))
    }

    /// All but its kinds, as it is told.
    fn said(&self) -> (bool, String, State, String, String, u8) {
        let outcome = &self.outcome;
        (
            self.is_request(),
            self.when.to_string(),
            outcome.next,
            outcome.record(),
            outcome.sends(),
            outcome.notice,
        )
    }

    fn says_the_same(&self, other: &Self) -> bool {
        self.said() == other.said()
    }
}

#[cfg(test)]
mod tests {
    use super::*;

    /// Rows as the document has them.
    const DOCUMENT: &str = "\
| closed | connect | | calling | L + 1 | CRAO(L,0) | |
| closed | DR | | closed | | DRACK(L,s) | |
| listening | CRAO | | answering | D = s | CRPO(L,s) | |
| listening | CRPO | | listening | | RESET(L,s) | |
| calling | close | D = 0 | closed | | | 4 close finished |
| calling | close | D ≥ 1 | closing | | DR(L,D) | |
| calling | timer | | calling | | CRAO(L,D) | |
| calling | CRAO, CRPO | r = L | open | D = s | CRACK(L,s) | 1 connected |
| calling | CRAO | r ≠ L | calling | D = s | CRAO(L,s) | |
| calling | REJ | r = L | closed | | | 2 rejected |
| calling | DR | r = L | closed | | DRACK(L,s) | 2 rejected |
| calling | DR | r ≠ L | calling | | DRACK(L,s) | |
| answering | CRACK | s = D, r = L | open | | | 1 connected |
| answering | REJ, RESET | r = L | listening | | | |
| open | close | | closing | | DR(L,D) | |
| open | send | | open | t + 1, the block waits | DATA(L,D,t) | |
| open | timer | a block waits | open | | DATA(L,D,t − w) | |
| open | collect | block e is held | open | e + 1 | ACK(L,D,e) | 5 block handed up |
| open | CRAO, CRPO | s = D, r = L | open | | CRACK(L,D) | |
| open | DATA | s = D, r = L, number = e | open | e + 1 | ACK(L,D,e) | 5 block handed up |
| open | DATA | s = D, r = L, e < number ≤ e + 7, not held | open | the block is held | ACK(L,D,e) | |
| open | DATA | s = D, r = L, any other | open | | ACK(L,D,e) | |
| open | ACK n | s = D, r = L, t − w < n ≤ t | open | the blocks before n leave | | |
| closing | CRAO, CRPO | s > D | closed | | | 4 close finished |
| closing | DR | s > D or r = L | closed | | DRACK(L,s) | 4 close finished |
";

    fn text() -> String {
        markdown(&rows().unwrap()).unwrap()
    }

    #[test]
    fn rows_say_what_the_document_says() {
        let text = text();
        for row in DOCUMENT.lines() {
            assert!(text.lines().any(|line| line == row), "missing: {row}");
        }
    }

    #[test]
    fn what_is_passed_over_or_not_allowed_has_no_row() {
        let rows = rows().unwrap();
        assert!(rows.iter().all(|row| !row.outcome.is_silent()));
        for start in [
            "| closed | timer |",
            "| closed | REJ |",
            "| closed | close |",
            "| listening | connect |",
            "| listening | close |",
            "| answering | close |",
            "| answering | DATA |",
            "| closing | close |",
            "| closing | send |",
            "| closing | collect |",
        ] {
            assert!(!text().contains(start), "not expected: {start}");
        }
    }

    #[test]
    fn requests_stand_before_frames_in_each_state() {
        let rows = rows().unwrap();
        let place = |row: &Row| (row.state as u8, !row.is_request());
        assert!(rows.is_sorted_by_key(place));
    }

    #[test]
    fn rows_are_joined_only_where_they_say_the_same() {
        let calls = |row: &&Row| row.state == State::Calling && row.kinds[0].name == "CRAO";
        let rows = rows().unwrap();
        let names: Vec<_> = rows.iter().filter(calls).map(Row::triggers).collect();
        assert_eq!(names, [vec!["CRAO", "CRPO"], vec!["CRAO"]]);
    }

    #[test]
    fn every_row_has_seven_cells() {
        assert!(text().lines().all(|line| line.matches('|').count() == 8));
    }
}
