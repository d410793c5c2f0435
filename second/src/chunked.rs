//! What probes show of transactions that come in chunks: where they are cut, what is
//! refused among the chunks and how they close; single calls on records with one
//! open, valid or damaged; and refusals that hold behind the one answered.

use std::collections::{BTreeMap, BTreeSet};

use crate::answer::{Answer, Class};
use crate::device::{transact, Record, MOST_CLOCKS};
use crate::image::image_of;
use crate::parts::{find, Part, PARTS};
use crate::probe::{Call, Outcome, Over, Probe, Task, CALLS};
use crate::refusals::{pairs, refusals, Brink, BRINKS};
use crate::rows::{self, Row};
use crate::spots::{Phase, Spot};
use crate::standing::{damages, has_largest, largest_list, Damage};

/// The title and the word of a row.
type Shown = (String, String);

fn shown(kind: &str, word: impl ToString) -> Shown {
    (String::from(kind), word.to_string())
}

fn cut(over: Over, spot: Spot) -> Shown {
    if over == Over::Image {
        return shown("a cut in", spot.phase.word());
    }
    let kind = format!(
        "clocks before a cut in {} on {}",
        spot.phase.word(),
        spot.wires
    );
    // Of a wait and the rest only none and some are told apart.
    let word = match spot.clocks {
        1 if !spot.phase.by_clock() => String::from("some"),
        clocks => clocks.to_string(),
    };
    (kind, word)
}

fn standing(call: Call, phase: Phase) -> Shown {
    (
        format!("{} with one open in", call.word()),
        String::from(phase.word()),
    )
}

fn largest(phase: Phase, wires: u8) -> Shown {
    shown(
        "the largest number there may be in",
        format!("{} on {wires}", phase.word()),
    )
}

fn brink(brink: Brink) -> Shown {
    shown("clocks that a record states and that are fed", brink.word())
}

fn unopened(clocks: usize) -> Shown {
    shown("clocks of a chunk with none open", clocks)
}

fn turn(call: Call) -> Shown {
    shown("13 among probes that go on, to", call.word())
}

fn closed_after(what: impl ToString) -> Shown {
    shown(
        "closed as the whole transaction after a refusal by",
        what.to_string(),
    )
}

const NO_CLOCKS: &str = "a chunk without clocks";
const EMPTY: &str = "open and close without a clock";
const BAD_FRESH: &str = "1 to a fresh chip";
const FULL: &str = "65,535 clocks by chunks, one more refused, closed";

fn sequence(word: &str) -> Shown {
    shown("sequence", word)
}

/// All that probes of this part have to show. Over images cuts are asked for by phase,
/// and what else an image shows is asked for elsewhere.
fn wanted(over: Over, part: &Part) -> Vec<Shown> {
    let of_spot = |spot: Spot| cut(over, grain(over)(spot));
    let mut list: Vec<Shown> = Spot::list(part).into_iter().map(of_spot).collect();
    list.dedup();
    list.extend([NO_CLOCKS, EMPTY].map(sequence));
    list.extend(CALLS.map(turn));
    list.extend([1, 2, 13].map(closed_after));
    if over == Over::Image {
        list.push(closed_after(BAD_FRESH));
    }
    for call in [Call::Feed, Call::Close] {
        let of_call = |phase: Phase| standing(call, phase);
        list.extend(Phase::list(part).into_iter().map(of_call));
    }
    if over == Over::Image {
        return list;
    }
    list.push(sequence(FULL));
    list.extend(
        largest_list(part)
            .into_iter()
            .map(|(phase, wires)| largest(phase, wires)),
    );
    list.extend(BRINKS.map(brink));
    list.extend([MOST_CLOCKS, MOST_CLOCKS + 1].map(unopened));
    let damage = |damage: Damage| (damage.kind(), damage.word());
    list.extend(Damage::list(part).into_iter().map(damage));
    list
}

/// How far spots are told apart.
pub fn grain(over: Over) -> fn(Spot) -> Spot {
    match over {
        Over::Record => Spot::rough,
        Over::Image => Spot::phase_alone,
    }
}

/// A transaction that was opened by a probe, and the good chunks since.
struct Opened {
    record: Record,
    memory: Vec<u8>,
    area: Vec<u8>,
    samples: Vec<u8>,
    /// What was refused since.
    refused: BTreeSet<String>,
    one_more_refused: bool,
}

impl Opened {
    /// Whether the close leaves and answers what the whole transaction does.
    fn closed_by(&self, outcome: &Outcome) -> bool {
        let (mut record, mut memory, mut area) =
            (self.record, self.memory.clone(), self.area.clone());
        let mut output = vec![0; self.samples.len()];
        let told = transact(
            &mut record,
            &mut memory,
            &mut area,
            &self.samples,
            &mut output,
        );
        told == (outcome.answer, outcome.counts)
            && image_of(&record) == outcome.image
            && memory == outcome.memory
            && area == outcome.area
    }
}

/// How often each of the list was shown by calls over one thing.
pub struct Reached {
    over: Over,
    counts: BTreeMap<(u8, Shown), u64>,
    behind: BTreeMap<(Call, Answer, Answer), u64>,
    opened: Option<Opened>,
    /// Calls with another answer than their refusals ask for, and closes that are not
    /// as the whole transaction.
    unexpected: u64,
}

impl Reached {
    pub fn new(over: Over) -> Reached {
        Reached {
            over,
            counts: BTreeMap::new(),
            behind: BTreeMap::new(),
            opened: None,
            unexpected: 0,
        }
    }

    fn count(&mut self, part: &Part, shown: Shown) {
        *self.counts.entry((part.number, shown)).or_default() += 1;
    }

    /// Counts the next probe of a file. What shows the checks counts only if it goes
    /// over the one that is asked for.
    pub fn add(&mut self, probe: &Probe, outcome: &Outcome) {
        let over = match probe.task {
            Task::Record(_) => Over::Record,
            Task::Image(_) => Over::Image,
            Task::Fresh(_) => return self.add_fresh(probe, outcome),
        };
        let Some(call) = probe.task.call() else {
            return;
        };
        let asked = over == self.over;
        let faults = refusals(over, call, probe, &outcome.before);
        let refused = outcome.answer.class() == Class::Refused;
        let as_asked = match faults.first() {
            Some(&first) => outcome.answer == first,
            None => !refused,
        };
        self.unexpected += u64::from(!as_asked);
        for &later in faults.iter().skip(1).filter(|_| asked) {
            let pair = (call, outcome.answer, later);
            *self.behind.entry(pair).or_default() += 1;
        }
        if !probe.goes_on {
            self.opened = None;
        }
        let Some(before) = outcome.record_before() else {
            return;
        };
        let Some(part) = find(before.part) else {
            return;
        };
        if !probe.goes_on {
            if asked {
                self.add_single(part, call, probe, &before, outcome, &faults);
            }
            if before.open.flag && !refused {
                self.count(part, standing(call, Spot::of(part, &before).phase));
            }
        } else if asked && outcome.answer == Answer::Turn {
            self.count(part, turn(call));
        }
        self.add_to_sequence(part, call, probe, &before, outcome);
    }

    /// A fresh chip that is refused leaves an open transaction as it is.
    fn add_fresh(&mut self, probe: &Probe, outcome: &Outcome) {
        match &mut self.opened {
            Some(opened) if probe.goes_on && outcome.answer == Answer::Size => {
                opened.refused.insert(String::from(BAD_FRESH));
            }
            _ => self.opened = None,
        }
    }

    /// What a call on its own shows.
    fn add_single(
        &mut self,
        part: &Part,
        call: Call,
        probe: &Probe,
        before: &Record,
        outcome: &Outcome,
        faults: &[Answer],
    ) {
        if call == Call::Feed {
            let found = Brink {
                is_open: before.open.flag,
                stated: before.open.clocks,
                fed: probe.samples.len(),
            };
            // Nothing but the clocks may make it refused by 1.
            let roomy = probe.output_bytes >= found.fed && !faults.contains(&Answer::Sample);
            if roomy && outcome.answer == found.answer() {
                self.count(part, brink(found));
            }
        }
        if !before.open.flag && call == Call::Feed {
            // With one clock too many nothing else may be at fault.
            let too_many = probe.samples.len() > MOST_CLOCKS;
            let wanted: &[Answer] = if too_many {
                &[Answer::Size, Answer::Turn]
            } else {
                &[Answer::Turn]
            };
            if faults == wanted && probe.output_bytes >= probe.samples.len() {
                self.count(part, unopened(probe.samples.len()));
            }
        }
        let refused = outcome.answer.class() == Class::Refused;
        if outcome.answer == Answer::State {
            for damage in damages(part, before) {
                self.count(part, (damage.kind(), damage.word()));
            }
        } else if before.open.flag && !refused {
            let spot = Spot::of(part, before);
            if has_largest(spot, before) {
                self.count(part, largest(spot.phase, spot.wires));
            }
        }
    }

    /// What a call shows as one of those that go on from each other.
    fn add_to_sequence(
        &mut self,
        part: &Part,
        call: Call,
        probe: &Probe,
        before: &Record,
        outcome: &Outcome,
    ) {
        let answer = outcome.answer;
        if call == Call::Open && answer == Answer::Done {
            self.opened = Some(Opened {
                record: *before,
                memory: outcome.memory.clone(),
                area: outcome.area.clone(),
                samples: Vec::new(),
                refused: BTreeSet::new(),
                one_more_refused: false,
            });
            return;
        }
        let Some(mut opened) = self.opened.take() else {
            return;
        };
        match (call, answer.class()) {
            (Call::Feed, Class::Done) => {
                if probe.samples.is_empty() {
                    self.count(part, sequence(NO_CLOCKS));
                } else if !opened.samples.is_empty() {
                    let spot = grain(self.over)(Spot::of(part, before));
                    self.count(part, cut(self.over, spot));
                }
                opened.samples.extend(&probe.samples);
            }
            (Call::Feed, Class::Refused) => {
                opened.refused.insert(answer.to_string());
                let full = opened.samples.len() == MOST_CLOCKS;
                let roomy = probe.output_bytes >= 1 && probe.samples.len() == 1;
                opened.one_more_refused |= full && roomy && answer == Answer::Size;
            }
            (_, Class::Refused) => {
                opened.refused.insert(answer.to_string());
            }
            (Call::Close, _) => {
                if opened.closed_by(outcome) {
                    for refusal in &opened.refused {
                        self.count(part, closed_after(refusal));
                    }
                    if opened.samples.is_empty() {
                        self.count(part, sequence(EMPTY));
                    }
                    if opened.one_more_refused {
                        self.count(part, sequence(FULL));
                    }
                } else {
                    self.unexpected += 1;
                }
                return;
            }
            // Nothing else is good while one is open.
            _ => self.unexpected += 1,
        }
        self.opened = Some(opened);
    }

    /// Adds the counts; tells whether none is missing.
    pub fn show(&self, text: &mut String) -> bool {
        *text += "transactions in chunks:\n";
        let mut list = Vec::new();
        for part in PARTS {
            list.extend(wanted(self.over, part).into_iter().map(|shown| {
                Row {
                    part,
                    count: self
                        .counts
                        .get(&(part.number, shown.clone()))
                        .copied()
                        .unwrap_or(0),
                    kind: shown.0,
                    word: shown.1,
                }
            }));
        }
        let mut all = rows::show(&list, text);
        *text += "calls, the refusal answered and one that held behind it:\n";
        for call in CALLS {
            let mut words = Vec::new();
            for (first, later) in pairs(self.over, call) {
                let count = self.behind.get(&(call, first, later)).copied();
                all &= count.is_some();
                words.push(format!("{first} before {later}={}", count.unwrap_or(0)));
            }
            *text += &format!("  {}: {}\n", call.word(), words.join(", "));
        }
        *text += &format!(
            "calls answered otherwise than they should be: {}\n",
            self.unexpected
        );
        all && self.unexpected == 0
    }
}
