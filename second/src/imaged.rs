//! What calls over images and fresh chips show: the answers of each call, each thing
//! that no valid image has, alone and beside every other refusal, and what becomes of
//! an image in which a chip is made.

use std::collections::BTreeSet;

use crate::answer::{Answer, Class};
use crate::coverage::{answers_to, can_answer};
use crate::device::fresh;
use crate::flaws::{flaws, Field, Flaw, Group, LENGTHS, NO_FLAGS, NO_PARTS};
use crate::image::{image_of, place, spare_places, valid, FLAGS, IMAGE_BYTES};
use crate::images::{all_faults, sizes, Birth, Cause, CAUSES};
use crate::parts::{find, Family, Part, M, P, PARTS};
use crate::probe::{Call, Outcome, Probe, Runner, Task, CALLS};
use crate::refusals::{loosely_spelled, Fault};
use crate::rows::{Entry, Ledger};
use crate::standing::Damage;

/// A line about a part.
fn of_part(part: &Part, title: &str) -> String {
    format!("part {}, {title}", part.word)
}

fn answers(part: &Part, call: Call) -> String {
    of_part(part, &any_part(call))
}

fn refused(part: &Part, call: Call) -> String {
    let title = format!("{} over an image, refused for one thing alone", call.word());
    of_part(part, &title)
}

fn refused_with(cause: Cause, call: Call) -> String {
    let cause = match cause {
        Cause::Form => "form",
        Cause::Record => "record",
    };
    format!(
        "{} over an image, 3 for its {cause} and behind it",
        call.word()
    )
}

fn flawed(call: Call, kind: &str) -> String {
    format!("{} over an image, 3 for {kind}", call.word())
}

fn facts_of(part: &Part, damage: Damage) -> String {
    of_part(
        part,
        &format!("3 for a fact in an image, {}", damage.kind()),
    )
}

/// The ways in which a register is out of its range, by family.
fn in_way(part: &Part, field: Field) -> String {
    let family = match part.family {
        Family::Mram => "M and M32",
        Family::Psram => "P",
    };
    format!(
        "part {family}, 3 for this in the {} of an image",
        field.word()
    )
}

const REGISTER: &str = "3 for a register in an image";
const N: &str = "3 for the n of an image";
const GOOD_N: &str = "n of a valid image";
const SPARE: &str = "3 for a spare byte of an image";
const FRESH: &str = "a fresh chip into an image";
const LIFE: &str = "a fresh chip, a transaction and a power cycle";
const MENDED: &str = "3 to a call and a fresh chip into that image";
const RESET: &str = "a reset in chunks";
const DROPPED: &str = "a fresh chip while one is open and 13 to the close";

fn facts_of_any(damage: Damage) -> String {
    format!("3 for a fact in an image, {}", damage.kind())
}

/// The name of a field where all bytes of the identity are one.
fn field_word(field: Field) -> String {
    match field {
        Field::Identity(_) => String::from("identity"),
        _ => field.word(),
    }
}

fn entry(title: impl ToString, word: impl ToString) -> Entry {
    (title.to_string(), word.to_string())
}

/// All that calls over images have to show.
fn wanted() -> Vec<Entry> {
    let mut list = Vec::new();
    for part in PARTS {
        for call in CALLS {
            let mut all = answers_to(call).to_vec();
            all.retain(|&answer| can_answer(part, answer));
            list.extend(all.iter().map(|answer| entry(answers(part, call), answer)));
        }
        for (call, fault) in all_faults() {
            list.push(entry(refused(part, call), fault.word()));
        }
        for field in Field::list(part) {
            list.push(entry(of_part(part, REGISTER), field.word()));
        }
        for flaw in [Flaw::Below, Flaw::Above] {
            list.push(entry(of_part(part, N), flaw.word()));
        }
        for n in sizes(part) {
            list.push(entry(of_part(part, GOOD_N), n));
        }
        for damage in Damage::list(part) {
            if !damage.is_on_any_part() {
                list.push(entry(facts_of(part, damage), damage.word()));
            }
        }
        for birth in Birth::list(part) {
            list.push(entry(of_part(part, FRESH), birth.word()));
        }
        for word in [LIFE, MENDED, RESET, DROPPED] {
            list.push(entry(of_part(part, "sequence"), word));
        }
    }
    let fields: BTreeSet<Field> = PARTS.into_iter().flat_map(Field::list).collect();
    for call in CALLS {
        let mut flaws: Vec<Flaw> = LENGTHS.map(Flaw::Length).to_vec();
        flaws.push(Flaw::Longer);
        flaws.extend(NO_PARTS.map(Flaw::Part));
        flaws.extend([Flaw::Below, Flaw::Above, Flaw::Far]);
        for at in FLAGS {
            flaws.extend(NO_FLAGS.map(|byte| Flaw::Flag(at, byte)));
        }
        for flaw in flaws {
            list.push(entry(flawed(call, flaw.kind()), flaw.word()));
        }
        let mut words: Vec<String> = fields.iter().map(|&field| field_word(field)).collect();
        words.dedup();
        let title = flawed(call, Flaw::Field(Field::Status, 0).kind());
        list.extend(words.iter().map(|word| entry(&title, word)));
        for group in Group::list() {
            list.push(entry(flawed(call, group.kind()), group.word()));
        }
    }
    for place in spare_places() {
        list.push(entry(SPARE, place));
    }
    // What parts of one family share is asked for on one of them.
    for part in [&M, &P] {
        for field in Field::list(part) {
            let ways = field.ways(part);
            if ways.len() > 1 {
                let words = ways.iter().map(|way| format!("{way:02X}"));
                list.extend(words.map(|word| entry(in_way(part, field), word)));
            }
        }
    }
    let mut damages: Vec<Damage> = PARTS.into_iter().flat_map(Damage::list).collect();
    damages.retain(|damage| damage.is_on_any_part());
    let damages: BTreeSet<Damage> = damages.into_iter().collect();
    for damage in damages {
        list.push(entry(facts_of_any(damage), damage.word()));
    }
    for (call, fault) in all_faults() {
        for cause in CAUSES {
            list.push(entry(refused_with(cause, call), fault.word()));
        }
    }
    // The words of a title stand together.
    let mut titles: Vec<String> = Vec::new();
    for (title, _) in &list {
        if !titles.contains(title) {
            titles.push(title.clone());
        }
    }
    list.sort_by_key(|(title, _)| titles.iter().position(|other| other == title));
    list
}

/// What is asked for where calls over images are among many others.
fn wanted_among_others() -> Vec<Entry> {
    let mut list = Vec::new();
    for call in CALLS {
        let title = any_part(call);
        list.extend(
            [Answer::Done, Answer::Size, Answer::State, Answer::Turn]
                .map(|answer| entry(&title, answer)),
        );
    }
    for part in PARTS {
        let title = of_part(part, FRESH_ANSWERS);
        list.extend(
            [Answer::Done, Answer::Size, Answer::State].map(|answer| entry(&title, answer)),
        );
    }
    list.push(entry("sequence", MIXED));
    list
}

fn any_part(call: Call) -> String {
    format!("{} over an image, answers", call.word())
}

const FRESH_ANSWERS: &str = "a fresh chip into an image, answers";
const MIXED: &str = "opened, fed and closed over a record and over its image";

/// Whether these faults of a call come with the flaw: of no image at all one cannot
/// tell any, and damaged facts may be those of a transaction that is open, or has come
/// too far, for the call.
fn nothing_else(flaw: Flaw, faults: &[Fault]) -> bool {
    let mut faults = faults.iter();
    match flaw {
        Flaw::Length(0) => true,
        Flaw::Fact(_) | Flaw::Flag(place::OPEN, _) => {
            faults.all(|fault| matches!(fault, Fault::Turn | Fault::Clocks))
        }
        _ => faults.next().is_none(),
    }
}

/// What a chip that is made shows, and the answer that it should have.
fn birth(part: &Part, probe: &Probe, before: &[u8]) -> (Vec<Birth>, Answer) {
    let has_unique = part.unique_bytes > 0;
    let more = |bytes: usize, right: usize| i8::try_from(bytes as i64 - right as i64).ok();
    let identity_more = more(probe.identity_bytes, part.identity_bytes);
    let unique_more = more(probe.unique_bytes, part.unique_bytes);
    let n_fits = part.allows_n(probe.n);
    let identity_fits = probe.identity_bytes == part.identity_bytes;
    let unique_fits = !has_unique || probe.unique_bytes == part.unique_bytes;
    let faults = [n_fits, identity_fits, unique_fits];
    let faults = faults.iter().filter(|fits| !**fits).count();
    let mut list = Vec::new();
    if before.len() != IMAGE_BYTES {
        list.push(match before.len() {
            _ if !n_fits => Birth::LengthAndN,
            _ if !identity_fits => Birth::LengthAndIdentity,
            length if length > IMAGE_BYTES + 1 => Birth::Longer,
            length => Birth::Length(length),
        });
        return (list, Answer::State);
    }
    if before.iter().all(|&byte| byte == 0) || faults > 1 {
        let answer = if faults == 0 {
            Answer::Done
        } else {
            Answer::Size
        };
        return (list, answer);
    }
    if faults == 1 {
        if probe.n == part.least_n - 1 {
            list.push(Birth::Below);
        } else if probe.n == part.most_n + 1 {
            list.push(Birth::Above);
        } else if !identity_fits {
            list.extend(identity_more.map(Birth::Identity));
        } else if !unique_fits {
            list.extend(unique_more.map(Birth::Unique));
        }
        return (list, Answer::Size);
    }
    list.push(match probe.n {
        n if n == part.least_n => Birth::Least,
        n if n == part.most_n => Birth::Most,
        _ => Birth::Middle,
    });
    if valid(before).is_none() {
        list.push(Birth::OverNoise);
    }
    if !has_unique && probe.unique_bytes > 0 {
        list.extend(unique_more.map(Birth::Unique));
    }
    (list, Answer::Done)
}

/// The image of the chip that a probe makes.
fn made(part: &Part, probe: &Probe) -> Vec<u8> {
    let (identity, behind) = probe.samples.split_at(probe.identity_bytes);
    let eight = |bytes: &[u8], most: usize| -> [u8; 8] {
        let byte = |at: usize| bytes.get(at).filter(|_| at < most).copied();
        std::array::from_fn(|at| byte(at).unwrap_or(0))
    };
    let identity = eight(identity, part.identity_bytes);
    let unique = eight(behind, part.unique_bytes);
    image_of(&fresh(part, probe.n, identity, unique))
}

/// What has become of an image in calls that go on from each other.
#[derive(Clone, Copy, PartialEq, Eq)]
enum Life {
    /// A call is refused by 3.
    Refused,
    /// A chip is made.
    Made,
    /// The same while a transaction is open.
    Dropped,
    /// It has done something.
    Used,
}

/// How often each of the list was shown.
#[derive(Default)]
pub struct Reached {
    ledger: Ledger,
    /// The same calls over the other of record and image.
    shadow: Option<Runner>,
    life: Option<Life>,
    /// What the calls since an open went over.
    since_open: BTreeSet<bool>,
    unexpected: u64,
}

/// The largest memory of a call that is made a second time.
const MOST_SHADOW_BYTES: usize = 1 << 16;

impl Reached {
    /// Counts the next probe of a file.
    pub fn add(&mut self, probe: &Probe, outcome: &Outcome) {
        if !probe.goes_on {
            let small = probe.memory_bytes <= MOST_SHADOW_BYTES;
            self.shadow = small.then(Runner::default);
            self.life = None;
            self.since_open.clear();
        }
        self.compare(probe, outcome);
        let refused = outcome.answer.class() == Class::Refused;
        if refused && outcome.image != outcome.before {
            self.unexpected += 1;
        }
        match probe.task {
            Task::Fresh(part) => self.add_fresh(part, probe, outcome),
            Task::Image(call) => self.add_call(call, probe, outcome),
            Task::Record(_) => {}
        }
        self.add_to_life(probe, outcome);
        self.add_to_mix(probe, outcome);
    }

    /// Over a valid image and over its record a call leaves the same.
    fn compare(&mut self, probe: &Probe, outcome: &Outcome) {
        let Some(shadow) = &mut self.shadow else {
            return;
        };
        let task = match probe.task {
            Task::Image(call) if valid(&outcome.before).is_some() => Task::Record(call),
            Task::Record(call) if valid(&outcome.before).is_some() => Task::Image(call),
            task => task,
        };
        let other = Probe {
            task,
            ..probe.clone()
        };
        let same = shadow.run(&other).is_some_and(|other| {
            other.answer == outcome.answer
                && other.counts == outcome.counts
                && other.image == outcome.image
                && other.memory == outcome.memory
                && other.area == outcome.area
                && other.output == outcome.output
        });
        self.unexpected += u64::from(!same);
    }

    fn add_fresh(&mut self, part: &Part, probe: &Probe, outcome: &Outcome) {
        let (births, answer) = birth(part, probe, &outcome.before);
        self.ledger.count(of_part(part, FRESH_ANSWERS), answer);
        let right = outcome.answer == answer
            && (answer != Answer::Done || outcome.image == made(part, probe));
        if right {
            for birth in births {
                self.ledger.count(of_part(part, FRESH), birth.word());
            }
        } else {
            self.unexpected += 1;
        }
    }

    fn add_call(&mut self, call: Call, probe: &Probe, outcome: &Outcome) {
        let answer = outcome.answer;
        self.ledger.count(any_part(call), answer);
        let Some(record) = loosely_spelled(&outcome.before) else {
            return;
        };
        if let Some(part) = find(record.part) {
            self.ledger.count(answers(part, call), answer);
            let reset = call == Call::Close && record.open.opcode == 0x99;
            if reset && probe.goes_on && answer == Answer::Done {
                self.ledger.count(of_part(part, "sequence"), RESET);
            }
        }
        let faults = Fault::all(call, probe, &record);
        let one_fault = match faults[..] {
            [fault] => Some(fault),
            _ => None,
        };
        if valid(&outcome.before).is_some() {
            let Some(part) = find(record.part) else {
                return;
            };
            if answer != Answer::State {
                self.ledger.count(of_part(part, GOOD_N), record.n);
            }
            match one_fault {
                Some(fault) if answer == fault.answer() => {
                    self.ledger.count(refused(part, call), fault.word());
                }
                _ => {}
            }
            return;
        }
        if answer != Answer::State {
            return;
        }
        let found = flaws(&outcome.before);
        if let Some(fault) = one_fault {
            let causes: BTreeSet<Cause> = found.iter().map(|&(_, flaw)| Cause::of(flaw)).collect();
            for cause in causes {
                self.ledger.count(refused_with(cause, call), fault.word());
            }
        }
        for (part, flaw) in found {
            if nothing_else(flaw, &faults) {
                self.add_flaw(part, flaw, call);
            }
        }
    }

    /// Counts a call that nothing but this is wrong with.
    fn add_flaw(&mut self, part: &Part, flaw: Flaw, call: Call) {
        let ledger = &mut self.ledger;
        match flaw {
            Flaw::Spare(place) => ledger.count(SPARE, place),
            Flaw::Field(field, way) => {
                ledger.count(flawed(call, flaw.kind()), field_word(field));
                ledger.count(of_part(part, REGISTER), field.word());
                ledger.count(in_way(part, field), format!("{way:02X}"));
            }
            Flaw::Fact(damage) => {
                for group in Group::of(damage) {
                    ledger.count(flawed(call, group.kind()), group.word());
                }
                if damage.is_on_any_part() {
                    ledger.count(facts_of_any(damage), damage.word());
                } else {
                    ledger.count(facts_of(part, damage), damage.word());
                }
            }
            Flaw::Below | Flaw::Above | Flaw::Far => {
                ledger.count(flawed(call, flaw.kind()), flaw.word());
                ledger.count(of_part(part, N), flaw.word());
            }
            Flaw::Length(_) | Flaw::Longer | Flaw::Part(_) | Flaw::Flag(..) => {
                ledger.count(flawed(call, flaw.kind()), flaw.word());
            }
        }
    }

    /// Follows what becomes of an image.
    fn add_to_life(&mut self, probe: &Probe, outcome: &Outcome) {
        let open_before = valid(&outcome.before).is_some_and(|record| record.open.flag);
        let (word, life) = match (probe.task, outcome.answer, self.life) {
            (Task::Image(_), Answer::State, _) => (None, Some(Life::Refused)),
            (Task::Fresh(_), Answer::Done, Some(Life::Refused)) => (Some(MENDED), Some(Life::Made)),
            (Task::Fresh(_), Answer::Done, _) if open_before => (None, Some(Life::Dropped)),
            (Task::Fresh(_), Answer::Done, _) => (None, Some(Life::Made)),
            (Task::Image(Call::Close), Answer::Turn, Some(Life::Dropped)) => (Some(DROPPED), None),
            (Task::Image(Call::Transact), Answer::Done, Some(Life::Made | Life::Used)) => {
                (None, Some(Life::Used))
            }
            (Task::Image(Call::PowerCycle), Answer::Done, Some(Life::Used)) => (Some(LIFE), None),
            _ => (None, None),
        };
        self.life = life;
        let part = outcome.record().and_then(|record| find(record.part));
        if let (Some(word), Some(part)) = (word, part) {
            self.ledger.count(of_part(part, "sequence"), word);
        }
    }

    /// Whether the good calls from an open to the close went over both.
    fn add_to_mix(&mut self, probe: &Probe, outcome: &Outcome) {
        let over_image = matches!(probe.task, Task::Image(_));
        let refused = outcome.answer.class() == Class::Refused;
        match probe.task.call() {
            Some(Call::Open) if !refused => {
                self.since_open.clear();
                self.since_open.insert(over_image);
            }
            Some(Call::Feed) if !refused => {
                self.since_open.insert(over_image);
            }
            Some(Call::Close) if !refused => {
                self.since_open.insert(over_image);
                if probe.goes_on && self.since_open.len() == 2 {
                    self.ledger.count("sequence", MIXED);
                }
                self.since_open.clear();
            }
            _ => {}
        }
    }

    /// Adds the counts of the whole list; tells whether none is missing.
    pub fn show(&self, text: &mut String) -> bool {
        self.show_of(&wanted(), text)
    }

    /// The same of a short list.
    pub fn show_among_others(&self, text: &mut String) -> bool {
        self.show_of(&wanted_among_others(), text)
    }

    fn show_of(&self, wanted: &[Entry], text: &mut String) -> bool {
        *text += "over images:\n";
        let all = self.ledger.show(wanted, text);
        *text += &format!(
            "calls that do not leave the same over an image and over its record, \
             or not what they should: {}\n",
            self.unexpected
        );
        all && self.unexpected == 0
    }
}
