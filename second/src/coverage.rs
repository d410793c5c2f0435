//! How far a generated bundle, probe file or request file reaches.

use std::collections::BTreeMap;

use crate::answer::Answer::{
    self, Address, Asleep, Done, Latch, Long, Protected, Reserved, Sample, Short, Size, State,
    Turn, Unarmed, Unknown,
};
use crate::answer::Class;
use crate::ask::request_list;
use crate::chunked;
use crate::compact::take_tape;
use crate::device::Record;
use crate::edges::{self, Edge, Sent};
use crate::faults::{faults, OF_BUILD, PAIRS_OF_BUILD, PAIRS_OF_GATHER};
use crate::generate::{bad_chips, bundle};
use crate::imaged;
use crate::images::image_list;
use crate::latched::{self, Seen};
use crate::limits;
use crate::parts::{Family, Part, FIRST_FREE_NUMBER, PARTS};
use crate::probe::{self, Call, Over, Runner, Task};
use crate::request;
use crate::rows::{self, Row};
use crate::spoil::probe_list;
use crate::tape::{run, Ending, Entry, MOST_TAPE_BYTES};
use crate::wires::{clocks_for_bits, collect};

/// Answers that a tape can show. 1 and 3 need a record or a buffer that the
/// bench never lends.
const ON_TAPE: [Answer; 11] = [
    Done, Sample, Short, Unknown, Asleep, Address, Latch, Protected, Reserved, Long, Unarmed,
];
/// Answers that a transaction can give at all.
pub const ON_TRANSACTION: [Answer; 14] = [
    Done, Size, Sample, State, Short, Unknown, Asleep, Address, Latch, Protected, Reserved, Long,
    Unarmed, Turn,
];
/// Answers that a power cycle or an open can give.
const ON_POWER_CYCLE: [Answer; 4] = [Done, Size, State, Turn];
/// Answers that a feed can give.
const ON_FEED: [Answer; 5] = [Done, Size, Sample, State, Turn];
/// Answers that a close can give: all but that to a bad sample.
const ON_CLOSE: [Answer; 13] = [
    Done, Size, State, Short, Unknown, Asleep, Address, Latch, Protected, Reserved, Long, Unarmed,
    Turn,
];
/// Answers that a call can give.
pub fn answers_to(call: Call) -> &'static [Answer] {
    match call {
        Call::Transact => &ON_TRANSACTION,
        Call::PowerCycle | Call::Open => &ON_POWER_CYCLE,
        Call::Feed => &ON_FEED,
        Call::Close => &ON_CLOSE,
    }
}

/// Answers that a build can give.
const ON_BUILD: [Answer; 7] = [Done, Size, Short, Unknown, Address, Reserved, Long];
/// Answers that a gathering can give.
const ON_GATHER: [Answer; 4] = [Done, Size, Sample, Unknown];

/// Whether a part can give this answer at all. The PSRAM neither sleeps nor
/// protects, and it has no latch.
pub fn can_answer(part: &Part, answer: Answer) -> bool {
    part.family == Family::Mram || !matches!(answer, Asleep | Latch | Protected)
}

/// Whether a build for a part can have this answer at all. Configuration 2 is the
/// MRAM's.
fn can_refuse(part: &Part, answer: Answer) -> bool {
    part.family == Family::Mram || answer != Reserved
}

/// Part number, bus mode and opcode of a command.
type Pair = (u8, u8, u8);

/// What has been sent so far.
#[derive(Default)]
struct Tally {
    answers: BTreeMap<Answer, u64>,
    /// The same by part number.
    by_part: BTreeMap<(u8, Answer), u64>,
    sent: BTreeMap<Pair, u64>,
    done: BTreeMap<Pair, u64>,
}

impl Tally {
    /// Counts one transaction that a record got. A command counts as sent when
    /// all its bits arrived at a chip that was awake (AB counts asleep too).
    fn add(&mut self, before: &Record, samples: &[u8], answer: Answer) {
        self.add_answer(before.part, answer);
        if answer.class() == Class::Refused {
            return;
        }
        let command_clocks = clocks_for_bits(8, before.mode);
        if samples.len() < command_clocks {
            return;
        }
        let opcode = collect(&samples[..command_clocks], before.mode)[0];
        if before.asleep && opcode != 0xAB {
            return;
        }
        let pair = (before.part, before.mode, opcode);
        *self.sent.entry(pair).or_default() += 1;
        if answer == Done {
            *self.done.entry(pair).or_default() += 1;
        }
    }

    fn add_answer(&mut self, part: u8, answer: Answer) {
        *self.answers.entry(answer).or_default() += 1;
        *self.by_part.entry((part, answer)).or_default() += 1;
    }

    /// Adds the count of every answer that each part can show; tells whether all
    /// were.
    fn show_answers_by_part(
        &self,
        kind: &str,
        wanted: &[Answer],
        can: fn(&Part, Answer) -> bool,
        text: &mut String,
    ) -> bool {
        let mut list = Vec::new();
        for part in PARTS {
            let wanted = wanted.iter().filter(|&&answer| can(part, answer));
            list.extend(wanted.map(|&answer| {
                Row {
                    part,
                    kind: String::from(kind),
                    word: answer.to_string(),
                    count: self
                        .by_part
                        .get(&(part.number, answer))
                        .copied()
                        .unwrap_or(0),
                }
            }));
        }
        rows::show(&list, text)
    }

    /// Adds the count of every answer that can be shown; tells whether all were.
    fn show_answers(&self, title: &str, wanted: &[Answer], text: &mut String) -> bool {
        *text += &format!("{title}\n");
        let mut all = true;
        for answer in wanted {
            let count = self.answers.get(answer).copied().unwrap_or(0);
            all &= count > 0;
            *text += &format!("  {answer}: {count}\n");
        }
        for (answer, count) in &self.answers {
            if !wanted.contains(answer) {
                all = false;
                *text += &format!("  {answer}: {count} (not expected)\n");
            }
        }
        all
    }

    /// Adds how often every command was built; tells whether none is missing.
    fn show_built(&self, text: &mut String) -> bool {
        let mut all = true;
        for part in PARTS {
            for &mode in part.modes() {
                let count = |opcode: u8| {
                    let pair = (part.number, mode, opcode);
                    self.done.get(&pair).copied().unwrap_or(0)
                };
                let mut table = part.opcodes();
                table.retain(|&opcode| part.command(opcode, mode).is_some());
                let missed: Vec<u8> = table
                    .iter()
                    .copied()
                    .filter(|&opcode| count(opcode) == 0)
                    .collect();
                all &= missed.is_empty();
                *text += &format!(
                    "part {} mode {mode}: {} of {} commands built; missed: {}\n  answered 0:",
                    part.word,
                    table.len() - missed.len(),
                    table.len(),
                    list(&missed),
                );
                for opcode in table {
                    *text += &format!(" {opcode:02X}={}", count(opcode));
                }
                *text += "\n";
            }
        }
        all
    }

    /// Adds what became of every opcode in every mode; tells whether nothing is
    /// missing.
    fn show_pairs(&self, text: &mut String) -> bool {
        let mut all = true;
        for part in PARTS {
            let table = part.opcodes();
            for &mode in part.modes() {
                let count = |map: &BTreeMap<Pair, u64>, opcode: u8| {
                    let pair = (part.number, mode, opcode);
                    map.get(&pair).copied().unwrap_or(0)
                };
                let known = |opcode: &u8| part.command(*opcode, mode).is_some();
                let missed: Vec<u8> = table
                    .iter()
                    .copied()
                    .filter(|&opcode| count(&self.sent, opcode) == 0)
                    .collect();
                let never_done: Vec<u8> = table
                    .iter()
                    .copied()
                    .filter(|opcode| known(opcode) && count(&self.done, *opcode) == 0)
                    .collect();
                let outside: u64 = (0..=255u8)
                    .filter(|opcode| !table.contains(opcode))
                    .map(|opcode| count(&self.sent, opcode))
                    .sum();
                let kinds_outside = (0..=255u8)
                    .filter(|opcode| !table.contains(opcode) && count(&self.sent, *opcode) > 0)
                    .count();
                all &= missed.is_empty() && never_done.is_empty() && outside > 0;
                *text += &format!(
                    "part {} mode {mode}: {} of {} table opcodes sent; missed: {}\n",
                    part.word,
                    table.len() - missed.len(),
                    table.len(),
                    list(&missed),
                );
                *text += "  answered 0:";
                for opcode in table.iter().filter(|opcode| known(opcode)) {
                    *text += &format!(" {opcode:02X}={}", count(&self.done, *opcode));
                }
                *text += &format!("\n  never answered 0: {}\n", list(&never_done));
                *text += "  not known in this mode, sent:";
                for opcode in table.iter().filter(|opcode| !known(opcode)) {
                    *text += &format!(" {opcode:02X}={}", count(&self.sent, *opcode));
                }
                *text += &format!(
                    "\n  opcodes outside the part's table: {outside} sent, {kinds_outside} different\n"
                );
            }
        }
        all
    }
}

fn list(opcodes: &[u8]) -> String {
    if opcodes.is_empty() {
        return String::from("none");
    }
    let words: Vec<String> = opcodes.iter().map(|code| format!("{code:02X}")).collect();
    words.join(" ")
}

fn verdict(complete: bool) -> &'static str {
    if complete {
        "coverage complete\n"
    } else {
        "coverage incomplete\n"
    }
}

/// Fresh chips on tapes: those that ended a tape, and the power cycles that took
/// something back from one.
#[derive(Default)]
struct Chips {
    /// By payload.
    bad: BTreeMap<[u8; 2], u64>,
    /// By part number.
    power_cycles: BTreeMap<u8, u64>,
}

impl Chips {
    /// Counts the record that ended a tape if it is a whole fresh chip: two bytes of
    /// payload, kind 3.
    fn add_bad(&mut self, record: &[u8]) {
        if let [2, 0, 3, 0, part, n, ..] = *record {
            *self.bad.entry([part, n]).or_default() += 1;
        }
    }

    fn add_power_cycle(&mut self, before: &Record, after: &Record) {
        if before != after {
            *self.power_cycles.entry(after.part).or_default() += 1;
        }
    }

    /// Adds the counts of both; tells whether none is missing.
    fn show(&self, text: &mut String) -> bool {
        let mut all = true;
        let mut words = Vec::new();
        for [part, n] in bad_chips() {
            let count = self.bad.get(&[part, n]).copied().unwrap_or(0);
            all &= count > 0;
            words.push(format!("{part} {n}={count}"));
        }
        *text += &format!(
            "fresh chips that end a tape, part and n: {}\n",
            words.join(", ")
        );
        let list: Vec<Row> = PARTS
            .into_iter()
            .map(|part| Row {
                part,
                kind: String::from("power cycles"),
                word: String::from("took something back"),
                count: self.power_cycles.get(&part.number).copied().unwrap_or(0),
            })
            .collect();
        rows::show(&list, text) && all
    }
}

/// Makes a bundle, runs it and tells what it reached.
pub fn of_bundle(seed: u64, tapes: usize, records: usize) -> (String, bool) {
    let bytes = bundle(seed, tapes, records);
    let mut left = &bytes[..];
    let mut tally = Tally::default();
    let mut latched = latched::Reached::default();
    let mut edges = edges::Reached::default();
    let mut chips = Chips::default();
    let (mut all_records, mut transactions, mut clocks) = (0u64, 0u64, 0u64);
    let (mut power_cycles, mut fresh_chips) = (0u64, 0u64);
    let (mut ends, mut bads) = (0u64, 0u64);
    while let Some(tape) = take_tape(&mut left) {
        let mut seen = Vec::new();
        let ending = run(tape, &mut |step| {
            all_records += 1;
            seen.push(Seen::new(step));
            let chip = step.chip;
            match (step.entry, &step.before) {
                (Entry::Transaction(samples), Some(before)) => {
                    transactions += 1;
                    clocks += samples.len() as u64;
                    tally.add(before, samples, step.answer);
                    let sent = Sent::new(before, samples, step.answer, &chip.memory, &chip.area);
                    edges.add(sent.as_ref());
                }
                (Entry::PowerCycle, Some(before)) => {
                    power_cycles += 1;
                    chips.add_power_cycle(before, &chip.record);
                }
                _ => fresh_chips += 1,
            }
        });
        latched.add_tape(&seen);
        match ending {
            Ending::End(_) => ends += 1,
            Ending::Bad(offset) => {
                bads += 1;
                if tape.len() <= MOST_TAPE_BYTES {
                    chips.add_bad(&tape[offset..]);
                }
            }
        }
    }
    let mut text = format!(
        "tapes {tapes}: {ends} end, {bads} bad\nrecords {all_records}: {transactions} transactions, \
         {power_cycles} power cycles, {fresh_chips} fresh chips\nclocks {clocks}\n"
    );
    let mut complete = tally.show_answers("transactions by answer:", &ON_TAPE, &mut text);
    text += "  a tape can never show 1 (its sizes are always right) or 3 (its records are always valid)\n";
    complete &= tally.show_answers_by_part("answers", &ON_TAPE, can_answer, &mut text);
    complete &= chips.show(&mut text);
    complete &= tally.show_pairs(&mut text);
    complete &= latched.show(
        "writes with the latch up, a status read right behind \
         (and a memory write behind that, of a register write answered 0):",
        &mut text,
    );
    text += "at the limits of a part:\n";
    complete &= rows::show(&edges.rows(Edge::on_tapes), &mut text);
    text += verdict(complete);
    (text, complete)
}

/// Makes probes, runs them and tells what they reached.
pub fn of_probes(seed: u64, count: usize) -> (String, bool) {
    let mut transactions = Tally::default();
    let mut latched = latched::Reached::default();
    let mut edges = edges::Reached::default();
    let mut limits = limits::Reached::default();
    let mut chunked = chunked::Reached::new(Over::Record);
    let mut imaged = imaged::Reached::default();
    let mut over_images = 0u64;
    let mut other_calls = [Call::PowerCycle, Call::Open, Call::Feed, Call::Close]
        .map(|call| (call, Tally::default()));
    let mut clocks = 0u64;
    let mut most_clocks = 0;
    let (mut file_bytes, mut going_on) = (0, 0u64);
    let mut runner = Runner::default();
    for probe in probe_list(seed, count) {
        let Some(outcome) = runner.run(&probe) else {
            return (String::from("a probe does not run\n"), false);
        };
        file_bytes += probe::HEAD_BYTES + probe.image.len() + probe.samples.len();
        going_on += u64::from(probe.goes_on);
        chunked.add(&probe, &outcome);
        imaged.add(&probe, &outcome);
        over_images += u64::from(!matches!(probe.task, Task::Record(_)));
        let (Some(call), Some(record)) = (probe.task.call(), outcome.record_before()) else {
            continue;
        };
        let (samples, answer) = (&probe.samples, outcome.answer);
        // The other calls are refused on the records that show a limit.
        let for_closed = matches!(call, Call::Transact | Call::PowerCycle | Call::Open);
        if for_closed && !probe.goes_on && probe.task == Task::Record(call) {
            limits.add(&probe, answer);
        }
        if call == Call::Transact {
            clocks += samples.len() as u64;
            most_clocks = most_clocks.max(samples.len());
            transactions.add(&record, samples, answer);
            latched.add_call(&record, samples, answer);
            let sent = Sent::new(&record, samples, answer, &outcome.memory, &outcome.area);
            edges.add(sent.as_ref());
        }
        for (_, tally) in other_calls.iter_mut().filter(|(other, _)| *other == call) {
            tally.add_answer(record.part, answer);
        }
    }
    let mut text = format!(
        "probes {count}: {over_images} over images, {going_on} go on, {file_bytes} bytes of file\n\
         clocks of transactions {clocks}, most in one {most_clocks}\n"
    );
    let mut complete =
        transactions.show_answers("transactions by answer:", &ON_TRANSACTION, &mut text);
    complete &=
        transactions.show_answers_by_part("answers", &ON_TRANSACTION, can_answer, &mut text);
    for (call, tally) in &other_calls {
        let wanted = answers_to(*call);
        let title = format!("{} by answer:", call.word());
        complete &= tally.show_answers(&title, wanted, &mut text);
        complete &= tally.show_answers_by_part("answers", wanted, can_answer, &mut text);
    }
    complete &= transactions.show_pairs(&mut text);
    complete &= latched.show("writes with the latch up:", &mut text);
    text += "at the limits of a part:\n";
    complete &= rows::show(&edges.rows(Edge::on_probes), &mut text);
    complete &= rows::show(&limits.rows(), &mut text);
    complete &= chunked.show(&mut text);
    complete &= imaged.show_among_others(&mut text);
    text += verdict(complete);
    (text, complete)
}

/// Makes calls over images, runs them and tells what they reached.
pub fn of_images(seed: u64, count: usize) -> (String, bool) {
    let mut chunked = chunked::Reached::new(Over::Image);
    let mut imaged = imaged::Reached::default();
    let (mut file_bytes, mut going_on, mut fresh_chips) = (0, 0u64, 0u64);
    let mut runner = Runner::default();
    for probe in image_list(seed, count) {
        let Some(outcome) = runner.run(&probe) else {
            return (String::from("a probe does not run\n"), false);
        };
        file_bytes += probe::HEAD_BYTES + probe.image.len() + probe.samples.len();
        going_on += u64::from(probe.goes_on);
        fresh_chips += u64::from(matches!(probe.task, Task::Fresh(_)));
        chunked.add(&probe, &outcome);
        imaged.add(&probe, &outcome);
    }
    let mut text = format!(
        "calls {count}: {fresh_chips} fresh chips, {going_on} go on, {file_bytes} bytes of file\n"
    );
    let mut complete = chunked.show(&mut text);
    complete &= imaged.show(&mut text);
    text += verdict(complete);
    (text, complete)
}

/// How often a later refusal held behind the one that was answered.
#[derive(Default)]
struct Behind(BTreeMap<(Answer, Answer), u64>);

impl Behind {
    fn add(&mut self, answer: Answer, faults: &[Answer]) {
        for &fault in faults.iter().filter(|&&fault| fault != answer) {
            *self.0.entry((answer, fault)).or_default() += 1;
        }
    }

    /// Adds the count of every pair; tells whether all were met and no other.
    fn show(&self, title: &str, wanted: &[(Answer, Answer)], text: &mut String) -> bool {
        *text += &format!("{title}\n");
        let mut all = true;
        for pair in wanted {
            let count = self.0.get(pair).copied().unwrap_or(0);
            all &= count > 0;
            *text += &format!("  {} before {}: {count}\n", pair.0, pair.1);
        }
        for (pair, count) in &self.0 {
            if !wanted.contains(pair) {
                all = false;
                *text += &format!("  {} before {}: {count} (not expected)\n", pair.0, pair.1);
            }
        }
        all
    }
}

/// Makes requests, runs them and tells what they reached.
pub fn of_requests(seed: u64, count: usize) -> (String, bool) {
    let (mut builds, mut gathers) = (Tally::default(), Tally::default());
    let (mut behind_build, mut behind_gather) = (Behind::default(), Behind::default());
    let (mut samples, mut most_samples, mut bytes, mut most_bytes) = (0u64, 0, 0u64, 0);
    let (mut file_bytes, mut three_faults) = (0, 0u64);
    for request in request_list(seed, count) {
        let outcome = request.run();
        let faults = faults(&request);
        file_bytes += request::HEAD_BYTES + request.data.len();
        let (tally, behind) = match request.call {
            request::Call::Build => {
                samples += u64::from(outcome.told);
                most_samples = most_samples.max(outcome.told);
                three_faults += u64::from(faults.len() > 2);
                (&mut builds, &mut behind_build)
            }
            request::Call::Gather => {
                bytes += u64::from(outcome.told);
                most_bytes = most_bytes.max(outcome.told);
                (&mut gathers, &mut behind_gather)
            }
        };
        tally.add_answer(request.part_or_wires, outcome.answer);
        if outcome.answer == Done {
            let pair = (request.part_or_wires, request.mode, request.opcode);
            *tally.done.entry(pair).or_default() += 1;
        }
        behind.add(outcome.answer, &faults);
    }
    let all = |tally: &Tally| tally.answers.values().sum::<u64>();
    let mut text = format!(
        "requests {count}: {} build, {} gather, {file_bytes} bytes of file\n\
         samples built {samples}, most in one {most_samples}; \
         bytes gathered {bytes}, most in one {most_bytes}\n",
        all(&builds),
        all(&gathers),
    );
    let mut complete = builds.show_answers("build by answer:", &ON_BUILD, &mut text);
    complete &= builds.show_answers_by_part("answers", &ON_BUILD, can_refuse, &mut text);
    for number in [0, FIRST_FREE_NUMBER] {
        let count = builds.by_part.get(&(number, Unknown)).copied().unwrap_or(0);
        complete &= count > 0;
        text += &format!("  no part {number}: 5={count}\n");
    }
    complete &= gathers.show_answers("gather by answer:", &ON_GATHER, &mut text);
    complete &= builds.show_built(&mut text);
    complete &= behind_build.show(
        "build, the refusal answered and one that held behind it:",
        &PAIRS_OF_BUILD,
        &mut text,
    );
    text += &format!(
        "  three or more of {} at once: {three_faults}\n",
        OF_BUILD.len()
    );
    text += "  10 with 11 and 4 with 11 cannot hold at once\n";
    complete &= behind_gather.show(
        "gather, the refusal answered and one that held behind it:",
        &PAIRS_OF_GATHER,
        &mut text,
    );
    text += verdict(complete);
    (text, complete)
}
