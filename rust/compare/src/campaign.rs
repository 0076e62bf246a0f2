//! The comparison: each call is made on both engines, and everything it answers and leaves is compared.

use crate::case::{Call, Outcome};
use crate::draws::random::Random;
use crate::draws::{
    clusters, contents, conversions, inputs, joins, owners, patterns, runs, screens, sleepers, summaries,
    traces, two_lists,
};
use crate::engine::{Engine, Model};
use crate::frames::MULTIPARTNER;
use crate::sorts::owners::Planned;
use crate::sorts::tally::Tally;
use crate::sorts::{self, Reached, Sort};
use model::Edition;
use std::collections::BTreeMap;

/// Cases that are printed before the rest is only counted.
const MOST_PRINTED: u64 = 10;
const MOST_SAMPLED_CHARACTERS: usize = 2_000;
/// For so many of the rounds asked for there is one more write of a record, and one for each file that alters it.
const ROUNDS_FOR_A_WRITE: usize = 40;
const ROUNDS_FOR_EACH_FILE: usize = 8_000;
/// For so many of them there is one more cluster of sleepers.
const ROUNDS_FOR_A_SLEEPER: usize = 40;

/// How many calls of each kind.
pub struct Amounts {
    pub checks: usize,
    pub reads: usize,
    pub writes: usize,
    pub rounds: usize,
    pub starts: usize,
    pub steps: usize,
    pub traces: usize,
    pub owners: usize,
    /// Fillings, and questions.
    pub summaries: usize,
    /// Rounds that are given a summary, and half as many steps.
    pub kept: usize,
    pub conversions: usize,
    /// Posts, and turns.
    pub screens: usize,
    pub joins: usize,
    pub patterns: usize,
    /// Slaves' files that are read.
    pub contents: usize,
    pub runs: usize,
}

impl Amounts {
    pub const USUAL: Amounts = Amounts {
        checks: 40_000,
        reads: 20_000,
        writes: 20_000,
        rounds: 80_000,
        starts: 10_000,
        steps: 40_000,
        traces: 10_000,
        owners: 10_000,
        summaries: 10_000,
        kept: 40_000,
        conversions: 10_000,
        screens: 40_000,
        joins: 10_000,
        patterns: 20_000,
        contents: 10_000,
        runs: 65,
    };

    pub fn times(&self, factor: usize) -> Amounts {
        Amounts {
            checks: self.checks * factor,
            reads: self.reads * factor,
            writes: self.writes * factor,
            rounds: self.rounds * factor,
            starts: self.starts * factor,
            steps: self.steps * factor,
            traces: self.traces * factor,
            owners: self.owners * factor,
            summaries: self.summaries * factor,
            kept: self.kept * factor,
            conversions: self.conversions * factor,
            screens: self.screens * factor,
            joins: self.joins * factor,
            patterns: self.patterns * factor,
            contents: self.contents * factor,
            runs: self.runs * factor,
        }
    }

    pub fn part(&self, divisor: usize) -> Amounts {
        Amounts {
            checks: self.checks / divisor,
            reads: self.reads / divisor,
            writes: self.writes / divisor,
            rounds: self.rounds / divisor,
            starts: self.starts / divisor,
            steps: self.steps / divisor,
            traces: self.traces / divisor,
            owners: self.owners / divisor,
            summaries: self.summaries / divisor,
            kept: self.kept / divisor,
            conversions: self.conversions / divisor,
            screens: self.screens / divisor,
            joins: self.joins / divisor,
            patterns: self.patterns / divisor,
            contents: self.contents / divisor,
            runs: self.runs / divisor,
        }
    }
}

/// Both engines, and the count of what they were asked.
pub struct Campaign<'a> {
    engine: &'a dyn Engine,
    model: &'a dyn Engine,
    pub passed: u64,
    pub failed: u64,
    pub tally: Tally,
    /// Accepted rounds in which someone sent, by firework.
    heard: BTreeMap<u8, u64>,
    sorts: BTreeMap<Sort, u64>,
    /// How many cases of each sort to print.
    sample: u64,
    sampled: BTreeMap<(&'static str, u8, Option<u8>, bool), u64>,
}

impl<'a> Campaign<'a> {
    pub fn new(engine: &'a dyn Engine, model: &'a dyn Engine) -> Campaign<'a> {
        Campaign {
            engine,
            model,
            passed: 0,
            failed: 0,
            tally: Tally::default(),
            heard: BTreeMap::new(),
            sorts: BTreeMap::new(),
            sample: 0,
            sampled: BTreeMap::new(),
        }
    }

    /// Prints so many cases of each sort (call, answer, firework, whether someone sent) as it goes along.
    pub fn with_sample(self, sample: u64) -> Campaign<'a> {
        Campaign { sample, ..self }
    }

    /// The engine and the model.
    pub(crate) fn both(&self) -> [&'a dyn Engine; 2] {
        [self.engine, self.model]
    }

    /// Makes one call on both; returns the model's outcome, which the next call builds on.
    pub fn call(&mut self, call: &Call) -> Outcome {
        let expected = call.make(self.model);
        let got = call.make(self.engine);
        self.note(call, &expected);
        if let Some(what) = difference(call, &expected, &got) {
            self.differ(&format!("{what}\n{}", call.line(&expected)), &call.line(&got));
        } else {
            self.passed += 1;
        }
        expected
    }

    /// Counts a difference and prints it: the first line says what differs, the second is the case.
    pub fn differ(&mut self, case: &str, got: &str) {
        self.failed += 1;
        if self.failed <= MOST_PRINTED {
            println!("difference: {case}\n# the engine gave: {got}");
        }
    }

    pub fn all(&mut self, amounts: &Amounts, seed: u64) {
        self.checks(amounts.checks, &mut Random::from_seed(seed ^ 1));
        self.reads(amounts.reads, &mut Random::from_seed(seed ^ 2));
        self.writes(amounts.writes, &mut Random::from_seed(seed ^ 3));
        self.rounds(amounts.rounds, &mut Random::from_seed(seed ^ 4));
        self.starts(amounts.starts, &mut Random::from_seed(seed ^ 5));
        self.steps(amounts.steps, &mut Random::from_seed(seed ^ 6));
        self.traces(amounts.traces, &mut Random::from_seed(seed ^ 8));
        self.owners(amounts.owners, &mut Random::from_seed(seed ^ 9));
        self.record_writes(amounts.rounds / ROUNDS_FOR_A_WRITE, &mut Random::from_seed(seed ^ 11));
        summaries::fills(self, amounts.summaries, &mut Random::from_seed(seed ^ 12));
        summaries::holders(self, amounts.summaries, &mut Random::from_seed(seed ^ 13));
        summaries::rounds(self, amounts.kept, &mut Random::from_seed(seed ^ 14));
        summaries::steps(self, amounts.kept / 2, &mut Random::from_seed(seed ^ 15));
        sleepers::rounds(self, amounts.rounds / ROUNDS_FOR_A_SLEEPER, &mut Random::from_seed(seed ^ 17));
        conversions::conversions(self, amounts.conversions, &mut Random::from_seed(seed ^ 18));
        screens::posts_and_turns(self, amounts.screens, &mut Random::from_seed(seed ^ 19));
        joins::joins(self, amounts.joins, &mut Random::from_seed(seed ^ 20));
        patterns::patterns(self, amounts.patterns, &mut Random::from_seed(seed ^ 21));
        contents::contents(self, amounts.contents, &mut Random::from_seed(seed ^ 22));
        self.runs(amounts.runs, seed);
        self.sorts_reached(&Sort::REACHED, amounts.rounds);
        self.sorts_reached(&Sort::REACHED_ABOUT_NAMES, amounts.rounds);
        self.each_file_written(amounts.rounds);
        self.sorts_reached(&Sort::REACHED_BY_TURNS, amounts.rounds);
        self.sorts_reached(&Sort::REACHED_BY_STEPS, amounts.steps);
        self.sorts_reached(&Sort::REACHED_BY_TRACES, amounts.traces);
        self.sorts_reached(&Sort::REACHED_BY_OWNERS, amounts.owners);
        self.sorts_reached(&Sort::REACHED_BY_SUMMARIES, amounts.kept);
        self.sorts_reached(&Sort::REACHED_BY_SLEEPERS, amounts.rounds);
        self.sorts_reached(&Sort::REACHED_BY_CONVERSIONS, amounts.conversions);
        self.sorts_reached(&Sort::REACHED_BY_SCREENS, amounts.screens);
        self.sorts_reached(&Sort::REACHED_BY_JOINS, amounts.joins);
        self.sorts_reached(&Sort::REACHED_BY_PATTERNS, amounts.patterns);
        self.sorts_reached(&Sort::REACHED_BY_CONTENTS, amounts.contents);
        self.sorts_reached(&Sort::REACHED_BY_RUNS, amounts.runs);
        self.sorts_reached(&Sort::REACHED_BY_TWO_LISTS, amounts.runs);
        self.reached();
    }

    /// Whole naming runs; for every four one more is made in turn, and two more are given a summary. Beside each there
    /// are three over two lists, and one on a joined file.
    fn runs(&mut self, amount: usize, seed: u64) {
        for run in 0..amount {
            let random = |kind: u64| Random::from_seed(seed ^ kind ^ (run as u64) << 8);
            // Every number of slaves has its turn; 21 and 65 have no divisor in common.
            let slaves = 21 * run % (Edition::Two.most_slaves() + 1);
            runs::whole_run(self, &mut random(7), slaves, runs::Given::NoSummary);
            if run % 2 == 1 {
                runs::whole_run(self, &mut random(16), slaves, runs::Given::Summary);
            } else if run % 4 == 0 {
                runs::run_in_turn(self, &mut random(10), slaves);
            }
            two_lists::runs(self, &mut random(19), run);
            joins::named(self, &mut random(21));
        }
    }

    fn checks(&mut self, amount: usize, random: &mut Random) {
        for _ in 0..amount {
            let file = any_file(random);
            self.call(&Call::Check { file });
        }
    }

    fn reads(&mut self, amount: usize, random: &mut Random) {
        let cluster = clusters::cluster_of(random, 4);
        for _ in 0..amount {
            self.call(&Call::Read { frame: inputs::frame(random, &cluster) });
        }
    }

    fn writes(&mut self, amount: usize, random: &mut Random) {
        for _ in 0..amount {
            let length = random.one_of(&[0, 5, 5, 6, 6, 6, 7, 70]);
            let buffer = random.bytes(length);
            if random.once_in(4) {
                let data = random.number().to_be_bytes();
                self.call(&Call::Data { buffer, data: [data[0], data[1], data[2], data[3]] });
            } else {
                let name = random.one_of(&[0x00, 0x01, 0xFF, 0x33]);
                let file = random.one_of(&[0, 8, 61, 63, 64, 128, 255]);
                let operation = random.one_of(&[0, 0, 1, 1, 2, 2, 3, 4, 5, 128, 255]);
                self.call(&Call::Write {
                    buffer,
                    parts: [random.byte(), name, file, operation, random.byte()],
                });
            }
        }
    }

    /// Frames one after the other on a file, so that data frames meet what is pending.
    fn rounds(&mut self, amount: usize, random: &mut Random) {
        let mut made = 0;
        while made < amount {
            let mut file = any_file(random);
            for _ in 0..random.between(1, 20) {
                let frame = match model::check(&file) {
                    Ok(cluster) => inputs::frame(random, &cluster),
                    Err(_) => random.bytes(1),
                };
                let answer_length = inputs::answer_length(random);
                let outcome = self.call(&Call::Round { file: file.clone(), frame, answer_length });
                made += 1;
                let refused_by_the_file = (1..=8).contains(&outcome.number);
                if refused_by_the_file {
                    break;
                }
                file = outcome.file.unwrap_or(file);
            }
        }
    }

    /// Writes of record 1 of each file in turn, and of the first records of 0x08, to a slave that has the record.
    fn record_writes(&mut self, amount: usize, random: &mut Random) {
        for write in 0..amount {
            let (number, record) = inputs::record_to_write(write);
            let (cluster, name) = clusters::with_record(random, number, record);
            let address = inputs::write_of(random, name, number, record);
            let call = Call::Round { file: cluster.encode(), frame: address, answer_length: 64 };
            let file = self.call(&call).file.expect("a lent file");
            let cluster = model::check(&file).expect("a file that the last call left");
            let data = inputs::fitting_data(random, &cluster);
            self.call(&Call::Round { file, frame: data, answer_length: 64 });
        }
    }

    fn starts(&mut self, amount: usize, random: &mut Random) {
        for _ in 0..amount {
            self.call(&Call::Start { names: inputs::names(random) });
        }
    }

    /// Steps from positions of any content, some of them followed on.
    fn steps(&mut self, amount: usize, random: &mut Random) {
        let mut made = 0;
        while made < amount {
            let mut file = any_file(random);
            let mut names = inputs::names(random);
            let mut run = inputs::position(random, &names);
            if random.once_in(24) {
                let held =
                    model::check(&file).ok().and_then(|cluster| inputs::poll_of_held_name(random, &cluster));
                (names, run) = held.unwrap_or((names, run));
            }
            for _ in 0..random.between(1, 6) {
                let answer_length = inputs::answer_length(random);
                let call = Call::Step { file: file.clone(), names: names.clone(), run, answer_length };
                let outcome = self.call(&call);
                made += 1;
                if outcome.number != 0 && outcome.number != 9 {
                    break;
                }
                file = outcome.file.unwrap_or(file);
                run = outcome.run.unwrap_or(run);
            }
        }
    }

    /// Traces on good files and on damaged ones, whose number comes before that of a broken trace.
    fn traces(&mut self, amount: usize, random: &mut Random) {
        for _ in 0..amount {
            let file = any_file(random);
            let cluster = model::check(&file).unwrap_or_else(|_| clusters::cluster_of(random, 2));
            let trace = traces::trace(random, &cluster);
            let outcome = self.call(&Call::Trace { file: file.clone(), trace: trace.clone() });
            self.note_sorts(sorts::traces::sorts(&file, &trace, &outcome));
            self.note_sorts(sorts::sleepers::in_trace(&file, &outcome));
        }
    }

    /// Owner files, half of them of clusters in which slots are dealt out; of the others some of damaged files, some of
    /// clusters without a multiplexed send.
    fn owners(&mut self, amount: usize, random: &mut Random) {
        for _ in 0..amount {
            let file = match random.below(6) {
                0..=2 => owners::planned(random).encode(),
                3 => clusters::damaged(random),
                4 => owners::without_multiplexed_sends(clusters::cluster(random)).encode(),
                _ => any_file(random),
            };
            let master = random.one_of(&[0x00, 0x01, 0x63, 0xFF]);
            let buffer_length = owners::buffer_length(random, &file);
            let call = Call::Owner { file: file.clone(), master, buffer_length };
            let outcome = self.call(&call);
            self.note_sorts(sorts::owners::sorts(&call, &outcome));
            if outcome.number == 0 {
                self.planned_round(random, file);
            }
        }
    }

    /// In a round as it runs, in whatever epoch, who sends in a slot has it in the plan; and who has a slot in the plan
    /// sends there, unless it sleeps or a multiplexed receive of that slave covers it.
    fn planned_round(&mut self, random: &mut Random, file: Vec<u8>) {
        let frame = vec![random.one_of(&MULTIPARTNER)];
        let Planned { all, awake, hideable } = Planned::of(&file, frame[0]);
        let own_list = sorts::owners::own_list_mask(&file, frame[0]);
        let call = Call::Round { file, frame, answer_length: 64 };
        let outcome = self.call(&call);
        let sent = outcome.mask();
        if sent & !all != 0 || awake & !hideable & !sent != 0 {
            let plan =
                format!("the plan has {all:016X}, awake {awake:016X}, which may be hidden {hideable:016X}");
            self.differ(&format!("{plan}\n{}", call.line(&outcome)), "see the case");
        }
        self.note_sorts((hideable & !sent != 0).then_some(Sort::PlannedAndHidden));
        self.note_sorts((hideable & sent != 0).then_some(Sort::PlannedAndNotHidden));
        self.note_sorts((own_list & sent != 0).then_some(Sort::PlannedFromOwnList));
        self.note_sorts((all & !awake & !sent != 0).then_some(Sort::PlannedAndAsleep));
    }

    pub(crate) fn note_sorts(&mut self, sorts: impl IntoIterator<Item = Sort>) {
        for sort in sorts {
            *self.sorts.entry(sort).or_insert(0) += 1;
        }
    }

    fn note(&mut self, call: &Call, expected: &Outcome) {
        self.tally.note(call, expected);
        if let Call::Round { frame, .. } = call {
            if expected.mask() != 0 {
                *self.heard.entry(frame[0]).or_insert(0) += 1;
            }
        }
        self.note_sorts(sorts::of(call, expected));
        self.print_sample(call, expected);
    }

    /// Long cases are left out: they would be a burden to whoever keeps them.
    fn print_sample(&mut self, call: &Call, expected: &Outcome) {
        if self.sample == 0 {
            return;
        }
        let firework = match call {
            Call::Round { frame, .. } if expected.number == 0 => frame.first().copied(),
            _ => None,
        };
        let sort = (call.kind(), expected.number, firework, expected.mask() != 0);
        let printed = self.sampled.entry(sort).or_insert(0);
        let line = call.line(expected);
        if *printed < self.sample && line.len() <= MOST_SAMPLED_CHARACTERS {
            *printed += 1;
            println!("{line}");
        }
    }

    /// Calls of every sort must have been made, so many at least.
    fn sorts_reached(&mut self, sorts: &[Reached], calls: usize) {
        for (sort, calls_for_one, text) in sorts {
            let count = *self.sorts.get(sort).unwrap_or(&0);
            let least = calls / calls_for_one;
            println!("{text}: {count}");
            if count < least as u64 {
                self.differ(&format!("{text}: fewer than {least}"), "inputs too tame");
            }
        }
    }

    /// Record 1 of each file but 0x08 and 0x3D must have been written so often that its last byte was altered.
    fn each_file_written(&mut self, rounds: usize) {
        let count = |number| *self.sorts.get(&Sort::RecordOneWritten(number)).unwrap_or(&0);
        let files = (0x00..=0x3F).filter(|number| ![0x08, 0x3D].contains(number));
        let (fewest, number) = files.map(|number| (count(number), number)).min().expect("62 files");
        println!("writes of record 1 of each other file that alter its last byte, at least: {fewest}");
        let least = rounds / ROUNDS_FOR_EACH_FILE;
        if fewest < least as u64 {
            self.differ(
                &format!("record 1 of file {number:02X} written: fewer than {least}"),
                "inputs too tame",
            );
        }
    }

    /// Every outcome must have come about and no other, and someone must have sent in every kind of round.
    fn reached(&mut self) {
        for outcome in self.tally.missing() {
            self.differ(&format!("{outcome} never came about"), "inputs too tame");
        }
        for outcome in self.tally.impossible() {
            self.differ(&format!("{outcome} came about"), "no such outcome");
        }
        for firework in MULTIPARTNER.into_iter().chain([model::MSD]) {
            let count = *self.heard.get(&firework).unwrap_or(&0);
            println!("round {firework:02X} with senders: {count}");
            if count == 0 {
                self.differ(&format!("nobody ever sent after firework {firework:02X}"), "inputs too tame");
            }
        }
    }
}

/// A quarter of the usual calls, for a test: panics unless the engine does what the model does.
pub fn agrees_with_model(engine: &dyn Engine, seed: u64) {
    let mut campaign = Campaign::new(engine, &Model);
    campaign.all(&Amounts::USUAL.part(4), seed);
    assert_eq!(campaign.failed, 0);
    assert!(campaign.passed > 50_000);
}

/// Good files twice as often as damaged ones.
pub(crate) fn any_file(random: &mut Random) -> Vec<u8> {
    if random.once_in(3) {
        clusters::damaged(random)
    } else {
        clusters::cluster(random).encode()
    }
}

/// What differs between what the model and the engine answer and leave; a refusal leaves all as it was.
fn difference(call: &Call, expected: &Outcome, got: &Outcome) -> Option<&'static str> {
    let left_alone = |outcome: &Outcome| Outcome { number: 0, ..outcome.clone() } == call.before();
    if expected.number != got.number {
        Some("number")
    } else if expected.number != 0 && !left_alone(expected) {
        Some("the model altered something by a refusal")
    } else if expected.number != 0 && !left_alone(got) {
        Some("a refusal altered something")
    } else if expected.senders != got.senders {
        Some("senders")
    } else if expected.file != got.file {
        Some("file")
    } else if expected.buffer != got.buffer {
        Some("buffer")
    } else if expected.parts != got.parts {
        Some("parts")
    } else if expected.run != got.run {
        Some("run")
    } else if expected.report != got.report {
        Some("report")
    } else if expected.length != got.length {
        Some("length")
    } else if expected.held != got.held {
        Some("held")
    } else if expected.count != got.count {
        Some("count")
    } else if expected.place != got.place {
        Some("place")
    } else if expected.state != got.state {
        Some("state")
    } else if expected.screen != got.screen {
        Some("screen")
    } else if expected.class != got.class {
        Some("class")
    } else {
        None
    }
}
