//! Whole naming runs with permitted traffic in between, also held against the plain account and the closed
//! figures.

use super::inputs::{NAMES_RECORD, WRITE_OF_CONFIGURATION};
use super::random::Random;
use super::summaries::{is_true, Held};
use super::{clusters, inputs, screens};
use crate::campaign::Campaign;
use crate::case::{Call, Outcome};
use crate::engine::{RunWords, State};
use crate::frames::{framed, unfolded, MULTIPARTNER};
use crate::sorts::{turns, Sort};
use crate::two_lists::{names_in, Ended};
use model::{
    check, closed_figures, Account, Address, Cluster, Edition, End, FileNumber, LogicalName, Operation, Slave,
};

const NO_RUN: RunWords = [0; 8];
/// Of the calls of a run that is given a summary, one in so many is made without it.
const CALLS_WITHOUT: usize = 8;

/// Whether the calls of a run are given a summary of the file.
#[derive(Clone, Copy, PartialEq, Eq)]
pub enum Given {
    NoSummary,
    Summary,
}

/// One run on one file: the state that the calls hand on.
struct WholeRun {
    file: Vec<u8>,
    names: Vec<u8>,
    run: RunWords,
    account: Account,
    summary: Option<Held>,
    screens: State,
    /// Calls made.
    made: usize,
}

/// A run over a cluster of so many slaves; in one of three none has a name yet.
pub fn whole_run(campaign: &mut Campaign, random: &mut Random, slaves: usize, given: Given) {
    let mut cluster = clusters::cluster_of(random, slaves);
    if random.once_in(3) {
        cluster.slaves.iter_mut().for_each(|slave| slave.set_logical_name(LogicalName::UNNAMED));
    }
    let names = inputs::good_names(random, slaves + 3);
    let ended = to_its_end(campaign, random, cluster.encode(), &names, given);
    let named = newly_named(&cluster, &ended.file) > 0;
    campaign.note_sorts((given == Given::Summary).then_some(Sort::RunKept));
    let slept = cluster.slaves.iter().any(|slave| slave.asleep && slave.is_unnamed());
    campaign.note_sorts((slept && named).then_some(Sort::RunOverSleepers));
    let more = cluster.slaves.len() > Edition::One.most_slaves();
    campaign.note_sorts((more && named).then_some(Sort::RunOverMoreSlaves));
}

/// A run over the names, begun on this file and made to its end, with permitted traffic between its steps and after its
/// end.
pub fn to_its_end(
    campaign: &mut Campaign,
    random: &mut Random,
    file: Vec<u8>,
    names: &[u8],
    given: Given,
) -> Ended {
    let cluster = check(&file).expect("an accepted file");
    let figures = closed_figures(&cluster, names);
    let started = campaign.call(&Call::Start { names: names.to_vec() });
    let account = Account::start(&cluster, names);
    let summary = (given == Given::Summary).then(|| Held::of(random, &file));
    let run = started.run.unwrap_or(NO_RUN);
    let mut whole =
        WholeRun { file, names: names.to_vec(), run, account, summary, screens: model::screens(), made: 0 };
    let traffic = random.one_of(&[1, 2, 4, 10, 50]);
    while whole.run[0] == End::Running.number() {
        if random.once_in(traffic) {
            whole.other_calls(campaign, random);
        }
        whole.step(campaign, inputs_of_step(random));
    }
    // A step of an ended run alters nothing.
    whole.step(campaign, 64);
    if random.once_in(2) {
        whole.other_calls(campaign, random);
    }
    campaign.tally.note_run(figures.end);
    let ended = Ended { run: whole.run, file: whole.file.clone() };
    if ended.figures() != [figures.end.number(), figures.rounds, figures.comparisons] {
        whole.report(campaign, "the closed figures");
    }
    if newly_named(&cluster, &whole.file) != figures.named {
        whole.report(campaign, "the closed count of slaves named");
    }
    ended
}

/// How many slaves of the cluster are unnamed and have a name in the file.
fn newly_named(cluster: &Cluster, file: &[u8]) -> u64 {
    let left = names_in(file);
    let got_a_name = |(slave, &name): &(&Slave, &u8)| slave.is_unnamed() && name != LogicalName::UNNAMED.0;
    cluster.slaves.iter().zip(&left).filter(got_a_name).count() as u64
}

/// A run over unnamed slaves whose steps the engine and the model make in turn, each on the file and the words that the
/// other left; before each step the other makes a permitted round.
pub fn run_in_turn(campaign: &mut Campaign, random: &mut Random, slaves: usize) {
    let mut cluster = clusters::cluster_of(random, slaves);
    cluster.slaves.iter_mut().for_each(|slave| slave.set_logical_name(LogicalName::UNNAMED));
    let names = inputs::good_names(random, slaves + 3);
    let figures = closed_figures(&cluster, &names);
    let mut account = Account::start(&cluster, &names);
    let both = campaign.both();
    let mut file = cluster.encode();
    let mut run = Call::Start { names: names.clone() }.make(both[0]).run.unwrap_or(NO_RUN);
    let mut made = 0;
    while run[0] == End::Running.number() && made < figures.rounds as usize {
        for frame in permitted_round(random, &check(&file).expect("a file that the last call left")) {
            let round = Call::Round { file, frame, answer_length: 64 }.make(both[(made + 1) % 2]);
            file = round.file.expect("a lent file");
        }
        let step = Call::Step { file, names: names.clone(), run, answer_length: 64 }.make(both[made % 2]);
        (file, run) = (step.file.expect("a lent file"), step.run.expect("a lent run"));
        account.step(64);
        made += 1;
    }
    let left = check(&file).expect("a file that the last call left");
    let given = left.slaves.iter().map(|slave| slave.logical_name().0);
    let [end, _, _, _, rounds, comparisons, ..] = run;
    let counts_agree =
        (end, rounds, comparisons) == (figures.end.number(), figures.rounds, figures.comparisons);
    if counts_agree && given.eq(account.logical_names().iter().copied()) {
        campaign.note_sorts([Sort::RunInTurn]);
    } else {
        campaign.differ("a run made in turn ends otherwise", &format!("{run:?}"));
    }
}

/// Now and then a buffer that is too short, which refuses the step.
fn inputs_of_step(random: &mut Random) -> usize {
    if random.once_in(30) {
        63
    } else {
        random.one_of(&[64, 64, 64, 70])
    }
}

impl WholeRun {
    fn cluster(&self) -> Cluster {
        check(&self.file).expect("a file that the last call left")
    }

    /// Makes a call, given the summary if there is one. Made without it, a step may rename: then it is filled again.
    fn call(&mut self, campaign: &mut Campaign, call: &Call) -> Outcome {
        self.made += 1;
        let given = self.summary.as_ref().filter(|_| !self.made.is_multiple_of(CALLS_WITHOUT));
        let outcome = match given {
            Some(Held { held, count }) => campaign.call(&call.clone().keeping(held, *count)),
            None => campaign.call(call),
        };
        self.file = outcome.file.clone().expect("a lent file");
        match (&mut self.summary, &outcome.held) {
            (Some(summary), Some(held)) => summary.held.clone_from(held),
            _ if matches!(call, Call::Step { .. }) => self.fill(campaign),
            _ => {}
        }
        outcome
    }

    fn fill(&mut self, campaign: &mut Campaign) {
        if let Some(Held { held, count }) = &mut self.summary {
            let filled = campaign.call(&Call::Fill { file: self.file.clone(), held: held.clone() });
            (*held, *count) = (filled.held.expect("a lent slice"), filled.count.expect("a lent count"));
        }
    }

    fn step(&mut self, campaign: &mut Campaign, answer_length: usize) {
        let call =
            Call::Step { file: self.file.clone(), names: self.names.clone(), run: self.run, answer_length };
        let outcome = self.call(campaign, &call);
        self.run = outcome.run.expect("a lent run");
        self.account.step(answer_length);
        self.hold_against_account(campaign);
    }

    fn frame(&mut self, campaign: &mut Campaign, frame: Vec<u8>, answer_length: usize) {
        let call = Call::Round { file: self.file.clone(), frame, answer_length };
        let outcome = self.call(campaign, &call);
        let acts = turns::sorts(&call, &outcome).iter().any(|sort| matches!(sort, Sort::Multiplexed(_)));
        campaign.note_sorts(acts.then_some(Sort::MultiplexedBetweenSteps));
        self.hold_against_account(campaign);
    }

    /// A complete round that demand 3 permits, with refused calls anywhere, now and then after a captured trace of such
    /// rounds or a turn of a screen.
    fn other_calls(&mut self, campaign: &mut Campaign, random: &mut Random) {
        match random.below(8) {
            0 | 1 => self.trace(campaign, random),
            2 | 3 => self.turn(campaign, random),
            _ => {}
        }
        self.refused(campaign, random);
        if random.once_in(2) {
            let firework = random.one_of(&MULTIPARTNER);
            self.frame(campaign, vec![firework], 64);
            return;
        }
        let address = inputs::address(random, &self.cluster());
        if is_permitted(&address) {
            let writes_names = matches!(address[..], [.., WRITE_OF_CONFIGURATION, NAMES_RECORD, _]);
            self.frame(campaign, address, 64);
            let refused_between = self.refused(campaign, random);
            let data = inputs::fitting_data(random, &self.cluster());
            let slaves_before = self.cluster().slaves;
            self.frame(campaign, data, 65);
            let between = writes_names && refused_between && self.cluster().slaves != slaves_before;
            campaign.note_sorts(between.then_some(Sort::NamesWrittenBetweenSteps));
        }
    }

    /// A call that some ground refuses, or none; whether there was one.
    fn refused(&mut self, campaign: &mut Campaign, random: &mut Random) -> bool {
        match random.below(6) {
            0 => self.step(campaign, 63),
            1 => self.frame(campaign, framed(0x55, [1, 1, 3, 1]), 64),
            2 => self.frame(campaign, unfolded(0x49, [0, 0, 0, 0]), 64),
            3 => self.frame(campaign, vec![0x78], 0),
            4 => self.frame(campaign, unfolded(0x55, [1, 0xFF, 0x21, 1]), 64),
            _ => return false,
        }
        true
    }

    /// Permitted rounds as one captured trace, with a refused frame before each frame of them.
    fn trace(&mut self, campaign: &mut Campaign, random: &mut Random) {
        let mut frames = Vec::new();
        for _ in 0..random.between(1, 3) {
            for frame in permitted_round(random, &self.cluster()) {
                frames.extend([refused_frame(random), frame]);
            }
        }
        let trace = model::encode_trace(&frames);
        let outcome = campaign.call(&Call::Trace { file: self.file.clone(), trace });
        let between = outcome
            .report_words()
            .is_some_and(|[msa, _, multipartner, refused, _]| msa + multipartner > 0 && refused > 0);
        campaign.note_sorts(between.then_some(Sort::TraceBetweenSteps));
        self.file = outcome.file.expect("a lent file");
        self.fill(campaign);
        self.hold_against_account(campaign);
    }

    /// A screen posts a read and a turn is made; it takes no summary and leaves it matching.
    fn turn(&mut self, campaign: &mut Campaign, random: &mut Random) {
        let file = std::mem::take(&mut self.file);
        (self.file, self.screens) = screens::between_steps(campaign, random, file, self.screens);
        self.hold_against_account(campaign);
    }

    /// "every logical name, the end and both counts carried in the run"
    fn hold_against_account(&self, campaign: &mut Campaign) {
        let cluster = self.cluster();
        let names = cluster.slaves.iter().map(|slave| slave.logical_name().0);
        let account = &self.account;
        let [end, _, _, _, rounds, comparisons, ..] = self.run;
        let counts_agree =
            (end, rounds, comparisons) == (account.end().number(), account.rounds(), account.comparisons());
        if !counts_agree || !names.eq(account.logical_names().iter().copied()) {
            self.report(campaign, "the plain account");
        }
        let asked =
            self.names.get(self.made % (self.names.len() + 1)).map_or(LogicalName::UNNAMED.0, |&name| name);
        if self.summary.as_ref().is_some_and(|summary| !is_true(&self.file, summary, asked)) {
            self.report(campaign, "the summary");
        }
    }

    fn report(&self, campaign: &mut Campaign, what: &str) {
        let call =
            Call::Step { file: self.file.clone(), names: self.names.clone(), run: self.run, answer_length: 64 };
        campaign
            .differ(&format!("{what} disagrees, after which the next call would be\n{call}"), "see the case");
    }
}

/// The frames of a complete round that demand 3 permits; none where the one drawn is not permitted.
fn permitted_round(random: &mut Random, cluster: &Cluster) -> Vec<Vec<u8>> {
    if random.once_in(2) {
        return vec![vec![random.one_of(&MULTIPARTNER)]];
    }
    let mut cluster = cluster.clone();
    let address = inputs::address(random, &cluster);
    if !is_permitted(&address) {
        return Vec::new();
    }
    cluster.take(&address).expect("an accepted frame");
    let data = inputs::fitting_data(random, &cluster);
    vec![address, data]
}

/// A frame that is refused whatever is pending: by 10, 12, 13, or 11 or 12.
fn refused_frame(random: &mut Random) -> Vec<u8> {
    match random.below(4) {
        0 => Vec::new(),
        1 => unfolded(0x55, [1, 0xFF, 0x21, 1]),
        2 => framed(0x55, [1, 1, 3, 1]),
        _ => unfolded(0x49, [0, 0, 0, 0]),
    }
}

/// The frame is accepted, and demand 3 permits its round: "no write to or execute of 0x08", but "writes to record 1 of
/// slaves with names 0x01 to 0xFE as well" (document 02, request 5). At 0x00 such a write reaches no unnamed slave.
fn is_permitted(frame: &[u8]) -> bool {
    let changes_configuration =
        |address: &Address| address.file == FileNumber::CONFIGURATION && address.operation != Operation::Read;
    let writes_names = |address: &Address| {
        address.operation == Operation::Write
            && address.record.0 == NAMES_RECORD
            && address.name != LogicalName::UNNAMED
    };
    model::read_address(frame).is_ok_and(|address| !changes_configuration(&address) || writes_names(&address))
}
