//! Rounds that the naming rule permits, drawn from a seed.

use super::between::{Became, Unit};
use crate::cluster::Cluster;
use crate::frames_text::{MasterSlave, Sent, ROUNDS};
use ttpa::{
    Summary, TtpaError, FILE_CONFIGURATION, NAME_BROADCAST, NAME_UNNAMED, OPERATION_READ, OPERATION_WRITE,
};

/// Between two steps there are fewer rounds than this.
const ROUNDS_BELOW: usize = 3;
/// Of so many draws one is a name, file or record that need not be there, or a write to all.
const SELDOM: usize = 8;
const RECORD_NAMES: u8 = 1;

/// The rounds of one seed.
pub struct Drawn {
    seed: u64,
    /// Of each slave its files, with the number of the last record. No round changes them.
    files: Vec<Vec<(u8, u8)>>,
}

impl Drawn {
    pub fn of(file: &[u8], seed: u64) -> Result<Drawn, TtpaError> {
        let cluster = Cluster::of_file(file)?;
        let last_record = |records: usize| records.saturating_sub(1) as u8;
        let files = cluster.slaves.iter().map(|slave| {
            slave.files.iter().map(|file| (file.number, last_record(file.records.len()))).collect()
        });
        Ok(Drawn { seed, files: files.collect() })
    }

    pub fn with_seed(&self, seed: u64) -> Drawn {
        Drawn { seed, files: self.files.clone() }
    }

    /// Sends what the seed has after so many steps; how many complete rounds it was.
    pub fn send(&self, made: u64, file: &mut [u8]) -> u64 {
        let mut draws = Draws::at(self.seed, made);
        let mut rounds = 0;
        for _ in 0..draws.below(ROUNDS_BELOW) {
            let became = Unit::of(self.round(&mut draws, file)).send(file);
            rounds += u64::from(became == Became::Permitted);
        }
        rounds
    }

    /// A multipartner round, a read, or a write elsewhere than to what naming needs.
    fn round(&self, draws: &mut Draws, file: &[u8]) -> Sent {
        match draws.below(3) {
            0 => Sent::Frame(vec![ROUNDS[draws.below(ROUNDS.len())].1]),
            1 => Sent::MasterSlave(self.read(draws, file)),
            _ => Sent::MasterSlave(self.write(draws, file)),
        }
    }

    fn read(&self, draws: &mut Draws, file: &[u8]) -> MasterSlave {
        let (name, number, record) = self.target(draws, file);
        // a read at 00 is refused
        let name = if name == NAME_BROADCAST { NAME_UNNAMED } else { name };
        MasterSlave { name, file: number, operation: OPERATION_READ, record, data: None }
    }

    fn write(&self, draws: &mut Draws, file: &[u8]) -> MasterSlave {
        let (mut name, number, mut record) = self.target(draws, file);
        if draws.below(SELDOM) == 0 {
            name = NAME_BROADCAST;
        }
        if number == FILE_CONFIGURATION {
            // of this file the rule permits record 1, and not at FF
            record = RECORD_NAMES;
            name = if name == NAME_UNNAMED { NAME_BROADCAST } else { name };
        }
        let data = (draws.number() as u32).to_be_bytes();
        MasterSlave { name, file: number, operation: OPERATION_WRITE, record, data: Some(data) }
    }

    /// A slave's name as it is by now, and a file and record that it has; seldom others.
    fn target(&self, draws: &mut Draws, file: &[u8]) -> (u8, u8, u8) {
        let summary = Summary::of(file).unwrap_or_default();
        let slave = draws.below(summary.names().len().max(1));
        let files = self.files.get(slave).map(Vec::as_slice).unwrap_or_default();
        let chosen = files.get(draws.below(files.len().max(1)));
        match (summary.names().get(slave), chosen) {
            (Some(&name), Some(&(number, last))) if draws.below(SELDOM) > 0 => {
                (name, number, draws.below(usize::from(last) + 1) as u8)
            }
            _ => (draws.below(256) as u8, draws.below(64) as u8, draws.below(256) as u8),
        }
    }
}

/// Numbers that a seed and a place settle: splitmix64.
struct Draws(u64);

impl Draws {
    const STEP: u64 = 0x9E37_79B9_7F4A_7C15;

    /// For each seed and place a row of its own.
    fn at(seed: u64, place: u64) -> Draws {
        let row = Draws(seed).number();
        Draws(row ^ Draws(place).number())
    }

    fn number(&mut self) -> u64 {
        self.0 = self.0.wrapping_add(Draws::STEP);
        let mixed = (self.0 ^ self.0 >> 30).wrapping_mul(0xBF58_476D_1CE4_E5B9);
        let mixed = (mixed ^ mixed >> 27).wrapping_mul(0x94D0_49BB_1331_11EB);
        mixed ^ mixed >> 31
    }

    fn below(&mut self, limit: usize) -> usize {
        (self.number() % limit as u64) as usize
    }
}

#[cfg(test)]
mod tests {
    use super::*;
    use crate::subcommands::draw;

    /// Each is a complete round that the rule permits, and each kind comes up and does something.
    #[test]
    fn only_permitted_rounds_are_drawn() {
        let mut file = draw::draw("a class", 5, 2).encode();
        let drawn = Drawn::of(&file, 7).expect("a good file");
        let (mut kinds, mut changed) = ([0; 4], 0);
        for place in 0..20_000 {
            let mut draws = Draws::at(drawn.seed, place);
            let sent = drawn.round(&mut draws, &file);
            kinds[match &sent {
                Sent::Frame(_) => 0,
                Sent::MasterSlave(round) if round.operation == OPERATION_READ => 1,
                Sent::MasterSlave(round) if round.file == FILE_CONFIGURATION => 2,
                Sent::MasterSlave(_) => 3,
            }] += 1;
            let before = file.clone();
            assert_eq!(Unit::of(sent.clone()).send(&mut file), Became::Permitted, "{sent:?}");
            // past the header, which every round alters
            changed += u32::from(before[16..] != file[16..]);
        }
        assert!(kinds.iter().all(|&kind| kind > 500) && changed > 2_000, "{kinds:?} {changed}");
    }

    #[test]
    fn a_seed_gives_the_same_rounds_again_and_another_seed_others() {
        let file = draw::draw("a class", 4, 2).encode();
        let left = |seed, from: u64, mut file: Vec<u8>| {
            let drawn = Drawn::of(&file, seed).expect("a good file");
            (from..from + 100).for_each(|made| {
                drawn.send(made, &mut file);
            });
            file
        };
        assert_eq!(left(1, 1, file.clone()), left(1, 1, file.clone()));
        assert_ne!(left(1, 1, file.clone()), left(2, 1, file.clone()));
        // taken up again after 100 steps, it goes on
        let drawn = Drawn::of(&file, 1).expect("a good file");
        let mut whole = file.clone();
        (1..201).for_each(|made| {
            drawn.send(made, &mut whole);
        });
        assert_eq!(left(1, 101, left(1, 1, file)), whole);
    }
}
