//! Many runs over one list of names on copies of one file, each with other rounds in between.

use super::{drawn::Drawn, Naming, Traffic};
use ttpa::{End, TtpaError};

/// What a run came to, by the engine's words.
#[derive(Clone, Debug, PartialEq, Eq)]
pub struct Came {
    end: End,
    rounds: u64,
    comparisons: u64,
    /// The logical name of each slave, in table order.
    names: Vec<u8>,
}

impl Came {
    pub fn of(naming: &Naming) -> Came {
        Came {
            end: naming.run.end(),
            rounds: naming.run.rounds(),
            comparisons: naming.run.comparisons(),
            names: naming.names_held(),
        }
    }

    /// What is another, where something is.
    pub fn difference(&self, expected: &Came) -> Option<String> {
        if self == expected {
            return None;
        }
        let place = self.names.iter().zip(&expected.names).position(|(name, expected)| name != expected);
        Some(match place {
            Some(slave) => {
                format!("slave {slave} has {:02X}, not {:02X}", self.names[slave], expected.names[slave])
            }
            None => "another end or count".to_string(),
        })
    }
}

/// The run of one order to its end.
pub fn run_to_end(mut naming: Naming, traffic: &mut Traffic) -> Result<Naming, TtpaError> {
    while !naming.ended() {
        naming.step(traffic, &mut |_| {})?;
    }
    Ok(naming)
}

/// The run of an order: the one that `--seed` makes of its number.
pub fn order(fresh: &Naming, drawn: &Drawn, number: u64) -> Result<(Naming, Traffic), TtpaError> {
    let mut traffic = Traffic::Drawn(drawn.with_seed(number));
    let naming = run_to_end(fresh.clone(), &mut traffic)?;
    Ok((naming, traffic))
}

/// The first of so many orders that comes to something else, and what is another. Of each its result and what else is told of it.
pub fn first_that_differs<T, E>(
    count: u64,
    expected: &Came,
    mut run: impl FnMut(u64) -> Result<(Came, T), E>,
) -> Result<Option<(u64, T, String)>, E> {
    for number in 1..=count {
        let (came, told) = run(number)?;
        if let Some(words) = came.difference(expected) {
            return Ok(Some((number, told, words)));
        }
    }
    Ok(None)
}

#[cfg(test)]
mod tests {
    use super::super::between::Between;
    use super::*;
    use crate::subcommands::draw;
    use crate::text::Lines;

    fn came_with(text: &str) -> Came {
        let file = draw::draw("a class", 5, 3).encode();
        let naming = Naming::start(file, (1..=6).collect()).expect("good names");
        let mut bytes = text.as_bytes();
        let between = Between::read(Lines::of(&mut bytes, "t".to_string()), 1).expect("good lines");
        Came::of(&run_to_end(naming, &mut Traffic::Frames(between)).expect("a run"))
    }

    #[test]
    fn a_run_comes_to_its_end_counts_and_names() {
        let Came { end, rounds, comparisons, names } = came_with("round 2");
        // three of five slaves get a name of the list, the two others have theirs
        assert_eq!((end, names.len()), (End::AllNamed, 5));
        assert!(names.iter().all(|&name| name != ttpa::NAME_UNNAMED), "{names:02X?}");
        assert!(comparisons == 3 * 65 + 1 && rounds > 2 * comparisons, "{rounds} {comparisons}");
        let file = draw::draw("a class", 2, 2).encode();
        let naming = Naming::start(file, vec![1]).expect("good names");
        let used_up = Came::of(&run_to_end(naming, &mut Traffic::None).expect("a run"));
        assert_eq!(used_up.end, End::NamesUsedUp);
    }

    /// Otherwise many orders would be one, many times over.
    #[test]
    fn an_order_is_the_run_of_its_seed() {
        let file = draw::draw("a class", 4, 2).encode();
        let fresh = Naming::start(file.clone(), (1..=4).collect()).expect("good names");
        let drawn = Drawn::of(&file, 0).expect("a good file");
        for number in [1, 7] {
            let (naming, _) = order(&fresh, &drawn, number).expect("a run");
            let mut traffic = Traffic::Drawn(Drawn::of(&file, number).expect("a good file"));
            let seeded = run_to_end(fresh.clone(), &mut traffic).expect("a run");
            assert_eq!((naming.file, naming.counted), (seeded.file, seeded.counted), "order {number}");
        }
    }

    /// Each order is run, the last too, and the first that differs ends it. While the engine is right none does.
    #[test]
    fn the_first_order_that_differs_is_told() {
        let expected = came_with("round 2");
        let other = Came { comparisons: expected.comparisons + 1, ..expected.clone() };
        let mut made = Vec::new();
        let mut differs_at = |place: u64, count: u64| {
            made.clear();
            let first = first_that_differs(count, &expected, |number| {
                made.push(number);
                Ok::<_, ()>((if number < place { expected.clone() } else { other.clone() }, number))
            });
            (first, made.clone())
        };
        let words = "another end or count".to_string();
        assert_eq!(differs_at(3, 5), (Ok(Some((3, 3, words.clone()))), vec![1, 2, 3]));
        assert_eq!(differs_at(5, 5), (Ok(Some((5, 5, words))), vec![1, 2, 3, 4, 5]));
        assert_eq!(differs_at(6, 5), (Ok(None), vec![1, 2, 3, 4, 5]));
    }

    /// What the rule does not permit may change the result, and then it is told.
    #[test]
    fn a_run_that_is_turned_aside_differs() {
        let expected = came_with("round 2");
        assert_eq!(came_with("read 01 3D 01").difference(&expected), None);
        let aside = came_with("write FF 08 02 FF FF FF FF");
        assert!(aside.difference(&expected).is_some(), "{aside:?}");
        let counted = Came { rounds: expected.rounds + 1, ..expected.clone() };
        assert_eq!(counted.difference(&expected), Some("another end or count".to_string()));
        let mut renamed = expected.clone();
        renamed.names[4] = 0x77;
        let words = renamed.difference(&expected).unwrap_or_default();
        assert!(words.starts_with("slave 4 has 77, not "), "{words}");
        // the first of them is told
        renamed.names[2] = 0x66;
        let words = renamed.difference(&expected).unwrap_or_default();
        assert!(words.starts_with("slave 2 has 66, not "), "{words}");
    }
}
