//! Sorts of runs over two lists that have to occur: how many slaves were unnamed beside the free names of each, what was
//! held, which list was empty, how the first run ended.

use super::Sort;
use crate::two_lists::{names_in, Ended, Runs, TwoLists};
use model::{check, Account, Cluster, Edition, End, LogicalName};

pub fn sorts(lists: &TwoLists, runs: &Runs) -> Vec<Sort> {
    let cluster = check(&lists.file).expect("an accepted file");
    let TwoLists { file, first, second } = lists;
    let (held, held_after) = (names_in(file), names_in(&runs.first.file));
    let unnamed = |held: &[u8]| held.iter().filter(|&&name| name == LogicalName::UNNAMED.0).count();
    let free = |list: &[u8]| list.iter().filter(|name| !held.contains(name)).count();
    let both = !first.is_empty() && !second.is_empty();
    let after_all_named = both && runs.first.named_all();
    let occurs = [
        (first.iter().any(|name| held.contains(name)), Sort::FirstListHeld),
        (second.iter().any(|name| held.contains(name)), Sort::SecondListHeld),
        (!first.is_empty() && free(first) == 0, Sort::FirstListTaken),
        (first.is_empty() && !second.is_empty(), Sort::FirstListEmpty),
        (!first.is_empty() && second.is_empty(), Sort::SecondListEmpty),
        (first.is_empty() && second.is_empty(), Sort::BothListsEmpty),
        (both && !runs.first.named_all(), Sort::FirstListUsedUp),
        (after_all_named && free(second) > 0, Sort::SecondAsksInVain),
        (after_all_named && free(second) == 0, Sort::SecondTakenAfterAll),
        (cluster.edition == Edition::One, Sort::TwoListsInEdition1),
        (cluster.edition == Edition::Two, Sort::TwoListsInEdition2),
        (cluster.slaves.iter().any(|slave| slave.asleep && slave.is_unnamed()), Sort::TwoListsOverSleepers),
        (both && turned_about(&cluster, lists) != names_in(&runs.whole.file), Sort::OrderOfListsTells),
    ];
    let mut sorts: Vec<Sort> = occurs.into_iter().filter_map(|(occurs, sort)| occurs.then_some(sort)).collect();
    sorts.push(Sort::UnnamedBesideFirst(unnamed(&held).cmp(&free(first))));
    sorts.push(Sort::UnnamedBesideSecond(unnamed(&held_after).cmp(&free(second))));
    sorts.extend(both_name(&held, runs).then_some(Sort::BothListsName));
    sorts
}

/// The names that B followed by A would leave.
fn turned_about(cluster: &Cluster, lists: &TwoLists) -> Vec<u8> {
    let names = [&lists.second[..], &lists.first].concat();
    let mut account = Account::start(cluster, &names);
    while account.end() == End::Running {
        account.step(64);
    }
    account.logical_names().to_vec()
}

/// Whether each of the two runs named a slave.
fn both_name(held: &[u8], runs: &Runs) -> bool {
    let [after_first, after_second] = [&runs.first, &runs.second].map(|ended: &Ended| names_in(&ended.file));
    held != after_first && after_first != after_second
}
