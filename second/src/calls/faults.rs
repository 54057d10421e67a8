//! What can be wrong with the arguments of a call, alone and several at once.
//!
//! A call answers the first refusal that holds, in rising number but where it
//! says otherwise. So a case with several faults must be refused for the one
//! that is checked first.

use std::collections::BTreeSet;

use super::NO_SETS;
use crate::answers::Refusal;

/// Something wrong with a case.
pub struct Fault<Case> {
    /// How labels name it.
    pub name: String,
    /// Why the call refuses a case that has this fault alone.
    pub refusal: Refusal,
    /// Where its check stands: those with lower numbers come first.
    order: u64,
    spoil: Box<dyn Fn(&mut Case)>,
}

impl<Case> Fault<Case> {
    /// A fault, by what it does to a case that is fine.
    pub fn new(name: &str, refusal: Refusal, spoil: impl Fn(&mut Case) + 'static) -> Self {
        Fault {
            name: name.into(),
            refusal,
            order: 2 * refusal.number(),
            spoil: Box::new(spoil),
        }
    }

    /// The fault, where its check comes right after that of another refusal
    /// and not in the order of the numbers.
    pub fn after(self, other: Refusal) -> Self {
        let order = 2 * other.number() + 1;
        Fault { order, ..self }
    }
}

/// Faults of a part of a case as faults of the case.
pub fn within<Part: 'static, Case>(
    faults: Vec<Fault<Part>>,
    part: impl Fn(&mut Case) -> &mut Part + Copy + 'static,
) -> Vec<Fault<Case>> {
    let outside = |fault: Fault<Part>| Fault {
        name: fault.name,
        refusal: fault.refusal,
        order: fault.order,
        spoil: Box::new(move |case: &mut Case| (fault.spoil)(part(case))),
    };
    faults.into_iter().map(outside).collect()
}

/// Set numbers that name no set.
pub fn no_sets() -> Vec<Fault<u64>> {
    let fault = |number| {
        let name = format!("no-set-{number}");
        Fault::new(&name, Refusal::NoSet, move |set| *set = number)
    };
    NO_SETS.map(fault).into()
}

/// A byte string of a fixed length one byte shorter, one longer, and empty.
pub fn other_lengths(name: &str, refusal: Refusal) -> Vec<Fault<Vec<u8>>> {
    let fault =
        |how: &str, change: fn(&mut Vec<u8>)| Fault::new(&format!("{name}-{how}"), refusal, change);
    vec![
        fault("short", |bytes| bytes.truncate(bytes.len() - 1)),
        fault("long", |bytes| bytes.push(0)),
        fault("empty", |bytes| bytes.clear()),
    ]
}

/// Faults that a case has at once, with no two of one check.
pub struct Choice<'a, Case>(Vec<&'a Fault<Case>>);

impl<Case> Choice<'_, Case> {
    /// The faults' names.
    pub fn label(&self) -> String {
        let names: Vec<&str> = self.0.iter().map(|fault| fault.name.as_str()).collect();
        names.join("+")
    }

    /// Puts the faults into a case. That of the last check goes first, since
    /// one of an earlier check may take away what it needs.
    pub fn spoil(&self, case: &mut Case) {
        self.0.iter().rev().for_each(|fault| (fault.spoil)(case));
    }

    /// How many faults they are.
    pub fn count(&self) -> usize {
        self.0.len()
    }

    /// The refusal of the first check.
    pub fn refusal(&self) -> Refusal {
        let first = self.0.iter().min_by_key(|fault| fault.order);
        first.expect("a choice has a fault").refusal
    }
}

/// Up to so many checks, every set of them is tried at once.
const FEW: usize = 6;

/// Which checks are to fail at once, each set as bits: every set of two or
/// more, or if the checks are many, every two and all from each on.
fn mixes(checks: usize) -> Vec<u32> {
    let all = (1 << checks) - 1;
    let wanted = |subset: u32| match subset.count_ones() {
        0 | 1 => false,
        2 => true,
        _ => checks <= FEW || subset | (subset - 1) == all,
    };
    (0..=all).filter(|&subset| wanted(subset)).collect()
}

/// Each fault alone, and for each mix of checks, one fault of each of them.
/// Which one that is goes round from choice to choice, starting at `first`, so
/// that all have their turn.
pub fn choices<Case>(faults: &[Fault<Case>], first: usize) -> Vec<Choice<'_, Case>> {
    let mut choices: Vec<_> = faults.iter().map(|fault| Choice(vec![fault])).collect();
    let groups = by_check(faults);
    for (turn, subset) in (first..).zip(mixes(groups.len())) {
        let chosen = groups.iter().enumerate();
        let chosen = chosen.filter(|(i, _)| subset >> i & 1 == 1);
        choices.push(Choice(
            chosen.map(|(_, group)| group[turn % group.len()]).collect(),
        ));
    }
    choices
}

/// The faults of each check, in the order of the checks.
fn by_check<Case>(faults: &[Fault<Case>]) -> Vec<Vec<&Fault<Case>>> {
    let orders: BTreeSet<u64> = faults.iter().map(|fault| fault.order).collect();
    let group = |order| faults.iter().filter(|f| f.order == order).collect();
    orders.into_iter().map(group).collect()
}

#[cfg(test)]
mod tests {
    use super::*;

    /// Faults that write their names.
    fn faults() -> Vec<Fault<String>> {
        let fault = |name: &'static str, refusal| {
            Fault::new(name, refusal, move |case: &mut String| case.push_str(name))
        };
        vec![
            fault("x", Refusal::Room),
            fault("y", Refusal::Room),
            fault("a", Refusal::NoSet),
            fault("k", Refusal::Key),
        ]
    }

    #[test]
    fn faults_come_alone_and_mixed() {
        let faults = faults();
        let labels: Vec<String> = choices(&faults, 0).iter().map(Choice::label).collect();
        let alone = ["x", "y", "a", "k"];
        assert_eq!(labels[..4], alone);
        assert_eq!(labels[4..], ["a+k", "a+y", "k+x", "a+k+y"]);
        let labels: Vec<String> = choices(&faults, 1).iter().map(Choice::label).collect();
        assert_eq!(labels[..4], alone);
        assert_eq!(labels[4..], ["a+k", "a+x", "k+y", "a+k+x"]);
    }

    #[test]
    fn every_fault_spoils_and_the_first_check_refuses() {
        let faults = faults();
        let choices = choices(&faults, 0);
        let case = |i: usize| {
            let mut case = String::new();
            choices[i].spoil(&mut case);
            case
        };
        assert_eq!((case(1), choices[1].refusal()), ("y".into(), Refusal::Room));
        assert_eq!((case(6), choices[6].refusal()), ("xk".into(), Refusal::Key));
        assert_eq!(
            (case(7), choices[7].refusal()),
            ("yka".into(), Refusal::NoSet)
        );
        assert_eq!(choices[7].count(), 3);
    }

    /// A check that comes later than its number says.
    #[test]
    fn checks_may_be_out_of_turn() {
        let mut faults = faults();
        faults.push(Fault::new("late", Refusal::Table, |_: &mut String| ()).after(Refusal::Key));
        let choices = choices(&faults, 0);
        let refusal = |start: &str| {
            let mut found = choices.iter().filter(|c| c.label().starts_with(start));
            found.next().expect("there is such a choice").refusal()
        };
        assert_eq!(refusal("late"), Refusal::Table);
        assert_eq!(refusal("k+late"), Refusal::Key);
        assert_eq!(refusal("late+"), Refusal::Table, "with x or y");
    }

    /// Of many checks, each two and all from each on; else all sets.
    #[test]
    fn checks_that_fail_at_once() {
        assert_eq!(mixes(3), [0b011, 0b101, 0b110, 0b111]);
        assert_eq!(mixes(6).len(), 64 - 7);
        let many = mixes(9);
        assert_eq!(many.len(), 9 * 8 / 2 + 7);
        assert!(many.contains(&0b1_0000_0001) && many.contains(&0b1_1111_0000));
        assert!(!many.contains(&0b0_1111_0000));
    }
}
