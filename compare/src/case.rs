//! Inputs on which both sides are run; a failing one is made small before it is shown.
use crate::child::strays;
use crate::random::Random;
use std::collections::BTreeMap;
use std::fmt::Debug;
use std::iter::{once, successors};
use std::ops::Range;
use std::time::{Duration, Instant};

/// How many smaller inputs are tried at most before a failing one is shown, and for how long.
const TRIES: usize = 20_000;
const TRIED: Duration = Duration::from_secs(60);

/// An input, the comparison on it, and the inputs that are simpler by one step.
pub trait Case: Clone + Debug {
    /// The refusal number on which both sides agree, or what differs.
    fn compare(&self) -> Result<u32, String>;
    fn smaller(&self) -> Smaller<'_, Self>;
    /// Whether a zero right set is read or packed, which is counted apart: there the Rust's own
    /// entries are handed the medians.
    fn silent_right(&self) -> bool {
        false
    }
    /// Whether it holds a log word out of reach, which is counted apart: there the rule decides and
    /// not the Rust.
    fn out_of_reach(&self) -> bool {
        false
    }
    /// Whether it is a word's state whose totals exceed its place, which is counted apart: there too the
    /// rule decides.
    fn totals_exceed(&self) -> bool {
        false
    }
}

/// Simpler inputs, made one after the other.
pub type Smaller<'a, C> = Box<dyn Iterator<Item = C> + 'a>;

/// A comparison failed, and its smallest input was shown.
pub struct Failed;

/// Ok where the two are equal, else what differs.
pub fn same<T: PartialEq + Debug>(what: &str, ours: &T, theirs: &T) -> Result<(), String> {
    if ours == theirs {
        return Ok(());
    }
    Err(format!("{what}: ours {ours:?}, theirs {theirs:?}"))
}

/// Ok where the two lists are equal, else the first place where they differ.
pub fn same_list<T: PartialEq + Debug>(what: &str, ours: &[T], theirs: &[T]) -> Result<(), String> {
    if ours == theirs {
        return Ok(());
    }
    same(&format!("length of {what}"), &ours.len(), &theirs.len())?;
    match (0..ours.len()).find(|&i| ours[i] != theirs[i]) {
        Some(i) => same(&format!("{what}[{i}]"), &ours[i], &theirs[i]),
        None => Ok(()),
    }
}

/// What inputs that are counted apart hold.
const APART: [&str; 3] = ["a zero right set", "a log word out of reach", "totals that exceed the place"];

/// How many counts there are: of all inputs, and of those with each of these.
const COUNTS: usize = 1 + APART.len();

/// On how many inputs both sides agreed, for each refusal number.
type Agreed = BTreeMap<u32, [u64; COUNTS]>;

/// The run of one kind: where its inputs come from, and on how many of them both sides agreed.
pub struct Run {
    pub random: Random,
    pub scale: usize,
    agreed: Agreed,
    apart: bool,
}

impl Run {
    pub fn new(seed: u64, scale: usize) -> Run {
        Run { random: Random::new(seed), scale, agreed: Agreed::new(), apart: false }
    }

    /// From now on each input is first compared in a child of its own, which shows whether a stray
    /// access stops it.
    pub fn set_apart(&mut self) {
        self.apart = true;
    }

    /// How far it has come, in numbers for `go_on`: the state of its random numbers, and each
    /// refusal number with what was counted.
    pub fn progress(&self) -> Vec<u64> {
        let agreed = self.agreed.iter().flat_map(|(&number, counts)| once(u64::from(number)).chain(*counts));
        once(self.random.state()).chain(agreed).collect()
    }

    /// Goes on from where another run of the kind has come to.
    pub fn go_on(&mut self, progress: &[u64]) {
        let [state, agreed @ ..] = progress else {
            unreachable!("the state of the random numbers comes first");
        };
        self.random = Random::new(*state);
        let kinds = agreed.chunks_exact(1 + COUNTS);
        self.agreed =
            kinds.map(|kind| (kind[0] as u32, std::array::from_fn(|count| kind[1 + count]))).collect();
    }

    /// One of the counts, in all and by refusal number.
    fn counted(&self, place: usize) -> (u64, String) {
        let counts = self
            .agreed
            .iter()
            .map(|(number, counts)| (number, counts[place]))
            .filter(|(_, count)| *count > 0);
        let numbers: Vec<String> =
            counts.clone().map(|(number, count)| format!("{number}: {count}")).collect();
        (counts.map(|(_, count)| count).sum(), format!("by refusal number {}", numbers.join(", ")))
    }

    /// Prints on how many inputs of a kind both sides agreed, and gives the number.
    pub fn report(&self, name: &str, began: Instant) -> u64 {
        let (agreed, numbers) = self.counted(0);
        println!("compare: {name}: {agreed} agree, {numbers} ({:.1} s)", began.elapsed().as_secs_f64());
        for (place, held) in (1..).zip(APART) {
            let (count, numbers) = self.counted(place);
            if count > 0 {
                println!("compare:   of these {count} with {held}, {numbers}");
            }
        }
        agreed
    }

    /// Whether a stray access stops the comparison on an input; not looked at before inputs are set
    /// apart.
    fn strays<C: Case>(&self, case: &C) -> bool {
        self.apart && strays(|| case.compare())
    }

    /// Compares both sides on one input; shows the smallest failing input that it finds from there.
    pub fn agree<C: Case>(&mut self, case: C) -> Result<(), Failed> {
        if self.strays(&case) {
            println!("STRAY ACCESS {:?}", smallest(case, |smaller| self.strays(smaller)));
            return Err(Failed);
        }
        match case.compare() {
            Ok(refusal) => {
                let (out_of_reach, totals_exceed) = (case.out_of_reach(), case.totals_exceed());
                assert!(refusal > 0 || !out_of_reach, "a log word out of reach is never accepted");
                assert!(refusal > 0 || !totals_exceed, "totals that exceed the place are never accepted");
                let counted = [true, case.silent_right(), out_of_reach, totals_exceed];
                let counts = self.agreed.entry(refusal).or_default();
                counts
                    .iter_mut()
                    .zip(counted)
                    .for_each(|(count, is_counted)| *count += u64::from(is_counted));
                Ok(())
            }
            Err(said) => {
                let case = smallest(case, |smaller| !self.strays(smaller) && smaller.compare().is_err());
                println!("DIFFERENCE {case:?}\n  {}", case.compare().err().unwrap_or(said));
                Err(Failed)
            }
        }
    }
}

/// The smallest failing input that it finds from one that fails.
fn smallest<C: Case>(case: C, fails: impl Fn(&C) -> bool) -> C {
    let (mut found, mut tries, began) = (case, 0, Instant::now());
    loop {
        let case = found.clone();
        let rest = TRIES - tries;
        let in_time = case.smaller().take_while(|_| began.elapsed() < TRIED);
        let mut smaller = in_time.take(rest).inspect(|_| tries += 1);
        match smaller.find(&fails) {
            Some(smaller) => found = smaller,
            None => return found,
        }
    }
}

/// The parts of a list, by their size: the whole first, single elements last.
fn parts(length: usize) -> impl Iterator<Item = impl Iterator<Item = Range<usize>>> {
    let sizes = successors(Some(length), |size| Some(size / 2)).take_while(|&size| size > 0);
    sizes.map(move |size| (0..length).step_by(size).map(move |start| start..length.min(start + size)))
}

/// The parts of a list of this length that are left out in turn.
pub fn left_out(length: usize) -> impl Iterator<Item = Range<usize>> {
    parts(length).flat_map(|parts| parts.take(64))
}

/// Lists with a part left out.
pub fn shorter<T: Clone>(list: &[T]) -> impl Iterator<Item = Vec<T>> {
    left_out(list.len()).map(|part| [&list[..part.start], &list[part.end..]].concat())
}

/// Lists with a part made 0.
pub fn plainer<T: Copy + PartialEq + Default>(list: &[T]) -> impl Iterator<Item = Vec<T>> {
    let plain = |part: &Range<usize>| list[part.clone()].iter().all(|&element| element == T::default());
    let parts = parts(list.len()).flat_map(move |parts| parts.filter(move |part| !plain(part)).take(64));
    parts.map(|part| {
        let mut plain = list.to_vec();
        plain[part].fill(T::default());
        plain
    })
}
