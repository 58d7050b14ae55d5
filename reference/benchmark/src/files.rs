//! The files that are timed, each made anew by its generator, and the questions whose stack
//! is measured. The seed is the workloads' usual one.

use reference::draft::{sample, step, Draft, DraftActions, DraftSet};
use reference::generate::found::{many_lists, most_states, Order as ListOrder, SHORT};
use reference::generate::growth;
use reference::generate::limits::{many_action_sets, many_state_sets, workload};
use reference::generate::random::Random;
use reference::generate::worst::{busiest, no_model, two_right_leaves, Left, Order};
use reference::layout::MAX_STATE_SETS;
use reference::numbering::renumber;
use reference::rounds::run;
use reference::shape::Method;
use reference::{Answer, Reply};

use crate::proved;

const SEED: u64 = 1;

/// A file to check, and the reply that it must get.
pub struct Timed {
    pub name: String,
    /// How it was made smaller than the limits allow; empty where it was not.
    pub scaled: String,
    pub bytes: Vec<u8>,
    /// The list of rule numbers to check it with, where there is one.
    pub numbers: Option<Vec<u8>>,
    pub expected: Reply,
}

impl Timed {
    fn new(name: impl Into<String>, bytes: Vec<u8>, expected: Reply) -> Timed {
        Timed { name: name.into(), scaled: String::new(), bytes, numbers: None, expected }
    }

    /// The code of the proved checker's reply.
    pub fn proved(&self) -> u64 {
        match &self.numbers {
            None => proved::check(&self.bytes),
            Some(numbers) => proved::check_numbered(&self.bytes, numbers),
        }
    }

    /// The reference checker's reply.
    pub fn reference(&self) -> Reply {
        match &self.numbers {
            None => reference::check(&self.bytes),
            Some(numbers) => reference::check_numbered(&self.bytes, numbers),
        }
    }

    /// The code of the proved checker's reply by the small limits.
    pub fn proved_small(&self) -> u64 {
        proved::check_small(&self.bytes)
    }

    /// The reference checker's reply by the small limits.
    pub fn reference_small(&self) -> Reply {
        reference::check_small(&self.bytes)
    }

    /// The proved checker's reply by rounds of so many steps, and how many rounds there were.
    pub fn proved_in_rounds(&self, steps: u64) -> (Reply, usize) {
        run(|from| proved::round(proved::check_round(&self.bytes, from, steps)))
    }

    /// The same of the reference checker.
    pub fn reference_in_rounds(&self, steps: u64) -> (Reply, usize) {
        run(|from| reference::check_round(&self.bytes, from, steps))
    }

    fn accepted(name: impl Into<String>, draft: &Draft) -> Timed {
        Timed::new(name, draft.encode(), Reply::Accepted)
    }
}

/// The workloads, as `reference workload NUMBER 1` writes them.
pub fn workloads() -> Vec<Timed> {
    let names = [
        "W1: 4,096 listed states, 256 actions",
        "W2: 256 Horn clauses, 256 actions",
        "W3: 256 two-literal clauses, 256 actions",
        "W4: 2,048 steps, 512 entries",
        "W5: 3,712 listed states, a tenth of them twice, shuffled, 256 actions",
        "W6: 4,096 initial states within a list, 256 actions",
        "W6: 4,096 initial states, 256 actions from them into a list",
        "W1 in version 3: each of 256 actions needs facts off",
        "W2 in version 3: each of 256 actions needs a fact off",
        "W3 in version 3: each of 256 actions needs a fact off",
    ];
    names.iter().zip(1..).map(|(name, number)| Timed::accepted(*name, &made(number))).collect()
}

/// A workload.
fn made(number: usize) -> Draft {
    workload(&mut Random::new(SEED), number)
}

/// What the order of listed states costs: W5 and many short lists beside the same with their states ascending; and as many states as a
/// file can hold, which no step looks at, so that most of the time goes to reading them.
pub fn in_any_order() -> Vec<Timed> {
    let lists = many_lists(&mut Random::new(SEED));
    let count = lists.state_sets.iter().filter(|set| matches!(set, DraftSet::Explicit(_))).count();
    let statements = lists.steps.len() - sample().steps.len();
    let short = |order| format!("{count} sets of {SHORT} listed states, {order}, {statements} statements");
    let mut all = vec![
        Timed::accepted("W5 with its states ascending, each once", &ascending(&made(5))),
        Timed::accepted(short("shuffled"), &lists),
        Timed::accepted(short("ascending"), &ascending(&lists)),
    ];
    for order in ListOrder::ALL {
        let how = match order {
            ListOrder::Ascending => "ascending",
            ListOrder::Shuffled => "shuffled",
            ListOrder::Reversed => "descending",
            ListOrder::Equal => "all equal",
        };
        let draft = most_states(&mut Random::new(SEED), order);
        all.push(Timed::accepted(
            format!("8,162 listed states, {how}, in two sets that no step names"),
            &draft,
        ));
    }
    all
}

/// The same with the states of each explicit set ascending, each once.
fn ascending(draft: &Draft) -> Draft {
    let mut d = draft.clone();
    for set in &mut d.state_sets {
        if let DraftSet::Explicit(states) = set {
            states.sort_unstable();
            states.dedup();
        }
    }
    d
}

/// How many steps a round has where W4 is checked in rounds.
pub const ROUNDS: [u64; 4] = [1, 16, 256, 2048];

/// W4 as it is, and with its rule bytes rewritten by a list: rule k has the number 129 - k.
pub fn without_and_with_list() -> [Timed; 2] {
    let without = workloads().swap_remove(3);
    let numbers: Vec<u8> = (101..=128).rev().collect();
    let bytes = renumber(&without.bytes, &numbers).unwrap_or_else(|why| panic!("{why}"));
    let name = format!("{}, a list of rule numbers", without.name);
    let with = Timed { numbers: Some(numbers), ..Timed::new(name, bytes, Reply::Accepted) };
    [without, with]
}

/// A file, and the reply that it must get by the small limits.
pub struct Limited {
    pub file: Timed,
    pub small: Reply,
}

impl Limited {
    /// A file that the full check accepts.
    fn new(name: &str, draft: &Draft, small: Reply) -> Limited {
        Limited { file: Timed::accepted(name, draft), small }
    }
}

/// The largest files of listed states and of rule steps that the small limits allow, each with one more; and W1, which has too
/// many bytes.
pub fn at_small_limits() -> Vec<Limited> {
    let breach = |place| Reply::Refused { number: 19, place };
    let listed = growth::listed(&mut Random::new(SEED), 9, 256);
    let rules = |steps| growth::rules(&mut Random::new(SEED), 256, steps);
    let (one_more, steps) = (with_one_more_state(&listed), rules(257));
    let count = steps.encode().len() - 12 * 257 - 2;
    vec![
        Limited::new("512 states within reach, 256 actions", &listed, Reply::Accepted),
        Limited::new("513 states within reach, 256 actions", &one_more, breach(LIST)),
        Limited::new("256 steps, 256 entries", &rules(256), Reply::Accepted),
        Limited::new("257 steps, 256 entries", &steps, breach(count as u64)),
        Limited { file: workloads().swap_remove(0), small: breach(0) },
    ]
}

/// Where a file of 256 actions in the sample's form has the length of its explicit set.
const LIST: u64 = 88 + 24 * (256 - 2);

/// The task begins with a further fact on, which every action clears: that state is within reach too, and listed.
fn with_one_more_state(listed: &Draft) -> Draft {
    let mut d = listed.clone();
    let DraftSet::Explicit(states) = &mut d.state_sets[3] else { panic!("no listed states") };
    let used = states.iter().fold(d.goal, |used, state| used | state);
    let fact = 1 << used.trailing_ones();
    d.init |= fact;
    d.actions.iter_mut().for_each(|action| action.del |= fact);
    states.push(d.init);
    states.sort_unstable();
    d
}

/// How many clauses the first right leaf of a worst case has: with all 256, one check would
/// take longer than anyone waits for a table.
pub const RIGHT_CLAUSES: usize = 4;

/// How many actions the worst search for a model has, of 256, for the same reason.
pub const ACTIONS: usize = 32;

/// The dearest statements over clauses (docs/DECISIONS.md), and the files whose entries each
/// name the one before them twice.
pub fn worst_cases() -> Vec<Timed> {
    let mut all = Vec::new();
    for complements in [0, 6] {
        for order in Order::ALL {
            all.extend(dearest(Left { written: 8, complements }, order));
        }
    }
    for (kind, method) in [("Horn", Method::Horn), ("two-literal", Method::TwoCnf)] {
        let scaled = format!("1 of 2,040 such statements, 2 of 256 actions, {RIGHT_CLAUSES} of 256 clauses");
        let draft = busiest(method, 1, 2, [RIGHT_CLAUSES, 256]);
        all.push(Timed { scaled, ..Timed::accepted(format!("the busiest file, {kind}"), &draft) });
    }
    all.extend(doubling());
    all
}

/// A statement of each class over these left leaves.
fn dearest(left: Left, order: Order) -> [Timed; 3] {
    let leaves = match left.complements {
        0 => "8 left leaves".into(),
        complements => format!("8 left leaves, {complements} complements right"),
    };
    let chain = match order {
        Order::LastLeaf => "",
        Order::Backwards => ", chain backwards over the leaves",
        Order::Ends => ", chain at both ends",
    };
    let two = |kind: &str, method| {
        let scaled = format!("{RIGHT_CLAUSES} of 256 clauses in the first right leaf");
        let draft = two_right_leaves(method, left, order, [RIGHT_CLAUSES, 256]);
        Timed { scaled, ..Timed::accepted(format!("{kind}, {leaves}, 2 right leaves{chain}"), &draft) }
    };
    let search = Timed {
        scaled: format!("{ACTIONS} of 256 actions"),
        ..Timed::accepted(
            format!("two-literal satisfiability, {leaves}{chain}"),
            &no_model(left, order, ACTIONS),
        )
    };
    [two("Horn", Method::Horn), two("two-literal", Method::TwoCnf), search]
}

fn doubling() -> [Timed; 2] {
    let unions = "256 action sets, each the one before it twice";
    let intersections = "512 state sets, most the intersection of the one before it twice";
    let too_many_leaves = Reply::Refused { number: 10, place: 7 };
    [
        Timed::new(unions, many_action_sets(0), Reply::Accepted),
        Timed::new(intersections, many_state_sets(0), too_many_leaves),
    ]
}

/// As many intersections over one another as a file can hold, for the stack alone.
pub fn deepest() -> Timed {
    let mut d = sample();
    d.state_sets = vec![DraftSet::Empty];
    let last = MAX_STATE_SETS as u16 - 1;
    d.state_sets.extend((0..last).map(|entry| DraftSet::Intersection(entry, entry)));
    d.steps = vec![step(1, 1, &[last, 0], &[])];
    let too_many_leaves = Reply::Refused { number: 10, place: 0 };
    Timed::new("511 intersections over one another", d.encode(), too_many_leaves)
}

/// Files of one form, each twice as large as the one before it.
pub struct Series {
    pub name: &'static str,
    pub sizes: Vec<usize>,
    pub files: Vec<Timed>,
}

impl Series {
    /// Five files, the first of the given size.
    fn new(name: &'static str, first: usize, make: impl Fn(usize) -> Draft) -> Series {
        let sizes: Vec<usize> = (0..5).map(|k| first << k).collect();
        let file = |size: &usize| Timed::accepted(format!("{size} {name}"), &make(*size));
        let files = sizes.iter().map(file).collect();
        Series { name, sizes, files }
    }
}

/// Each measure of a file's size in turn, doubled up to its limit.
pub fn series() -> Vec<Series> {
    let random = || Random::new(SEED);
    let listed = |states: usize, actions| growth::listed(&mut random(), states.ilog2() as usize, actions);
    let clauses = |method, count| growth::clauses(&mut random(), method, count, 64);
    let rules = |steps| growth::rules(&mut random(), steps / 4, steps);
    vec![
        Series::new("listed states, 64 actions", 256, |states| listed(states, 64)),
        Series::new("actions, 1,024 listed states", 16, |actions| listed(1024, actions)),
        Series::new("Horn clauses, 64 actions", 16, |count| clauses(Method::Horn, count)),
        Series::new("two-literal clauses, 64 actions", 16, |count| clauses(Method::TwoCnf, count)),
        Series::new("steps, a quarter as many entries", 128, rules),
    ]
}

/// A question about a file, and the answer that it must get.
pub struct Question {
    pub name: String,
    pub bytes: Vec<u8>,
    pub entry: u64,
    pub state: u64,
    pub expected: Answer,
}

/// Listed states, clauses, shuffled states, initial states, and regressions over one another as deep as may be asked.
pub fn questions() -> Vec<Question> {
    let mut all = Vec::new();
    let sets = ["the listed states of W1", "the clauses of W2", "the clauses of W3"].into_iter().zip(1..);
    for (name, number) in sets.chain([("the shuffled states of W5", 5), ("those of W1 in version 3", 8)]) {
        let draft = made(number);
        let (bytes, state) = (draft.encode(), draft.init);
        all.push(Question { name: name.into(), bytes, entry: 3, state, expected: Answer::In });
    }
    let initial = made(6);
    let (bytes, state) = (initial.encode(), initial.init | initial.unknown);
    let name = "the initial states of W6".into();
    all.push(Question { name, bytes, entry: 1, state, expected: Answer::In });
    let (bytes, first) = regressions();
    for levels in 1..=4 {
        // Nothing leads into the goal, so every action is tried at each level.
        let expected = if levels < 4 { Answer::Out } else { Answer::Refused { number: 13, place: 0 } };
        let (name, entry) = (format!("regressions over one another, {levels}"), first + levels - 1);
        all.push(Question { name, bytes: bytes.clone(), entry, state: 1, expected });
    }
    all
}

/// The sample with four regressions by a union of action sets, the first of the goal and each
/// other of the one before it, and the entry number of the first.
fn regressions() -> (Vec<u8>, u64) {
    let mut d = sample();
    d.action_sets.extend([DraftActions::List(vec![1]), DraftActions::Union(0, 1)]);
    let first = d.state_sets.len() as u16;
    d.state_sets.push(DraftSet::Regression(2, 2));
    d.state_sets.extend((first..first + 3).map(|entry| DraftSet::Regression(entry, 2)));
    (d.encode(), first as u64)
}
