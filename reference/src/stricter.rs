//! Whether a task is stricter than another (document 02, k): it comes from the other by taking actions away, by letting actions need
//! more, and by adding facts to the goal's masks. Its sequences of actions then pass the same states in the other task, and its goal
//! states are goal states there; so where the other is unsolvable, it is so too. The order of actions, repeats of them, and versions
//! make no difference. `why_not` and `differences` give values, `told` gives words.

use crate::named::NamedTask;
use crate::show::action_title;
use crate::task::Task;

/// Facts that are needed on, and facts that are needed off.
#[derive(Clone, Copy, Debug, PartialEq, Eq)]
pub struct Needs {
    pub on: u64,
    pub off: u64,
}

impl Needs {
    pub const NONE: Needs = Needs { on: 0, off: 0 };

    fn count(&self) -> u32 {
        self.on.count_ones() + self.off.count_ones()
    }
}

/// An action of the other task, beside one that adds and deletes the same facts.
#[derive(Clone, Copy, Debug, PartialEq, Eq)]
pub struct Nearest {
    pub action: usize,
    /// What it needs and the one beside it does not. Where that is nothing, the one beside it comes from it.
    pub missing: Needs,
    /// What the one beside it needs and it does not.
    pub added: Needs,
}

/// A condition that does not hold.
#[derive(Clone, Copy, Debug, PartialEq, Eq)]
pub enum Reason {
    /// Both have the same number of facts.
    Facts,
    /// Both have the same init.
    Init,
    /// Both have the same unknown facts.
    Unknown,
    /// The goal wants on what the other wants on; these it does not.
    Goal { missing: u64 },
    /// The same for facts off.
    GoalOff { missing: u64 },
    /// Each action comes from one of the other task: it adds and deletes the same, and needs the same or more. This one comes from
    /// none; the nearest is among those that add and delete the same, where there are any.
    Action { action: usize, nearest: Option<Nearest> },
}

/// What was altered in the other task.
#[derive(Clone, Copy, Debug, PartialEq, Eq)]
pub enum Difference {
    /// The goal wants these on as well.
    Goal { added: u64 },
    /// The same for facts off.
    GoalOff { added: u64 },
    /// The action needs more than the one that it comes from.
    Needs { action: usize, from: Nearest },
    /// No action comes from this one of the other task, or from one equal to it.
    TakenAway { action: usize },
}

/// All reasons for which a task is not stricter than the other; where there is none, it is.
pub fn why_not(task: &Task, other: &Task) -> Vec<Reason> {
    let (on, off) = (other.goal & !task.goal, other.goal_off & !task.goal_off);
    let fields = [
        (task.facts != other.facts, Reason::Facts),
        (task.init != other.init, Reason::Init),
        (task.unknown != other.unknown, Reason::Unknown),
        (on != 0, Reason::Goal { missing: on }),
        (off != 0, Reason::GoalOff { missing: off }),
    ];
    let fields = fields.into_iter().filter(|(fails, _)| *fails).map(|(_, reason)| reason);
    let actions = (0..task.actions.len()).filter_map(|action| {
        let nearest = nearest(task, action, other);
        let comes = nearest.is_some_and(|nearest| nearest.missing == Needs::NONE);
        (!comes).then_some(Reason::Action { action, nearest })
    });
    fields.chain(actions).collect()
}

/// Of the other task's actions that add and delete the same, the one with the fewest needs missing, then with the fewest added, then
/// that of the same number, then the first.
fn nearest(task: &Task, action: usize, other: &Task) -> Option<Nearest> {
    let own = &task.actions[action];
    let alike = other.actions.iter().enumerate().filter(|(_, a)| (a.add, a.del) == (own.add, own.del));
    let beside = alike.map(|(number, a)| Nearest {
        action: number,
        missing: Needs { on: a.pre & !own.pre, off: a.off & !own.off },
        added: Needs { on: own.pre & !a.pre, off: own.off & !a.off },
    });
    beside.min_by_key(|near| (near.missing.count(), near.added.count(), near.action != action))
}

/// How a task that is stricter than the other differs from it; the order of actions and repeats of them do not count.
pub fn differences(task: &Task, other: &Task) -> Vec<Difference> {
    let (on, off) = (task.goal & !other.goal, task.goal_off & !other.goal_off);
    let goal = [(on, Difference::Goal { added: on }), (off, Difference::GoalOff { added: off })];
    let goal = goal.into_iter().filter(|(added, _)| *added != 0).map(|(_, difference)| difference);
    let numbers = 0..task.actions.len();
    let from: Vec<(usize, Nearest)> =
        numbers.filter_map(|action| Some((action, nearest(task, action, other)?))).collect();
    let more = from.iter().filter(|(_, from)| from.added != Needs::NONE);
    let more = more.map(|(action, from)| Difference::Needs { action: *action, from: *from });
    let is_kept = |a: usize| from.iter().any(|(_, from)| other.actions[from.action] == other.actions[a]);
    let away = (0..other.actions.len()).filter(|action| !is_kept(*action));
    let away = away.map(|action| Difference::TakenAway { action });
    goal.chain(more).chain(away).collect()
}

/// Whether the first task is stricter than the second, and that in words: a line for each difference, or for each reason against it.
pub fn told(first: &NamedTask, second: &NamedTask) -> (bool, String) {
    let reasons = why_not(&first.task, &second.task);
    if !reasons.is_empty() {
        let lines = reasons.iter().map(|reason| reason_words(reason, first, second));
        return (false, page("not stricter", lines.collect()));
    }
    let found = differences(&first.task, &second.task);
    let lines = match found[..] {
        [] => vec!["no difference".into()],
        _ => found.iter().map(|difference| difference_words(difference, first, second)).collect(),
    };
    (true, page("stricter", lines))
}

fn page(verdict: &str, lines: Vec<String>) -> String {
    format!("{verdict}\n{}\n", lines.join("\n"))
}

/// A reason in words, with the names of the task that they are about.
fn reason_words(reason: &Reason, first: &NamedTask, second: &NamedTask) -> String {
    let both = |of: fn(&NamedTask) -> u64| [first, second].map(|one| one.names.facts_of(of(one)));
    let lacks = |on, off| format!("goal lacks {}, which the second wants", first.names.on_and_off(on, off));
    match *reason {
        Reason::Facts => format!("facts are {}, in the second {}", first.task.facts, second.task.facts),
        Reason::Init => {
            let [own, other] = both(|one| one.task.init);
            format!("init is {own}, in the second {other}")
        }
        Reason::Unknown => {
            let [own, other] = both(|one| one.task.unknown);
            format!("unknown is {own}, in the second {other}")
        }
        Reason::Goal { missing } => lacks(missing, 0),
        Reason::GoalOff { missing } => lacks(0, missing),
        Reason::Action { action, nearest } => {
            let title = action_title(action, &first.names);
            let why = nearest_words(first, action, second, nearest);
            format!("{title} comes from no action of the second: {why}")
        }
    }
}

/// What keeps an action from coming from the nearest one, or from any.
fn nearest_words(first: &NamedTask, action: usize, second: &NamedTask, nearest: Option<Nearest>) -> String {
    match nearest {
        Some(Nearest { action, missing, .. }) => {
            let needs = second.names.on_and_off(missing.on, missing.off);
            format!("the nearest, {}, needs {needs} as well", action_title(action, &second.names))
        }
        None => {
            let action = &first.task.actions[action];
            let [add, del] = [action.add, action.del].map(|facts| first.names.facts_of(facts));
            format!("none adds {add} and deletes {del}")
        }
    }
}

/// A difference in words, with the names of the task that they are about.
fn difference_words(difference: &Difference, first: &NamedTask, second: &NamedTask) -> String {
    let wants = |on, off| format!("goal wants {} as well", first.names.on_and_off(on, off));
    match *difference {
        Difference::Goal { added } => wants(added, 0),
        Difference::GoalOff { added } => wants(0, added),
        Difference::Needs { action, from } => {
            let [own, other] = [action_title(action, &first.names), action_title(from.action, &second.names)];
            let needs = first.names.on_and_off(from.added.on, from.added.off);
            format!("{own} is {other} of the second, and needs {needs} as well")
        }
        Difference::TakenAway { action } => {
            format!("{} of the second is taken away", action_title(action, &second.names))
        }
    }
}
