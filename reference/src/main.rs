//! The command line: check, whole, by the small limits or a round of it, and ask, seeded cases, their replies and pairs of these, the
//! text form with names, graphs, a caller's own rule numbers, and whether one table is stricter than another.

use std::io::{self, BufRead, BufWriter, Read, Write};
use std::process::ExitCode;

use reference::draw::{draw, Graph};
use reference::generate::limits::{workload, WORKLOADS};
use reference::generate::listed::listed;
use reference::generate::numbered::numbered;
use reference::generate::off::off;
use reference::generate::older::{older, unchanged};
use reference::generate::random::Random;
use reference::generate::relisted::{alike, relisted};
use reference::generate::rounds::rounds;
use reference::generate::small::small;
use reference::generate::twins::{twinned, twins};
use reference::generate::unknown::unknown;
use reference::generate::{cases, damaged, Case};
use reference::named::NamedTask;
use reference::names::Names;
use reference::{
    ask, assemble, check, check_numbered, check_round, check_small, cost, explain, named, numbering, show,
    stricter, Reply,
};

const USAGE: &str = "usage: reference check [--numbers LIST | --small] FILE | round FILE FROM COUNT | ask FILE ENTRY STATE | \
gen SEED COUNT | numbered SEED COUNT | rounds SEED COUNT | small SEED COUNT | listed SEED COUNT | unknown SEED COUNT | \
off SEED COUNT | relisted SEED COUNT | twins SEED COUNT | older SEED COUNT | damaged FILE SEED COUNT | replies | records | \
alike CASES REPLIES | twinned CASES REPLIES | unchanged CASES REPLIES | assemble TEXTFILE | names TEXTFILE | show [--numbers LIST] FILE [NAMES] | explain [--numbers LIST | --small] FILE [NAMES] | \
draw FILE [table|steps] [NAMES] | stricter TABLE TABLE | cost FILE | renumber LIST FILE | workload NUMBER SEED   \
(FILE or TABLE may be - for standard input; LIST is numbers with commas or spaces between, or a file of bytes)";

const EXPLAIN_USAGE: &str =
    "usage: explain [--numbers LIST | --small] FILE [NAMES]   (FILE may be - for standard input)";

const STRICTER_USAGE: &str =
    "usage: stricter TABLE TABLE   (a file, its bytes up to the actions, or a text; one may be - for standard input)";

/// How a file is checked.
enum How {
    Plain,
    /// With a caller's list of rule numbers.
    Numbered(Vec<u8>),
    /// By the small limits.
    Small,
}

/// What stops a command: a wrong call, or a message.
enum Stop {
    Usage,
    Message(String),
}

impl From<io::Error> for Stop {
    fn from(error: io::Error) -> Stop {
        Stop::Message(error.to_string())
    }
}

fn main() -> ExitCode {
    let arguments: Vec<String> =
        std::env::args_os().skip(1).map(|a| a.to_string_lossy().into_owned()).collect();
    let words: Vec<&str> = arguments.iter().map(|a| a.as_str()).collect();
    match &words[..] {
        ["explain", rest @ ..] => {
            return explain_file(rest).unwrap_or_else(|stop| trouble("explain", EXPLAIN_USAGE, stop))
        }
        ["stricter", rest @ ..] => {
            return compare_tables(rest).unwrap_or_else(|stop| trouble("stricter", STRICTER_USAGE, stop))
        }
        _ => (),
    }
    match run(&words) {
        Ok(()) => ExitCode::SUCCESS,
        Err(Stop::Usage) => {
            eprintln!("{USAGE}");
            ExitCode::from(2)
        }
        Err(Stop::Message(message)) => {
            eprintln!("reference: {message}");
            ExitCode::FAILURE
        }
    }
}

/// Prints an explanation: status 0 for an accepted file, 1 for a refused one.
fn explain_file(words: &[&str]) -> Result<ExitCode, Stop> {
    let mut out = BufWriter::new(io::stdout().lock());
    if let ["-h" | "--help"] = words {
        writeln!(out, "{EXPLAIN_USAGE}")?;
        return Ok(ExitCode::SUCCESS);
    }
    let (how, bytes, names) = read_all(words)?;
    let text = match how {
        How::Plain => explain::explain(&bytes, &names),
        How::Numbered(numbers) => explain::explain_numbered(&bytes, &numbers, &names),
        How::Small => explain::explain_small(&bytes, &names),
    };
    out.write_all(text.as_bytes())?;
    out.flush()?;
    let accepted = text.lines().next() == Some("accepted");
    Ok(if accepted { ExitCode::SUCCESS } else { ExitCode::from(1) })
}

/// Tells whether the first table is stricter than the second: status 0 where it is, 1 where it is not.
fn compare_tables(words: &[&str]) -> Result<ExitCode, Stop> {
    let mut out = BufWriter::new(io::stdout().lock());
    let [first, second] = match words {
        ["-h" | "--help"] => {
            writeln!(out, "{STRICTER_USAGE}")?;
            return Ok(ExitCode::SUCCESS);
        }
        ["-", "-"] => return Err(Stop::Usage),
        [first, second] => [read_task(first)?, read_task(second)?],
        _ => return Err(Stop::Usage),
    };
    let (is_stricter, text) = stricter::told(&first, &second);
    out.write_all(text.as_bytes())?;
    out.flush()?;
    Ok(if is_stricter { ExitCode::SUCCESS } else { ExitCode::from(1) })
}

/// Status 2 for whatever keeps a command from answering by its other statuses.
fn trouble(command: &str, usage: &str, stop: Stop) -> ExitCode {
    match stop {
        Stop::Usage => eprintln!("{usage}"),
        Stop::Message(message) => eprintln!("{command}: {message}"),
    }
    ExitCode::from(2)
}

fn run(words: &[&str]) -> Result<(), Stop> {
    let mut out = BufWriter::new(io::stdout().lock());
    if let [word, first, second] = words {
        if let Some(cases) = seeded(word) {
            write_lines(&mut out, cases(number(first)?, number(second)?))?;
            return Ok(out.flush()?);
        }
        if let Some((fit, differ)) = comparing(word) {
            return compare_pairs(&read(first)?, &read_text(second)?, fit, differ);
        }
    }
    match words {
        ["-h" | "--help"] => writeln!(out, "{USAGE}")?,
        ["check", rest @ ..] => writeln!(out, "{}", checked(rest)?)?,
        ["round", file, from, count] => {
            let (from, count) = (number(from)?, number(count)?);
            writeln!(out, "{}", check_round(&read(file)?, from, count))?;
        }
        ["ask", file, entry, state] => {
            let (entry, state) = (number(entry)?, number(state)?);
            writeln!(out, "{}", ask(&read(file)?, entry, state))?;
        }
        ["damaged", file, seed, count] => {
            write_lines(&mut out, damaged(&read(file)?, number(seed)?, number(count)?))?;
        }
        ["replies"] => {
            for case in cases_of(io::stdin().lock()) {
                writeln!(out, "{}", case?.reply())?;
            }
        }
        ["records"] => {
            for case in cases_of(io::stdin().lock()) {
                out.write_all(&case?.record())?;
            }
        }
        ["assemble", file] => {
            out.write_all(&assemble::assemble(&read_text(file)?).map_err(Stop::Message)?)?;
        }
        ["names", file] => {
            let (_, names) = assemble::parse_named(&read_text(file)?).map_err(Stop::Message)?;
            write!(out, "{names}")?;
        }
        ["show", rest @ ..] => out.write_all(shown(rest)?.as_bytes())?,
        ["draw", file, rest @ ..] => out.write_all(drawn(file, rest)?.as_bytes())?,
        ["cost", file] => write_cost(&mut out, &read(file)?)?,
        ["renumber", list, file] => {
            let numbers = read_list(list)?;
            out.write_all(&numbering::renumber(&read(file)?, &numbers).map_err(Stop::Message)?)?;
        }
        ["workload", which, seed] => {
            let which = number(which)?;
            if !WORKLOADS.contains(&(which as usize)) {
                return Err(Stop::Usage);
            }
            let draft = workload(&mut Random::new(number(seed)?), which as usize);
            out.write_all(&draft.encode())?;
        }
        _ => return Err(Stop::Usage),
    }
    out.flush()?;
    Ok(())
}

type Cases = Box<dyn Iterator<Item = Case>>;

/// The seeded cases that a command's word stands for.
fn seeded(word: &str) -> Option<fn(u64, u64) -> Cases> {
    Some(match word {
        "gen" => |seed, count| Box::new(cases(seed, count)),
        "numbered" => |seed, count| Box::new(numbered(seed, count)),
        "rounds" => |seed, count| Box::new(rounds(seed, count)),
        "small" => |seed, count| Box::new(small(seed, count)),
        "listed" => |seed, count| Box::new(listed(seed, count)),
        "unknown" => |seed, count| Box::new(unknown(seed, count)),
        "off" => |seed, count| Box::new(off(seed, count)),
        "relisted" => |seed, count| Box::new(relisted(seed, count)),
        "twins" => |seed, count| Box::new(twins(seed, count)),
        "older" => |seed, count| Box::new(older(seed, count)),
        _ => return None,
    })
}

/// Whether two replies to a pair of cases fit each other.
type Fit = fn([&Case; 2], [&str; 2]) -> bool;

/// How a command's word compares replies to pairs, and what a pair is to be.
fn comparing(word: &str) -> Option<(Fit, &'static str)> {
    Some(match word {
        "alike" => (alike, "their files differ in the order of listed states alone"),
        "twinned" => (twinned, "the second file is to be the first in version 2, with no unknown fact"),
        "unchanged" => {
            (unchanged, "the second file is to be the first in version 3, with no fact needed off")
        }
        _ => return None,
    })
}

/// The cases in their line form.
fn write_lines(out: &mut impl Write, cases: impl Iterator<Item = Case>) -> io::Result<()> {
    cases.map(|case| case.line()).try_for_each(|line| writeln!(out, "{line}"))
}

/// At most how many looks at clauses a file takes, and its dearest step.
fn write_cost(out: &mut impl Write, bytes: &[u8]) -> io::Result<()> {
    let costs = match cost::of(bytes) {
        Ok(costs) => costs,
        Err(fault) => return writeln!(out, "refused {} {}", fault.number, fault.place),
    };
    writeln!(out, "at most {} looks at clauses", costs.iter().map(|cost| cost.looks).sum::<u64>())?;
    match costs.iter().max_by_key(|cost| cost.looks) {
        Some(most) => writeln!(out, "step {}: at most {}", most.step, most.looks),
        None => Ok(()),
    }
}

/// The reply for the arguments `[--numbers LIST | --small] FILE`.
fn checked(words: &[&str]) -> Result<Reply, Stop> {
    match with_how(words)? {
        (How::Plain, [file]) => Ok(check(&read(file)?)),
        (How::Numbered(numbers), [file]) => Ok(check_numbered(&read(file)?, &numbers)),
        (How::Small, [file]) => Ok(check_small(&read(file)?)),
        _ => Err(Stop::Usage),
    }
}

/// The text form for the arguments `[--numbers LIST] FILE [NAMES]`.
fn shown(words: &[&str]) -> Result<String, Stop> {
    let (how, bytes, names) = read_all(words)?;
    match how {
        How::Plain => Ok(show::show_named(&bytes, &names)),
        How::Numbered(numbers) => Ok(show::show_numbered(&bytes, &numbers, &names)),
        How::Small => Err(Stop::Usage),
    }
}

/// What the arguments begin with, `--numbers LIST`, `--small` or neither, and the other arguments.
fn with_how<'a>(words: &'a [&'a str]) -> Result<(How, &'a [&'a str]), Stop> {
    match words {
        ["--numbers", list, rest @ ..] => Ok((How::Numbered(read_list(list)?), rest)),
        ["--numbers"] => Err(Stop::Usage),
        ["--small", rest @ ..] => Ok((How::Small, rest)),
        _ => Ok((How::Plain, words)),
    }
}

/// A word of digits, commas and spaces is a list itself; any other names a file that holds its bytes.
fn read_list(word: &str) -> Result<Vec<u8>, Stop> {
    match word {
        "-" => Err(Stop::Message("a list does not come from standard input".into())),
        _ if word.bytes().all(|byte| byte.is_ascii_digit() || b", ".contains(&byte)) => {
            let none = || Stop::Message(format!("'{word}' is no list of numbers from 0 to 255"));
            numbering::parse(word).ok_or_else(none)
        }
        _ => read(word),
    }
}

/// A number, decimal or hexadecimal.
fn number(word: &str) -> Result<u64, Stop> {
    let value = match word.strip_prefix("0x") {
        Some(digits) => u64::from_str_radix(digits, 16),
        None => word.parse(),
    };
    value.map_err(|_| Stop::Usage)
}

fn read(file: &str) -> Result<Vec<u8>, Stop> {
    if file == "-" {
        let mut bytes = Vec::new();
        io::stdin().lock().read_to_end(&mut bytes)?;
        return Ok(bytes);
    }
    std::fs::read(file).map_err(|error| Stop::Message(format!("{file}: {error}")))
}

fn read_text(file: &str) -> Result<String, Stop> {
    String::from_utf8(read(file)?).map_err(|_| Stop::Message("the text is not UTF-8".into()))
}

/// How to check, the bytes and the names for the arguments `[--numbers LIST | --small] FILE [NAMES]`.
fn read_all(words: &[&str]) -> Result<(How, Vec<u8>, Names), Stop> {
    let (how, rest) = with_how(words)?;
    let (bytes, names) = match rest {
        [file] => read_named(file, None)?,
        [file, names] => read_named(file, Some(names))?,
        _ => return Err(Stop::Usage),
    };
    Ok((how, bytes, names))
}

/// A file's bytes, of a text too, and the names that belong to it.
fn read_named(file: &str, names: Option<&&str>) -> Result<(Vec<u8>, Names), Stop> {
    named::open(file, read(file)?, names.copied()).map_err(Stop::Message)
}

/// The task of a table, of a text too, and the names that belong to it.
fn read_task(table: &str) -> Result<NamedTask, Stop> {
    named::open_task(table, read(table)?).map_err(Stop::Message)
}

/// The DOT text for the arguments after a file, `[table|steps] [NAMES]`.
fn drawn(file: &str, rest: &[&str]) -> Result<String, Stop> {
    let (graph, names) = match rest {
        ["table", names @ ..] => (Graph::Task, names),
        ["steps", names @ ..] => (Graph::Derivation, names),
        names => (Graph::Both, names),
    };
    if names.len() > 1 {
        return Err(Stop::Usage);
    }
    let (bytes, names) = read_named(file, names.first())?;
    draw(&bytes, &names, graph).map_err(Stop::Message)
}

/// The cases, one a line.
fn cases_of(lines: impl BufRead) -> impl Iterator<Item = Result<Case, Stop>> {
    lines.lines().enumerate().map(|(number, line)| {
        let case = Case::parse(&line?);
        case.ok_or(Stop::Message(format!("line {}: no case", number + 1)))
    })
}

/// Each two cases are a pair that `relisted`, `twins` or `older` wrote; the first one whose replies do not fit is told.
fn compare_pairs(cases: &[u8], replies: &str, fit: Fit, differ: &str) -> Result<(), Stop> {
    let cases = cases_of(cases).collect::<Result<Vec<Case>, Stop>>()?;
    let replies: Vec<&str> = replies.lines().collect();
    if cases.len() != replies.len() || cases.len() % 2 != 0 {
        let counts = format!("{} cases and {} replies are no pairs", cases.len(), replies.len());
        return Err(Stop::Message(counts));
    }
    for (k, (pair, said)) in cases.chunks_exact(2).zip(replies.chunks_exact(2)).enumerate() {
        let [first, second] = [said[0], said[1]];
        if !fit([&pair[0], &pair[1]], [first, second]) {
            let lines = format!("lines {} and {}", 2 * k + 1, 2 * k + 2);
            return Err(Stop::Message(format!("{lines}: '{first}' and '{second}', where {differ}")));
        }
    }
    Ok(())
}
