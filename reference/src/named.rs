//! A command's file with the names that belong to it: `show`, `explain`, `draw` and `stricter` take their arguments from here.

use std::path::Path;

use crate::draft::Draft;
use crate::names::Names;
use crate::task::Task;
use crate::{assemble, layout, Reply};

/// A task and the names that its facts and actions go by.
#[derive(Clone, Debug, PartialEq, Eq)]
pub struct NamedTask {
    pub task: Task,
    pub names: Names,
}

/// The bytes and the names for an argument `file` whose content was read. A text (`.txt`) is assembled and brings its
/// own names; other files have theirs in `NAME.names` beside them, where there is one. An argument `names`, a file of
/// names or a text, takes the place of both.
pub fn open(file: &str, content: Vec<u8>, names: Option<&str>) -> Result<(Vec<u8>, Names), String> {
    let (bytes, names) = found(file, content, names)?;
    // Where the layout is not lawful there is no task to fit, and a command says the refusal.
    if let Ok(read) = layout::read(&bytes) {
        names.fit(&read.task)?;
    }
    Ok((bytes, names))
}

/// The task and its names for such an argument, whatever follows the task; a refusal is an error here.
pub fn open_task(file: &str, content: Vec<u8>) -> Result<NamedTask, String> {
    let (bytes, names) = found(file, content, None)?;
    let task = layout::read_task(&bytes).map_err(|fault| format!("{file}: {}", Reply::from(Err(fault))))?;
    names.fit(&task).map_err(|why| format!("{file}: {why}"))?;
    Ok(NamedTask { task, names })
}

/// The bytes and the names as they are found, before a task is known.
fn found(file: &str, content: Vec<u8>, names: Option<&str>) -> Result<(Vec<u8>, Names), String> {
    let (bytes, own) = if is_text(file) {
        let (draft, names) = text_of(file, content)?;
        (draft.encode(), Some(names))
    } else {
        (content, None)
    };
    let names = match (names, own) {
        (Some(names), _) => given(names)?,
        (None, Some(own)) => own,
        (None, None) => beside(file)?,
    };
    Ok((bytes, names))
}

/// The names in `NAME.names` beside a file `NAME.cert`; none where there is no such file, or for standard input.
pub fn beside(file: &str) -> Result<Names, String> {
    let path = Path::new(file).with_extension("names");
    if file == "-" || !path.is_file() {
        return Ok(Names::default());
    }
    given(&path.to_string_lossy())
}

/// The names in a file of names or in a text.
fn given(file: &str) -> Result<Names, String> {
    let content = std::fs::read(file).map_err(|error| format!("{file}: {error}"))?;
    if is_text(file) {
        return Ok(text_of(file, content)?.1);
    }
    Names::parse(&utf8(file, content)?).map_err(|why| format!("{file}: {why}"))
}

fn is_text(file: &str) -> bool {
    file.ends_with(".txt")
}

fn text_of(file: &str, content: Vec<u8>) -> Result<(Draft, Names), String> {
    assemble::parse_named(&utf8(file, content)?).map_err(|why| format!("{file}: {why}"))
}

fn utf8(file: &str, content: Vec<u8>) -> Result<String, String> {
    String::from_utf8(content).map_err(|_| format!("{file}: the text is not UTF-8"))
}
