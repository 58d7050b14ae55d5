//! Pictures of a file as Graphviz DOT: the task's states within reach, and the derivation. Colour marks what a label
//! says in words as well.

pub mod derivation;
pub mod dot;
pub mod entries;
pub mod task;

use crate::layout;
use crate::names::Names;
use crate::words::describe;

/// Which graph is drawn.
#[derive(Clone, Copy, Debug, PartialEq, Eq)]
pub enum Graph {
    /// The states within reach; the command's word for it is `table`, as document 01 calls a task.
    Task,
    /// The derivation; the command's word for it is `steps`.
    Derivation,
    /// The one after the other, the task where its states are few enough.
    Both,
}

/// The DOT text of a file, or why there is none.
pub fn draw(bytes: &[u8], names: &Names, graph: Graph) -> Result<String, String> {
    let file = layout::read(bytes).map_err(|fault| describe(&fault, None))?;
    let derivation = || derivation::graph(&file, names);
    match graph {
        Graph::Task => task::graph(&file.task, names),
        Graph::Derivation => Ok(derivation()),
        Graph::Both => {
            let task = task::graph(&file.task, names);
            Ok(task.unwrap_or_else(|why| format!("// No table: {why}.\n")) + &derivation())
        }
    }
}
