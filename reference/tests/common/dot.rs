//! Reads a graph back from the DOT text of `draw`.

use std::collections::BTreeMap;

/// A graph as it is read back from DOT.
#[derive(Debug, Default)]
pub struct Graph {
    pub caption: Vec<String>,
    /// The label's lines and the other attributes of each node.
    pub nodes: BTreeMap<String, (Vec<String>, String)>,
    /// Both ends, the label in one line and the other attributes, in the order of the text.
    pub edges: Vec<(String, String, String, String)>,
}

/// Reads the one form of DOT that `draw` writes: a statement a line, the label first among the attributes.
pub fn read(dot: &str) -> Graph {
    let mut graph = Graph::default();
    for line in dot.lines().filter_map(|line| line.strip_prefix("  ")) {
        let line = line.strip_suffix(';').unwrap_or(line);
        let (head, attributes) = line.split_once(" [").unwrap_or((line, "]"));
        let attributes = attributes.strip_suffix(']').expect("a list of attributes");
        let (label, rest) = match attributes.split_once("label=\"") {
            Some((before, label)) => {
                let (label, after) = label.split_once('"').expect("the label ends");
                (label, format!("{before}{after}"))
            }
            None => ("", attributes.to_string()),
        };
        let lines: Vec<String> = label.split("\\n").map(String::from).collect();
        match head.split_once(" -> ") {
            Some((from, to)) => graph.edges.push((from.into(), to.into(), lines.join(" "), rest)),
            None if head == "graph" => {
                graph.caption = label.split_terminator("\\l").map(String::from).collect();
            }
            None if ["node", "edge"].contains(&head) || head.starts_with('{') => (),
            None => assert!(graph.nodes.insert(head.into(), (lines, rest)).is_none(), "{head} twice"),
        }
    }
    graph
}
