//! What both graphs share of the DOT language: their first lines, labels and colours.

pub const RED: &str = "color=\"#c00000\" fontcolor=\"#c00000\"";
pub const GREY: &str = "color=\"#a0a0a0\" fontcolor=\"#a0a0a0\"";

/// The first lines of a graph, with a caption beneath the picture.
pub fn head(name: &str, direction: &str, caption: &[String]) -> String {
    let font = "fontname=\"Helvetica\"";
    let caption: String = caption.iter().map(|line| escaped(line) + "\\l").collect();
    format!(
        "digraph {name} {{\n  \
         graph [rankdir={direction} {font} fontsize=11 labelloc=b labeljust=l label=\"{caption}\"];\n  \
         node [shape=box style=rounded {font} fontsize=11 margin=\"0.12,0.06\" height=0.3];\n  \
         edge [{font} fontsize=10 arrowsize=0.7];\n"
    )
}

/// A label of centred lines.
pub fn label(lines: &[String]) -> String {
    let lines: Vec<String> = lines.iter().map(|line| escaped(line)).collect();
    format!("label=\"{}\"", lines.join("\\n"))
}

fn escaped(text: &str) -> String {
    text.replace('\\', "\\\\").replace('"', "\\\"")
}

/// The words of a text in lines of at most `width` characters where its words allow it.
pub fn wrapped(text: &str, width: usize) -> Vec<String> {
    let mut lines: Vec<String> = Vec::new();
    for word in text.split(' ') {
        match lines.last_mut() {
            Some(line) if line.len() + 1 + word.len() <= width => {
                line.push(' ');
                line.push_str(word);
            }
            _ => lines.push(word.to_string()),
        }
    }
    lines
}
