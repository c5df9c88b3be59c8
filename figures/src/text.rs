//! Prose in lines of at most 120 characters.

const WIDTH: usize = 120;

/// Each line behind the first begins with `indent`.
pub fn wrapped(prose: &str, indent: &str) -> String {
    let mut text = String::new();
    let mut width = 0;
    for word in prose.split_whitespace() {
        let length = word.chars().count();
        if width > 0 && width + 1 + length > WIDTH {
            text.push('\n');
            text.push_str(indent);
            width = indent.len();
        } else if width > 0 {
            text.push(' ');
            width += 1;
        }
        text.push_str(word);
        width += length;
    }
    text
}

pub fn paragraph(prose: &str) {
    println!("{}\n", wrapped(prose, ""));
}
