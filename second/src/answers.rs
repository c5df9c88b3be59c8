//! The answers of the stand-in program in classes, so that a run can be asked which of them it reached.

/// How many bytes of data a response has, status bytes not counted.
const DATA_LENGTHS: [(usize, usize); 15] = [
    (0, 0),
    (1, 1),
    (2, 5),
    (6, 6), // the PUK record
    (7, 9),
    (10, 10), // a PIN record
    (11, 20),
    (21, 21), // the 0033h record
    (22, 63),
    (64, 64),
    (65, 244),
    (245, 245), // the longest deciphered message
    (246, 254),
    (255, 255),
    (256, 256),
];

/// How many bytes an image has.
const IMAGE_LENGTHS: [(usize, usize); 4] = [
    (84, 84),
    (85, 1114),
    (1115, 1117), // 1,115 is the longest without its last section
    (1118, 1118),
];

const LETTERS: &[u8; 8] = b"PCDLASBI";

/// Every class that lines can reach.
pub fn wanted() -> Vec<String> {
    let answers = [
        ("P", "P H1 ?"),
        ("C", "9000 61xx 6282 63C0 63C1 63C2 63C3 6700 6884 6981 6982 6983 6985 6986 6A80 6A82 6A83 6A86 6A88 6B00 6D00 6E00"),
        ("C", "H1 H2 H3 H4 ?"),
        ("D", "9000 6100 61xx 6400 6A80 H1 H2 H5 ?"),
        ("L", "L F21 F22 F23 F24 F25 F26 F27 F28 ?"),
        ("A", "A ?"),
        ("S", "S ?"),
        ("B", "B ?"),
        ("I", "I H1 H2 ?"),
        ("other", "?"),
        ("J1", "1100 1200"),
        ("J2", "0100 0200"),
        ("J3", "1100 1200"),
    ];
    let lettered = answers.iter().flat_map(|(letter, list)| list.split(' ').map(move |answer| format!("{letter} {answer}")));
    let data = DATA_LENGTHS.iter().map(|range| length_class("data", range));
    let images = IMAGE_LENGTHS.iter().map(|range| length_class("image", range));
    lettered.chain(data).chain(images).collect()
}

/// The classes that a line and its answer belong to.
pub fn reached(line: &[u8], answer: &str) -> Vec<String> {
    let letter = match line.first() {
        Some(letter) if LETTERS.contains(letter) => (*letter as char).to_string(),
        _ => "other".to_string(),
    };
    match answer.as_bytes() {
        [b'R', response @ ..] if response.len() >= 4 => {
            let (data, word) = answer[1..].split_at(response.len() - 4);
            vec![format!("{letter} {}", word_class(word)), class_of_length("data", &DATA_LENGTHS, data)]
        }
        [b'I', ..] => vec![format!("{letter} I"), class_of_length("image", &IMAGE_LENGTHS, &answer[1..])],
        [b'J', ..] => answer.get(..7).map(str::to_string).into_iter().collect(),
        _ => vec![format!("{letter} {answer}")],
    }
}

fn length_class(name: &str, (least, most): &(usize, usize)) -> String {
    if least == most { format!("{name} {least}") } else { format!("{name} {least} to {most}") }
}

/// By the number of bytes that the hex has; a number outside the ranges is a class that nobody wants.
fn class_of_length(name: &str, ranges: &[(usize, usize)], text: &str) -> String {
    let length = text.len() / 2;
    let range = ranges.iter().find(|(least, most)| (*least..=*most).contains(&length));
    length_class(name, range.unwrap_or(&(length, length)))
}

fn word_class(word: &str) -> &str {
    if word.starts_with("61") && word != "6100" { "61xx" } else { word }
}
