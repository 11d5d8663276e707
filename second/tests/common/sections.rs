//! Vectors with their answers, under the comments that stand before them.

use second::trial::each_answer;

/// The letters of vectors that change what is held and have no answer.
const CHANGES: [char; 12] = ['C', 'P', 'F', 'R', 'Z', 'E', 'W', 'K', 'V', 'U', 'X', 'Y'];

/// Calls with their answers, in order, under the comment that stands before them.
pub struct Section {
    pub words: String,
    pub calls: Vec<(String, String)>,
}

/// The sections of vectors; an answer is without its last newline.
pub fn answered(vectors: &str) -> Vec<Section> {
    let answers = each_answer(vectors.as_bytes()).expect("every line is a vector");
    let mut sections = Vec::new();
    for (line, answer) in vectors.lines().zip(answers) {
        if let Some(words) = line.strip_prefix("# ") {
            let words = words.to_string();
            let calls = Vec::new();
            sections.push(Section { words, calls });
        } else if line.starts_with(CHANGES) {
            assert_eq!(answer, "", "{line}");
        } else if let Some(section) = sections.last_mut() {
            let answer = answer.strip_suffix('\n').unwrap_or(&answer);
            section.calls.push((line.to_string(), answer.to_string()));
        }
    }
    sections
}

/// The answers of all sections with these words to the calls with this letter.
pub fn answers_to<'a>(sections: &'a [Section], letter: &str, words: &str) -> Vec<&'a str> {
    sections
        .iter()
        .filter(|section| section.words == words)
        .flat_map(|section| &section.calls)
        .filter(|(call, _)| call.starts_with(letter))
        .map(|(_, answer)| &answer[..])
        .collect()
}

/// An answer without its place, its line or its other numbers.
pub fn kind(answer: &str) -> String {
    let words: Vec<&str> = answer.split(' ').collect();
    let kept = if words[0] == "refused" { 2 } else { 1 };
    words[..kept].join(" ")
}

/// The refusal number that stands in brackets at the end of some words.
pub fn number_in(words: &str) -> &str {
    let (_, number) = words.rsplit_once('(').expect("a number in brackets");
    number.strip_suffix(')').expect("a bracket after it")
}
