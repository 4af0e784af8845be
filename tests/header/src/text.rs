//! Program text: without comments, as words and marks, in parts.

/// Text without its comments; `//` to the end of a line, and between `/*` and `*/`.
pub fn without_comments(text: &str) -> String {
    let mut left = text;
    let mut kept = String::new();
    while let Some(at) = left.find("//").into_iter().chain(left.find("/*")).min() {
        kept.push_str(&left[..at]);
        let (end, length) = if left[at..].starts_with("//") {
            ("\n", 0)
        } else {
            ("*/", 2)
        };
        left = left[at..]
            .find(end)
            .map_or("", |stop| &left[at + stop + length..]);
    }
    kept + left
}

/// The words and marks of a text, a blank between each.
pub fn tokens(text: &str) -> String {
    let mut spaced = String::new();
    for letter in text.chars() {
        if letter.is_alphanumeric() || letter == '_' {
            spaced.push(letter);
        } else {
            spaced.extend([' ', letter, ' ']);
        }
    }
    spaced.split_whitespace().collect::<Vec<_>>().join(" ")
}

/// The parts of a text between marks, outside all brackets; empty parts fall away.
pub fn parts(text: &str, mark: char) -> Vec<String> {
    let mut depth = 0;
    let mut parts = vec![String::new()];
    for letter in text.chars() {
        match letter {
            '(' | '[' | '{' => depth += 1,
            ')' | ']' | '}' => depth -= 1,
            _ => {}
        }
        if letter == mark && depth == 0 {
            parts.push(String::new());
        } else if let Some(part) = parts.last_mut() {
            part.push(letter);
        }
    }
    parts
        .into_iter()
        .map(|part| part.trim().to_string())
        .filter(|part| !part.is_empty())
        .collect()
}

/// What stands between two marks, the second of which is searched after the first; and the text after it.
pub fn between<'a>(text: &'a str, first: &str, second: &str) -> Option<(&'a str, &'a str)> {
    let (_, after) = text.split_once(first)?;
    after.split_once(second)
}
