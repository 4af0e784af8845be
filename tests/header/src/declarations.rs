//! How the library's functions and structs are declared in C and in Rust, and how they are found there.

use crate::library::Function;
use crate::text::{between, parts, tokens};

/// The fields of a struct, by name and type.
pub type Fields = [(String, String)];

/// A language that the library is declared in.
pub struct Language {
    /// A number, by its type in the source.
    number: fn(&str) -> Option<&'static str>,
    /// A pointer that is only read, or written as well, to elements of a type, and the count of them.
    slice: fn(name: &str, element: &str, written: bool) -> String,
    /// A pointer to an array of so many elements.
    array: fn(name: &str, element: &str) -> String,
    /// A single parameter or field.
    single: fn(name: &str, of_type: &str) -> String,
    function: fn(name: &str, parameters: &str, result: &str) -> String,
    structure: fn(name: &str, fields: &[String]) -> String,
    /// What the structs are called there.
    structs: [(&'static str, &'static str); 2],
}

pub const C: Language = Language {
    number: |of_type| match of_type {
        "u8" => Some("uint8_t"),
        "u32" => Some("uint32_t"),
        "u64" => Some("uint64_t"),
        "bool" => Some("bool"),
        _ => None,
    },
    slice: |name, element, written| {
        let before = if written { "" } else { "const " };
        format!("{before}{element} *{name}, size_t {name}_len")
    },
    array: |name, element| format!("{element} {name}[ZANKURBE_POST_NUMBERS]"),
    single: |name, of_type| format!("{of_type} {name}"),
    function: |name, parameters, result| {
        let parameters = if parameters.is_empty() {
            "void"
        } else {
            parameters
        };
        format!("{result} {name}({parameters})")
    },
    structure: |name, fields| format!("{name} {{ {}; }}", fields.join("; ")),
    structs: [
        ("Answer", "struct zankurbe_answer"),
        ("Verdict", "struct zankurbe_verdict"),
    ],
};

pub const RUST: Language = Language {
    number: |of_type| match of_type {
        "u8" => Some("u8"),
        "u32" => Some("u32"),
        "u64" => Some("u64"),
        "bool" => Some("bool"),
        _ => None,
    },
    slice: |name, element, written| {
        let pointer = if written { "*mut" } else { "*const" };
        format!("{name}: {pointer} {element}, {name}_len: usize")
    },
    array: |name, element| format!("{name}: *mut [{element}; POSTED_NUMBERS]"),
    single: |name, of_type| format!("{name}: {of_type}"),
    function: |name, parameters, result| format!("fn {name}({parameters}) -> {result}"),
    structure: |name, fields| format!("#[repr(C)] struct {name} {{ {} }}", fields.join(", ")),
    structs: [("Answer", "RawAnswer"), ("Verdict", "RawVerdict")],
};

impl Language {
    fn named(&self, of_type: &str) -> Result<&'static str, String> {
        let structure = self.structs.iter().find(|it| it.0 == of_type);
        (self.number)(of_type)
            .or(structure.map(|it| it.1))
            .ok_or(format!("a type that can't be declared: {of_type}"))
    }

    fn parameter(&self, name: &str, of_type: &str) -> Result<String, String> {
        let (written, lent) = match (of_type.strip_prefix("&mut "), of_type.strip_prefix('&')) {
            (Some(lent), _) => (true, lent),
            (None, Some(lent)) => (false, lent),
            (None, None) => return Ok((self.single)(name, self.named(of_type)?)),
        };
        let inner = lent
            .strip_prefix('[')
            .and_then(|rest| rest.strip_suffix(']'))
            .ok_or(format!("a type that can't be lent: {of_type}"))?;
        match inner.split_once(';') {
            None => Ok((self.slice)(name, self.named(inner)?, written)),
            Some((element, count)) if written && count.trim() == "NUMBERS" => {
                Ok((self.array)(name, self.named(element)?))
            }
            Some(_) => Err(format!("an array that can't be lent: {of_type}")),
        }
    }

    /// The declaration of a function, as words and marks.
    pub fn function(&self, function: &Function) -> Result<String, String> {
        let parameters = function.parameters.iter();
        let parameters: Vec<String> = parameters
            .map(|(name, of_type)| self.parameter(name, of_type))
            .collect::<Result<_, _>>()?;
        let result = self.named(&function.result)?;
        let declared = (self.function)(&function.name, &parameters.join(", "), result);
        Ok(tokens(&declared))
    }

    /// The declaration of a struct, as words and marks.
    pub fn structure(&self, name: &str, fields: &Fields) -> Result<String, String> {
        let fields: Vec<String> = fields
            .iter()
            .map(|(name, of_type)| Ok((self.single)(name, self.named(of_type)?)))
            .collect::<Result<_, String>>()?;
        Ok(tokens(&(self.structure)(self.named(name)?, &fields)))
    }
}

/// All that a header declares, as words and marks; `header` has no comments.
pub fn of_header(header: &str) -> Vec<String> {
    let mut text = String::new();
    let mut in_directive = false;
    for line in header.lines() {
        let begins = line.trim_start().starts_with('#');
        if !in_directive && !begins {
            text.push_str(line);
            text.push('\n');
        }
        in_directive = (in_directive || begins) && line.ends_with('\\');
    }
    let text = text.replacen("extern \"C\" {", "", 1);
    // The brace that closes it stands alone at the end.
    let text = text.trim_end().strip_suffix('}').unwrap_or(&text);
    parts(text, ';').iter().map(|part| tokens(part)).collect()
}

/// All that the Rust declarations have of the library: the structs that C can read, and the functions.
pub fn of_rust(source: &str) -> Vec<String> {
    let mut found = Vec::new();
    let mut left = source;
    while let Some((structure, rest)) = between(left, "#[repr(C)]", "}") {
        let structure = tokens(&format!("#[repr(C)] {structure} }}"));
        found.push(structure.replace(" , }", " }"));
        left = rest;
    }
    left = source;
    while let Some((block, rest)) = between(left, "extern \"C\" {", "\n}") {
        let functions = parts(block, ';');
        let closed = functions
            .iter()
            .map(|function| tokens(function).replace(" , )", " )"));
        found.extend(closed);
        left = rest;
    }
    found
}
