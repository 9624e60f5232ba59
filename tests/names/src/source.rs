//! What a file declares, line by line.

/// The names that a line of a file declares, by the file's ending.
pub fn declared<'a>(ending: &str, line: &'a str) -> Vec<&'a str> {
    match ending {
        "antt" => in_antt(line),
        "rt" | "rs" => in_rust(line).into_iter().collect(),
        "h" | "c" => in_c(line).into_iter().collect(),
        _ => Vec::new(),
    }
}

/// `pub NAME :`, `abbrev NAME :`, `record NAME`, `data NAME`, a field, and constructors, of which a line may have several.
fn in_antt(line: &str) -> Vec<&str> {
    let mut words = line.split_whitespace().peekable();
    while words
        .peek()
        .is_some_and(|w| matches!(*w, "pub" | "abbrev" | "unfoldable"))
    {
        words.next();
    }
    if words
        .peek()
        .is_some_and(|w| matches!(*w, "record" | "data"))
    {
        return words.nth(1).into_iter().collect();
    }
    let rest: Vec<&str> = words.collect();
    match rest.iter().position(|w| *w == ":") {
        Some(n) if n > 0 && rest[..n].iter().all(|w| is_name(w)) => rest[..n].to_vec(),
        _ => Vec::new(),
    }
}

fn is_name(word: &str) -> bool {
    !word.starts_with("--") && !word.contains(['(', ')', '{', '}', ',', '=', ';', '"'])
}

/// `fn NAME`, `const NAME`, `struct NAME`, `enum NAME`, public or not.
fn in_rust(line: &str) -> Option<&str> {
    let mut words = line.split_whitespace();
    if line.trim_start().starts_with("//") {
        return None;
    }
    words.find(|w| matches!(*w, "fn" | "const" | "struct" | "enum" | "type" | "static"))?;
    identifier(words.next()?)
}

/// A function that is declared at the start of a line, `NAME =` of an enum, `#define NAME`.
fn in_c(line: &str) -> Option<&str> {
    if let Some(rest) = line.strip_prefix("#define ") {
        return identifier(rest);
    }
    if let Some((name, _)) = line.split_once(" = ") {
        return identifier(name.trim()).filter(|n| n.starts_with("OKROZUMBA_"));
    }
    exported(line)
}

/// The function that a line of a header declares for the linker.
pub fn exported(line: &str) -> Option<&str> {
    if line.starts_with([' ', '/', '#', '}'])
        || line.starts_with("static")
        || line.starts_with("typedef")
    {
        return None;
    }
    let (before, _) = line.split_once('(')?;
    let name = before.rsplit([' ', '*']).next()?;
    identifier(name).filter(|n| n.starts_with("okrozumba_"))
}

fn identifier(text: &str) -> Option<&str> {
    let end = text
        .find(|c: char| !c.is_alphanumeric() && c != '_')
        .unwrap_or(text.len());
    (end > 0).then_some(&text[..end])
}

/// The public function that a line of Rattle declares.
pub fn public_function(line: &str) -> Option<&str> {
    let rest = line.strip_prefix("pub ")?;
    let rest = rest.strip_prefix("extern \"C\" ").unwrap_or(rest);
    identifier(rest.strip_prefix("fn ")?)
}
