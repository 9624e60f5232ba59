//! Text inside HTML, SVG and scripts.

/// Text as HTML and XML have it. Control characters, which XML has no place for, are left out.
pub fn escaped(text: &str) -> String {
    let mut out = String::new();
    for letter in text.chars() {
        match letter {
            '&' => out += "&amp;",
            '<' => out += "&lt;",
            '>' => out += "&gt;",
            '"' => out += "&quot;",
            letter if letter.is_control() => out.push('\u{fffd}'),
            letter => out.push(letter),
        }
    }
    out
}

/// Text as a script's string; no `<` stands in it, so that it cannot end the script.
pub fn quoted(text: &str) -> String {
    let mut out = String::from("\"");
    for letter in text.chars() {
        match letter {
            '"' => out += "\\\"",
            '\\' => out += "\\\\",
            letter if letter.is_control() || letter == '<' => {
                out += &format!("\\u{:04x}", letter as u32)
            }
            letter => out.push(letter),
        }
    }
    out.push('"');
    out
}

/// A list as a script has it.
pub fn array<T>(items: impl IntoIterator<Item = T>, written: impl Fn(T) -> String) -> String {
    let written: Vec<String> = items.into_iter().map(written).collect();
    format!("[{}]", written.join(","))
}

/// A page: its title, a style sheet behind the common one, and its body.
pub fn page(title: &str, style: &str, body: &str) -> String {
    let title = escaped(title);
    let common = include_str!("page.css");
    let colours = crate::picture::palette::css();
    format!(
        "<!DOCTYPE html>\n<html lang=\"en\">\n<head>\n<meta charset=\"utf-8\">\n<meta name=\"viewport\" content=\"width=device-width\">\n\
         <meta name=\"color-scheme\" content=\"light dark\">\n<title>{title}</title>\n<style>\n{common}{colours}\n{style}</style>\n</head>\n\
         <body>\n{body}</body>\n</html>\n"
    )
}

#[cfg(test)]
mod tests {
    use super::*;

    #[test]
    fn text() {
        assert_eq!(escaped("X>a<b&\"\u{1}"), "X&gt;a&lt;b&amp;&quot;\u{fffd}");
        assert_eq!(quoted("a\"</script>\n"), "\"a\\\"\\u003c/script>\\u000a\"");
        assert_eq!(array([1, 2], |n: i32| n.to_string()), "[1,2]");
    }
}
