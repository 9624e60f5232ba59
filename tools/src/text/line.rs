//! A line of text, word by word, with the place of each.
use std::fmt;

/// Begins a comment, to the line's end.
const COMMENT: char = '#';

/// What is wrong with a text, and where: lines and columns count from 1, columns by characters.
#[derive(Clone, PartialEq, Eq, Debug)]
pub struct Wrong {
    pub at: Place,
    pub what: String,
}

/// A stretch of characters of a line.
#[derive(Clone, Copy, PartialEq, Eq, Debug, Default)]
pub struct Place {
    pub line: usize,
    pub column: usize,
    pub width: usize,
}

impl Place {
    /// The first character of a text.
    pub const FIRST: Place = Place {
        line: 1,
        column: 1,
        width: 1,
    };
}

impl fmt::Display for Wrong {
    fn fmt(&self, out: &mut fmt::Formatter) -> fmt::Result {
        let Place { line, column, .. } = self.at;
        write!(out, "{line}:{column}: {}", self.what)
    }
}

/// A word and its place.
#[derive(Clone, Copy, PartialEq, Eq, Debug)]
pub struct Word<'a> {
    pub text: &'a str,
    pub at: Place,
}

impl Word<'_> {
    pub fn wrong(&self, what: impl Into<String>) -> Wrong {
        Wrong {
            at: self.at,
            what: what.into(),
        }
    }

    /// A number from 0 to 2^32 - 1.
    pub fn unsigned(&self) -> Result<u32, Wrong> {
        self.number(0, u32::MAX.into()).map(|value| value as u32)
    }

    /// A signed word; in hexadecimal the one with the same bits.
    pub fn signed(&self) -> Result<i32, Wrong> {
        let most = if self.digits().1 == HEXADECIMAL {
            u32::MAX.into()
        } else {
            i32::MAX.into()
        };
        self.number(i32::MIN.into(), most).map(|value| value as i32)
    }

    pub fn is_number(&self) -> bool {
        let (digits, radix) = self.digits();
        let digits = digits.strip_prefix('-').unwrap_or(digits);
        !digits.is_empty() && digits.chars().all(|digit| digit.is_digit(radix))
    }

    fn digits(&self) -> (&str, u32) {
        match self.text.strip_prefix("0x") {
            Some(digits) => (digits, HEXADECIMAL),
            None => (self.text, 10),
        }
    }

    fn number(&self, least: i64, most: i64) -> Result<i64, Wrong> {
        if !self.is_number() {
            return Err(self.wrong(format!("a number is due here, not \"{}\"", self.text)));
        }
        let (digits, radix) = self.digits();
        match i64::from_str_radix(digits, radix) {
            Ok(value) if (least..=most).contains(&value) => Ok(value),
            _ => Err(self.wrong(format!("{} is not from {least} to {most}", self.text))),
        }
    }
}

const HEXADECIMAL: u32 = 16;

/// The words of a line that are still to be read.
pub struct Line<'a> {
    words: std::vec::IntoIter<Word<'a>>,
    end: Place,
}

fn separates(letter: char) -> bool {
    letter.is_whitespace() || matches!(letter, '>' | '(' | ')' | ',')
}

impl<'a> Line<'a> {
    pub fn new(text: &'a str, line: usize) -> Line<'a> {
        let text = text.split(COMMENT).next().unwrap_or("");
        let mut words = Vec::new();
        let mut column = 1;
        for part in text.split_inclusive(separates) {
            let word = part.trim_end_matches(separates);
            if !word.is_empty() {
                let width = word.chars().count();
                words.push(Word {
                    text: word,
                    at: Place {
                        line,
                        column,
                        width,
                    },
                });
            }
            column += part.chars().count();
        }
        let end = words
            .last()
            .map_or(1, |word| word.at.column + word.at.width);
        Line {
            words: words.into_iter(),
            end: Place {
                line,
                column: end,
                width: 1,
            },
        }
    }

    /// The next word, if there is one.
    pub fn take(&mut self) -> Option<Word<'a>> {
        self.words.next()
    }

    /// Takes the next word if it is this one, and says whether it is.
    pub fn follows(&mut self, keyword: &str) -> bool {
        let next = self.words.as_slice().first();
        let follows = next.is_some_and(|word| word.text == keyword);
        if follows {
            self.words.next();
        }
        follows
    }

    /// The next word, which must be there.
    pub fn due(&mut self, what: &str) -> Result<Word<'a>, Wrong> {
        self.words.next().ok_or_else(|| Wrong {
            at: self.end,
            what: format!("{what} is missing"),
        })
    }

    /// The next word, which must be this one.
    pub fn keyword(&mut self, keyword: &str) -> Result<(), Wrong> {
        let word = self.due(&format!("\"{keyword}\""))?;
        if word.text == keyword {
            return Ok(());
        }
        Err(word.wrong(format!("\"{keyword}\" is due here, not \"{}\"", word.text)))
    }

    /// The next word, which must be one of two: whether it is the second.
    pub fn either(&mut self, first: &str, second: &str) -> Result<(bool, Place), Wrong> {
        let word = self.due(&format!("\"{first}\" or \"{second}\""))?;
        if word.text == first || word.text == second {
            return Ok((word.text == second, word.at));
        }
        Err(word.wrong(format!(
            "\"{first}\" or \"{second}\" is due here, not \"{}\"",
            word.text
        )))
    }

    /// Nothing more may stand here.
    pub fn end(mut self) -> Result<(), Wrong> {
        match self.take() {
            None => Ok(()),
            Some(word) => Err(word.wrong(format!("\"{}\" is too much here", word.text))),
        }
    }
}

/// The known word that is most like this one, if one is.
pub fn nearest<'a>(word: &str, known: impl Iterator<Item = &'a str>) -> Option<&'a str> {
    let word = word.to_lowercase();
    let is_sign = word.chars().count() < 3;
    let far_off = if is_sign { 1 } else { 3 };
    known
        .map(|known| (distance(&word, &known.to_lowercase()), known))
        .filter(|(far, _)| *far < far_off)
        .min_by_key(|(far, _)| *far)
        .map(|(_, known)| known)
}

/// How many letters must be put in, taken out or changed.
fn distance(left: &str, right: &str) -> usize {
    let mut row: Vec<usize> = (0..=right.chars().count()).collect();
    for (i, a) in left.chars().enumerate() {
        let mut corner = i;
        row[0] = i + 1;
        for (j, b) in right.chars().enumerate() {
            let change = corner + usize::from(a != b);
            corner = row[j + 1];
            row[j + 1] = change.min(row[j] + 1).min(corner + 1);
        }
    }
    row[right.chars().count()]
}

#[cfg(test)]
mod tests {
    use super::*;

    fn word(text: &str) -> Word<'_> {
        Word {
            text,
            at: Place::default(),
        }
    }

    #[test]
    fn places() {
        let mut line = Line::new("  X>sta_tsk(3, 4) # five", 7);
        let mut next = || {
            line.take()
                .map(|word| (word.text, word.at.column, word.at.width))
        };
        assert_eq!(next(), Some(("X", 3, 1)));
        assert_eq!(next(), Some(("sta_tsk", 5, 7)));
        assert_eq!(next(), Some(("3", 13, 1)));
        assert_eq!(next(), Some(("4", 16, 1)));
        assert_eq!(next(), None);
        let missing = line.due("a task").unwrap_err();
        assert_eq!(missing.to_string(), "7:17: a task is missing");
    }

    #[test]
    fn numbers() {
        assert_eq!(word("-2147483648").signed(), Ok(i32::MIN));
        assert_eq!(word("0xffffffff").signed(), Ok(-1));
        assert_eq!(word("4294967295").unsigned(), Ok(u32::MAX));
        for no_word in [
            "2147483648",
            "-2147483649",
            "0x100000000",
            "99999999999999999999",
        ] {
            assert!(word(no_word).signed().is_err());
        }
        for no_number in ["", "-", "0x", "3a", "+3", "--3"] {
            assert!(word(no_number).signed().is_err());
        }
        assert!(word("-1").unsigned().is_err());
    }

    #[test]
    fn likeness() {
        let known = ["X", "H", "slp_tsk", "sta_tsk", "tick", "entry"];
        let nearest = |word| nearest(word, known.into_iter());
        assert_eq!(nearest("sta_tks"), Some("sta_tsk"));
        assert_eq!(nearest("STA_TSK"), Some("sta_tsk"));
        assert_eq!(
            (nearest("tik"), nearest("enter")),
            (Some("tick"), Some("entry"))
        );
        assert_eq!((nearest("h"), nearest("y")), (Some("H"), None));
        assert_eq!(nearest("brightness"), None);
    }
}
