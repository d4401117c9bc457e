//! Words, as antt reads them.

/// A word, and where it stands.
#[derive(Clone, Debug, PartialEq, Eq)]
pub struct Token {
    /// What it spells; of an escaped name, the name.
    pub text: String,
    /// Its line, from 1.
    pub line: usize,
    /// Whether nothing stands between it and the word before it.
    pub tight: bool,
}

/// Characters that are words of their own.
const MARKS: &str = "(){}.;,@\"";

/// The words of a line, its comment left out.
pub fn line_tokens(text: &str, line: usize) -> Vec<Token> {
    let mut reader = Reader {
        found: Vec::new(),
        word: String::new(),
        line,
        tight: false,
    };
    let mut escaped = false;
    for (at, c) in text.char_indices() {
        if begins_comment(&text[at..]) && reader.word.is_empty() && !escaped {
            break;
        }
        match c {
            '«' | '»' => {
                reader.end();
                escaped = c == '«';
            }
            _ if escaped => reader.word.push(c),
            _ if c.is_whitespace() => {
                reader.end();
                reader.tight = false;
            }
            _ if MARKS.contains(c) => {
                reader.end();
                reader.word.push(c);
                reader.end();
            }
            _ => reader.word.push(c),
        }
    }
    reader.end();
    reader.found
}

fn begins_comment(text: &str) -> bool {
    text == "--" || text.starts_with("-- ")
}

struct Reader {
    found: Vec<Token>,
    word: String,
    line: usize,
    tight: bool,
}

impl Reader {
    fn end(&mut self) {
        if self.word.is_empty() {
            return;
        }
        self.found.push(Token {
            text: std::mem::take(&mut self.word),
            line: self.line,
            tight: self.tight,
        });
        self.tight = true;
    }
}

/// How many brackets are open where each word stands; a bracket stands outside of itself.
pub fn depths(tokens: &[Token]) -> Vec<i32> {
    let mut depth = 0;
    let mut found = Vec::with_capacity(tokens.len());
    for token in tokens {
        depth -= i32::from(matches!(token.text.as_str(), ")" | "}"));
        found.push(depth);
        depth += i32::from(matches!(token.text.as_str(), "(" | "{"));
    }
    found
}

#[cfg(test)]
mod tests {
    use super::*;

    fn words(text: &str) -> Vec<String> {
        line_tokens(text, 1)
            .into_iter()
            .map(|token| token.text)
            .collect()
    }

    #[test]
    fn words_are_split_at_spaces_and_marks() {
        assert_eq!(
            words("f (x.now) n+n"),
            ["f", "(", "x", ".", "now", ")", "n+n"]
        );
        assert_eq!(
            words("le-trans {A = ℕ} -- why"),
            ["le-trans", "{", "A", "=", "ℕ", "}"]
        );
        assert_eq!(words("--"), [""; 0]);
        assert_eq!(words("(«max len».0)"), ["(", "max len", ".", "0", ")"]);
    }

    #[test]
    fn tight_words_are_told_apart() {
        let tight = |text| {
            line_tokens(text, 1)
                .iter()
                .map(|token| token.tight)
                .collect::<Vec<_>>()
        };
        assert_eq!(tight("box.Lent"), [false, true, true]);
        assert_eq!(tight("r.next"), [false, true, true]);
        assert_eq!(tight("λ x. y"), [false, false, true, false]);
    }

    #[test]
    fn brackets_have_depths() {
        assert_eq!(
            depths(&line_tokens("a (b {c}) d", 1)),
            [0, 0, 1, 1, 2, 1, 0, 0]
        );
    }
}
