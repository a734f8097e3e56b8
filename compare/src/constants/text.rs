//! The words of Rust and of the port's code: names, numbers and signs, with their lines; and the comments.

#[derive(Clone, Debug, PartialEq)]
pub struct Token {
    pub text: String,
    pub line: usize,
}

impl Token {
    pub fn is(&self, text: &str) -> bool {
        self.text == text
    }

    pub fn is_number(&self) -> bool {
        self.text.starts_with(|c: char| c.is_ascii_digit())
    }

    pub fn is_float(&self) -> bool {
        self.is_number() && self.text.contains('.')
    }

    /// A name, a number or a closing bracket: a minus behind it is a subtraction.
    pub fn is_operand(&self) -> bool {
        let is_word = self
            .text
            .starts_with(|c: char| c.is_ascii_alphanumeric() || c == '_');
        let keywords = ["return", "if", "else", "in", "match", "as", "while"];
        is_word && !keywords.contains(&self.text.as_str()) || self.is(")") || self.is("]")
    }
}

/// The tokens of a text, and its comments with the lines that they begin in.
pub fn tokens(text: &str) -> (Vec<Token>, Vec<(usize, String)>) {
    let (mut tokens, mut comments) = (Vec::new(), Vec::new());
    let (mut rest, mut line) = (text, 1);
    while let Some(first) = rest.chars().next() {
        let length = match first {
            '/' if rest.starts_with("//") => rest.find('\n').unwrap_or(rest.len()),
            '/' if rest.starts_with("/*") => rest.find("*/").map_or(rest.len(), |at| at + 2),
            '0'..='9' => number_length(rest),
            'a'..='z' | 'A'..='Z' | '_' => rest
                .find(|c: char| !c.is_ascii_alphanumeric() && c != '_')
                .unwrap_or(rest.len()),
            '<' | '>' if rest[1..].starts_with(first) => 2,
            ':' | '.' if rest[1..].starts_with(first) => 2,
            _ => first.len_utf8(),
        };
        let (word, behind) = rest.split_at(length);
        if let Some(comment) = word.strip_prefix("//") {
            comments.push((line, comment.to_string()));
        } else if let Some(comment) = word.strip_prefix("/*") {
            comments.push((line, comment.trim_end_matches("*/").to_string()));
        } else if !first.is_whitespace() {
            let text = word.to_string();
            tokens.push(Token { text, line });
        }
        line += word.matches('\n').count();
        rest = behind;
    }
    (tokens, comments)
}

/// The length of the number at the front. `1.` is one where neither a name nor another point follows.
fn number_length(text: &str) -> usize {
    let digits = |from: usize| {
        text[from..]
            .find(|c: char| !c.is_ascii_alphanumeric() && c != '_')
            .map_or(text.len(), |at| from + at)
    };
    let mut end = digits(0);
    if text.starts_with("0x") {
        return end;
    }
    let behind = text[end..].strip_prefix('.');
    if behind.is_some_and(|rest| !rest.starts_with(|c: char| c.is_ascii_alphabetic() || c == '.')) {
        end = digits(end + 1);
    }
    if text[..end].ends_with(['e', 'E']) && text[end..].starts_with(['+', '-']) {
        end = digits(end + 1);
    }
    end
}

/// Takes out each stretch that `begins` finds at a place, whose length it says.
pub fn without(tokens: &[Token], begins: impl Fn(&[Token]) -> Option<usize>) -> Vec<Token> {
    let (mut left, mut at) = (Vec::new(), 0);
    while at < tokens.len() {
        match begins(&tokens[at..]) {
            Some(length) => at += length,
            None => {
                left.push(tokens[at].clone());
                at += 1;
            }
        }
    }
    left
}

/// The length of a stretch in brackets at the front.
pub fn in_brackets(tokens: &[Token]) -> usize {
    let mut depth = 0;
    for (at, token) in tokens.iter().enumerate() {
        match token.text.as_str() {
            "(" | "{" | "[" => depth += 1,
            ")" | "}" | "]" => depth -= 1,
            _ => {}
        }
        if depth == 0 {
            return at + 1;
        }
    }
    tokens.len()
}

#[cfg(test)]
mod tests {
    use super::*;

    #[test]
    fn numbers_and_comments() {
        let (found, comments) =
            tokens("x = 1. - 2.5e-01; /* two\n */ 0..=N 0x7fff_i32 a.len() // end");
        let texts: Vec<_> = found.iter().map(|t| t.text.as_str()).collect();
        let want = [
            "x",
            "=",
            "1.",
            "-",
            "2.5e-01",
            ";",
            "0",
            "..",
            "=",
            "N",
            "0x7fff_i32",
            "a",
            ".",
            "len",
            "(",
            ")",
        ];
        assert_eq!(texts, want);
        assert_eq!(found[4].line, 1);
        assert_eq!(found[6].line, 2);
        assert_eq!(
            comments,
            [(1, " two\n ".to_string()), (2, " end".to_string())]
        );
        assert!(found[2].is_float() && found[4].is_float() && !found[10].is_float());
    }

    #[test]
    fn stretches() {
        let (found, _) = tokens("a force(b (c)) d");
        let left = without(&found, |t| {
            t[0].is("force").then(|| 1 + in_brackets(&t[1..]))
        });
        let texts: Vec<_> = left.iter().map(|t| t.text.as_str()).collect();
        assert_eq!(texts, ["a", "d"]);
    }
}
