//! Names that the grammar's text takes: 1 to 15 letters, digits and hyphens, no two alike. Case does not count there: words of other
//! notations that differ only in case get names that differ in more.

use std::collections::{HashMap, HashSet};

use super::Draft;

const MOST: usize = 15;

/// Words for marks.
const MARKS: [(char, &str); 30] = [
    ('+', "plus"),
    ('-', "minus"),
    ('*', "star"),
    ('/', "slash"),
    ('(', "lparen"),
    (')', "rparen"),
    ('{', "lbrace"),
    ('}', "rbrace"),
    ('[', "lbracket"),
    (']', "rbracket"),
    (';', "semi"),
    (',', "comma"),
    (':', "colon"),
    ('=', "eq"),
    ('<', "lt"),
    ('>', "gt"),
    ('!', "bang"),
    ('&', "amp"),
    ('|', "bar"),
    ('.', "dot"),
    ('?', "quest"),
    ('%', "percent"),
    ('^', "caret"),
    ('~', "tilde"),
    ('#', "hash"),
    ('@', "at"),
    ('$', "dollar"),
    ('\'', "quote"),
    ('"', "dquote"),
    ('\\', "backslash"),
];

/// What stands before a word that was in quotes, so that it differs from the same word without.
pub const QUOTED: char = '\u{1}';

/// What stands between a left name and the number of a part of it.
pub const PART: char = '\u{2}';

/// A word as people wrote it.
fn shown(word: &str) -> String {
    word.trim_start_matches(QUOTED).replace(PART, " ")
}

/// A name of letters, digits and hyphens that is near to a word, of any length.
fn plain(word: &str) -> String {
    let word = &shown(word)[..];
    if let Some((_, name)) = [("\\n", "newline"), ("\\t", "tab")].iter().find(|(escape, _)| *escape == word) {
        return name.to_string();
    }
    let mark = |letter: char| MARKS.iter().find(|(mark, _)| *mark == letter).map(|(_, name)| *name);
    let mut name = String::new();
    let has_letters = word.chars().any(|letter| letter.is_ascii_alphanumeric());
    for letter in word.chars() {
        match letter {
            'µ' | 'μ' => name.push('u'),
            letter if letter.is_ascii_alphanumeric() => name.push(letter),
            '_' | ' ' | '-' if has_letters => name.push('-'),
            letter => {
                if !name.is_empty() && !name.ends_with('-') {
                    name.push('-');
                }
                name.push_str(mark(letter).unwrap_or("x"));
                if has_letters {
                    name.push('-');
                }
            }
        }
    }
    let name = name.trim_matches('-').to_string();
    if name.is_empty() {
        "x".to_string()
    } else {
        name
    }
}

/// Gives each word one name, no name to two words.
#[derive(Default)]
struct Names {
    given: HashMap<String, String>,
    /// By a name in small letters the word that has it.
    taken: HashMap<String, String>,
    /// The last number that was tried for names that are cut alike.
    numbers: HashMap<String, usize>,
}

impl Names {
    fn of(&mut self, word: &str) -> String {
        if let Some(name) = self.given.get(word) {
            return name.clone();
        }
        let plain = plain(word);
        let cut = &plain[..plain.len().min(MOST)];
        let last = self.numbers.entry(cut.to_ascii_lowercase()).or_insert(1);
        let mut name = cut.to_string();
        while self.taken.contains_key(&name.to_ascii_lowercase()) {
            *last += 1;
            let ending = format!("-{last}");
            name = format!("{}{ending}", &plain[..plain.len().min(MOST - ending.len())]);
        }
        self.taken.insert(name.to_ascii_lowercase(), word.to_string());
        self.given.insert(word.to_string(), name.clone());
        name
    }

    /// The other word, as people wrote it, for which a word could not keep its name: they differ in case alone.
    fn other_case(&self, word: &str) -> Option<String> {
        let (word, plain) = (shown(word), plain(word).to_ascii_lowercase());
        let other = shown(self.taken.get(&plain[..plain.len().min(MOST)])?);
        (other != word && other.eq_ignore_ascii_case(&word)).then_some(other)
    }
}

/// The grammar's text; every name that changes is told.
pub fn written(draft: &mut Draft) -> String {
    let mut names = Names::default();
    // Names that may stay as they are come first, so that no other takes them.
    let words: Vec<String> = draft.nonterminals.iter().chain(&draft.terminals).cloned().collect();
    for word in words.iter().filter(|word| plain(word) == **word && word.len() <= MOST) {
        names.of(word);
    }
    for word in &words {
        let name = names.of(word);
        let shown = shown(word);
        if name != shown {
            let other =
                names.other_case(word).map(|other| format!(", to differ from '{}' in more than case", other.escape_debug()));
            draft.note(1, format!("'{}' is written '{name}'{}", shown.escape_debug(), other.unwrap_or_default()));
        }
    }
    let mut list = |words: &[String]| words.iter().map(|word| names.of(word)).collect::<Vec<_>>().join(",");
    let (terminals, nonterminals) = (list(&draft.terminals), list(&draft.nonterminals));
    let mut text = format!("terminals={terminals}\nnonterminals={nonterminals}\n");
    let mut written = HashSet::new();
    let mut repeated = Vec::new();
    for (left, right) in &draft.rules {
        let symbols: String = right.iter().map(|word| format!(" {}", names.of(word))).collect();
        let line = format!("rule={}:{symbols}\n", names.of(left));
        if written.insert(line.clone()) {
            text.push_str(&line);
        } else {
            repeated.push(line);
        }
    }
    for line in repeated {
        draft.note(1, format!("'{}' stands once, and not twice", line.trim_end()));
    }
    text
}

#[cfg(test)]
mod tests {
    use super::*;

    #[test]
    fn plain_names() {
        for (word, name) in [
            ("vol_ul", "vol-ul"),
            ("µl", "ul"),
            ("==", "eq-eq"),
            ("+", "plus"),
            ("-", "minus"),
            ("a+b", "a-plus-b"),
            ("gefäß", "gef-x-x"),
            ("", "x"),
            ("très-long", "tr-x-s-long"),
        ] {
            assert_eq!(plain(word), name, "{word}");
        }
    }

    #[test]
    fn distinct_names() {
        let mut names = Names::default();
        let given = ["aspirate_very_slowly", "aspirate_very_fast", "IF", "if", "IF"].map(|word| names.of(word));
        assert_eq!(given, ["aspirate-very-s", "aspirate-very-f", "IF", "if-2", "IF"]);
        assert_eq!(names.of("aspirate_very_sly"), "aspirate-very-2");
        assert_eq!((names.other_case("if"), names.other_case("IF")), (Some("IF".to_string()), None));
    }
}
