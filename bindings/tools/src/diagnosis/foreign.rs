//! Texts that are grammars in another notation, or no grammars at all.

use super::Found;

/// What a text looks like by its lines, if it is not grammar text.
pub fn kind(text: &[u8]) -> Option<&'static str> {
    let text = String::from_utf8_lossy(text);
    let lines: Vec<&str> = text.lines().map(str::trim).filter(|line| !line.is_empty()).collect();
    let first = lines.first()?.trim_start_matches('\u{FEFF}');
    let begins = |mark: &str| lines.iter().any(|line| line.starts_with(mark));
    let has = |mark: &str| lines.iter().any(|line| line.contains(mark));
    if first.starts_with("terminals") || first.starts_with("nonterminals") || begins("rule=") {
        return None;
    }
    if first.starts_with('{') || first.starts_with("[{") {
        Some("JSON")
    } else if first.to_ascii_lowercase().starts_with("<!doctype") || first.to_ascii_lowercase().starts_with("<html") {
        Some("HTML")
    } else if begins("%%") || begins("%token") || begins("%start") || begins("%{") {
        Some("a grammar for bison")
    } else if ["grammar ", "parser grammar ", "lexer grammar "].iter().any(|mark| begins(mark)) {
        Some("a grammar for ANTLR")
    } else if has("::=") {
        Some("BNF")
    } else if lines.iter().any(|line| has_equals(line)) {
        Some("EBNF")
    } else if has("->") {
        Some("rules with arrows")
    } else {
        None
    }
}

/// `Name = ...`, with spaces as no line of grammar text has them.
fn has_equals(line: &str) -> bool {
    let name =
        |front: &str| !front.is_empty() && front.chars().all(|letter| letter.is_alphanumeric() || "-_ ".contains(letter));
    line.split_once('=').is_some_and(|(front, _)| front.ends_with(' ') && name(front.trim()))
}

/// What is said of such a text.
pub fn found(text: &[u8]) -> Option<Found> {
    let kind = kind(text)?;
    let remedy = match kind {
        "JSON" | "HTML" | "a grammar for ANTLR" => "line 1 is 'terminals=a,b', a rule is 'rule=S: a b'",
        _ => "'ambig-certify --fix FILE' prints it as grammar text",
    };
    Some((0, format!("this looks like {kind}; {remedy} (docs/MANUAL.md, Grammar text)")))
}

#[cfg(test)]
mod tests {
    use super::*;

    #[test]
    fn kinds() {
        for (text, kind_of) in [
            ("{\"rules\": []}", Some("JSON")),
            ("<!DOCTYPE html>\n", Some("HTML")),
            ("/* C */\n%token A\n%%\ns: A;\n", Some("a grammar for bison")),
            ("grammar Robot;\ns: 'a';\n", Some("a grammar for ANTLR")),
            ("<s> ::= a\n", Some("BNF")),
            ("Method = { Command } ;\n", Some("EBNF")),
            ("S -> a S\n", Some("rules with arrows")),
            ("terminals =a\n", None),
            ("terminal=a\nnonterminals=S\nrule=S: a\n", None),
            ("# a = b\nterminals=a\nrule=S:\n", None),
            ("", None),
        ] {
            assert_eq!(kind(text.as_bytes()), kind_of, "{text}");
        }
    }
}
