//! Methods of the eight-channel command set and their plans: the plan is the library's, the place of a fault that of the reader in
//! `fronts`.

use ambiguity::two_trees::tree;
use ambiguity::{plan_certificate, read_plan, Grammar, MAX_ROW, PLAN_STATES, PLAN_WORK_ENTRIES};

use crate::answers::{Answered, Trees, Wording};
use crate::diagnosis::Rows;
use crate::fronts;
use crate::lines::{self, Form};
use crate::page;
use crate::rows::Sentence;
use crate::trees_page::{self, Frame};

/// The grammar of the command set.
pub const TEXT: &str = "\
terminals=take,vol,give,repeat,num,close,ch,sep
nonterminals=P,K,L
rule=P:
rule=P: P K
rule=K: take L vol
rule=K: give L vol
rule=K: repeat num P close
rule=L: ch
rule=L: L sep ch
";

pub const METHODS: Wording = Wording { sentence: "method", tree: "plan" };

/// The command set, read from its text.
pub fn grammar() -> Grammar {
    Grammar::read(TEXT.as_bytes()).expect("the text of the command set has no fault")
}

/// The plans of methods, by the library's entry, which is lent the same rows for each.
pub fn of<'a>(grammar: &Grammar, methods: Vec<Sentence<'a>>) -> Vec<Answered<'a>> {
    let (mut work, mut list) = (vec![0; PLAN_WORK_ENTRIES], vec![0; MAX_ROW]);
    let mut diagnosis = Rows::new(grammar);
    let answered = |sentence: Sentence<'a>| {
        let (trees, fault) = match read_plan(&sentence.row, &mut work, &mut list) {
            Ok(None) => (Trees::None, fronts::fault(&sentence.row)),
            Ok(Some(rules)) => {
                let rules = list[..rules].to_vec();
                let tree = tree::of_rules(grammar, &rules).expect("the rules that are listed are those of a tree");
                (Trees::One(tree, rules), None)
            }
            Err(refusal) => (Trees::Refused(refusal, diagnosis.findings(&sentence, refusal)), None),
        };
        Answered { sentence, trees, fault, wording: &METHODS }
    };
    methods.into_iter().map(answered).collect()
}

/// The page of methods that were read from a file, with the grammar and its certificate.
pub fn page(grammar: &Grammar, file: &str, answers: &[Answered]) -> String {
    let certificate = plan_certificate();
    let size = certificate.iter().map(|byte| byte.count_ones() as usize).sum();
    let lines = lines::written(grammar, 0, size, &certificate, Form::usual(PLAN_STATES));
    let heading = format!("Methods {} of the eight-channel command set", page::name(file));
    let behind = page::certificate_part(&lines, PLAN_STATES);
    trees_page::framed(grammar, Frame { tool: "ambig-plan", file, heading: &heading, behind: &behind }, answers)
}

#[cfg(test)]
mod tests {
    use super::*;
    use ambiguity::Searched;

    #[test]
    fn the_text_has_the_certificate() {
        let grammar = grammar();
        assert_eq!((grammar.states(), grammar.write()), (PLAN_STATES, TEXT.to_string()));
        assert_eq!(grammar.check(0, &plan_certificate()), Ok(()));
        let searched = grammar.search(0);
        assert!(
            matches!(searched, Ok(Searched::Unambiguous { certificate, size: 90, .. }) if certificate == plan_certificate())
        );
    }
}
