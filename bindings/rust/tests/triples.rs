//! Answers that were worked out by hand: step records, and the witness check over indices and over records.

mod support;

use ambiguity::{Cause, Code, Refusal, TripleRecord};
use support::{all_steps, grammar, refused, A, S};

type Answer = Result<(), Refusal>;

/// S→S a; S→a
const LEFT_RECURSION: &[Code] = &[S, 2, S, 1, S, 1, 1];

/// S→S; S→a
const CYCLE: [Code; 6] = [S, 1, S, S, 1, 1];

#[test]
fn steps() {
    let cases: [(usize, &[Code], [usize; 3], &str); 9] = [
        (1, LEFT_RECURSION, [1, 3, 4], "records=3 1,3,4,-,o1 1,1,4,c0,- 1,3,7,-,o2"),
        (1, LEFT_RECURSION, [0, 4, 0], "records=3 0,4,0,o1,- 0,4,2,-,o0 0,7,0,o2,-"),
        (1, LEFT_RECURSION, [1, 4, 4], "records=4 1,4,4,o1,- 1,4,4,-,o1 1,4,7,-,o2 1,7,4,o2,-"),
        (0, &[S, 0], [0, 2, 2], "records=3 0,2,4,-,o1 0,3,3,s32768,s32768 0,4,2,o1,-"),
        (0, &[S, 0], [1, 0, 3], "records=2 1,0,1,-,c0 1,2,3,o0,-"),
        (0, &[S, 0], [0, 3, 4], "records=1 1,1,3,c0,c1"),
        (1, &[S, 1, 1], [0, 3, 4], "records=1 1,1,4,c0,-"),
        (1, &[S, 1, 1], [1, 4, 4], "records=1 1,5,5,s1,s1"),
        (1, &[S, 1, 1], [0, 65536, 0], "records=0"),
    ];
    for (terminals, rules, [layer, left, right], expected) in cases {
        assert_eq!(all_steps(grammar(terminals, 1, rules), 0, layer, left, right), Ok(expected.to_string()));
    }
    assert_eq!(all_steps(grammar(1, 1, &[S, 1, 1, S]), 0, 0, 0, 0), refused(Cause::Truncated, 3));
}

/// S→a; S→A; A→A: the items from 6 on are of rules that no sentence uses.
#[test]
fn steps_without_dead_rules() {
    let rules = [S, 1, 1, S, 1, A, A, 1, A];
    for (triple, expected) in [
        ([0, 0, 0], "records=2 0,0,2,-,o0 0,2,0,o0,-"),
        ([0, 2, 2], "records=3 0,2,4,-,o1 0,3,3,s32768,s32768 0,4,2,o1,-"),
        ([1, 2, 2], "records=2 1,2,4,-,o1 1,4,2,o1,-"),
        ([1, 5, 5], "records=2 1,3,5,c1,- 1,5,3,-,c1"),
        ([0, 6, 6], "records=0"),
        ([0, 7, 5], "records=0"),
        ([1, 7, 1], "records=0"),
        ([1, 9, 1], "records=0"),
    ] {
        let [layer, left, right] = triple;
        assert_eq!(all_steps(grammar(1, 2, &rules), 0, layer, left, right), Ok(expected.to_string()), "{triple:?}");
    }
}

#[test]
fn witnesses() {
    let cases: [(usize, &[u32], Answer); 7] = [
        (1, &[0, 2, 4, 20, 29, 75, 73], Ok(())),
        (1, &[0, 2, 4, 20, 29, 75], refused(Cause::WitnessWrong, 6)),
        (1, &[0, 2, 4, 20, 29, 75, 73, 73], refused(Cause::WitnessWrong, 7)),
        (1, &[], refused(Cause::WitnessWrong, 0)),
        (1, &[1, 2, 4, 20, 29, 75, 73], refused(Cause::WitnessWrong, 0)),
        (1, &[0, u32::MAX, 4, 20, 29, 75, 73], refused(Cause::WitnessWrong, 1)),
        (0, &[0, 2, 4, 20, 29, 75, 73], refused(Cause::OutOfRange, 0)),
    ];
    for (nonterminals, row, expected) in cases {
        assert_eq!(ambiguity::check_witness(grammar(1, nonterminals, &CYCLE), 0, row), expected, "{row:?}");
    }
}

/// Witnesses of S→S; S→a as records. (0,1,10) would have the index of (0,2,2), were it formed without a look at the ranges.
#[test]
fn records() {
    let way = [[0, 0, 0], [0, 0, 2], [0, 2, 2], [0, 2, 4], [0, 3, 5], [1, 1, 3], [1, 1, 1]];
    let with = |place: usize, record: [u32; 3]| {
        let mut other = way;
        other[place] = record;
        other.to_vec()
    };
    let cases: Vec<(usize, Vec<[u32; 3]>, Answer)> = vec![
        (1, way.to_vec(), Ok(())),
        (1, way[..4].to_vec(), refused(Cause::WitnessWrong, 4)),
        (1, vec![], refused(Cause::WitnessWrong, 0)),
        (1, with(1, [2, 0, 2]), refused(Cause::WitnessWrong, 1)),
        (1, with(1, [0, 8, 2]), refused(Cause::WitnessWrong, 1)),
        (1, with(1, [0, 0, 8]), refused(Cause::WitnessWrong, 1)),
        (1, with(2, [0, 1, 10]), refused(Cause::WitnessWrong, 2)),
        (1, vec![[u32::MAX; 3]], refused(Cause::WitnessWrong, 0)),
        (0, way.to_vec(), refused(Cause::OutOfRange, 0)),
    ];
    for (nonterminals, records, expected) in cases {
        let lent: Vec<_> = records.iter().map(|&[layer, left, right]| TripleRecord { layer, left, right }).collect();
        let answer = ambiguity::check_witness_records(grammar(1, nonterminals, &CYCLE), 0, &lent);
        assert_eq!(answer, expected, "{records:?}");
    }
}
