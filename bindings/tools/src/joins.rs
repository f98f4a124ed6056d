//! Two texts that are joined: which of the module's rules are added, and where a place of the joined text stands in the two files.

use std::collections::HashSet;

use crate::certify::Place;
use crate::words::{small, LISTS};

/// The robot's and the module's text, with their names in messages.
#[derive(Clone, Copy)]
pub struct Pair<'a> {
    pub robot_file: &'a str,
    pub robot: &'a [u8],
    pub module_file: &'a str,
    pub module: &'a [u8],
}

/// The lines of a text, without their ends.
pub fn lines(text: &[u8]) -> Vec<&[u8]> {
    text.split_inclusive(|byte| *byte == b'\n').map(|line| line.strip_suffix(b"\n").unwrap_or(line)).collect()
}

impl Pair<'_> {
    /// The lines of the module whose rules the robot has not, in order, counted from 1. Both texts are well formed, so rules are the
    /// same where their lines are, but for case.
    pub fn added(&self) -> Vec<usize> {
        let of_robot: HashSet<Vec<u8>> = lines(self.robot).into_iter().skip(LISTS).map(small).collect();
        let of_module = (1..).zip(lines(self.module)).skip(LISTS);
        of_module.filter(|(_, line)| !of_robot.contains(&small(line))).map(|(number, _)| number).collect()
    }

    /// Where a place of the joined text stands: a line and a column at which a name of a list, or a rule, begins. A list begins with the
    /// robot's, and the robot's rules come first, so that its places are the same.
    pub fn place(&self, joined: &[u8], line: usize, column: usize) -> Place {
        let of_robot = lines(self.robot);
        let robot = |line: usize, column: usize| Place { file: self.robot_file.to_string(), line, column };
        let module = |line: usize, column: usize| Place { file: self.module_file.to_string(), line, column };
        if line > of_robot.len() {
            return module(self.added()[line - of_robot.len() - 1], column);
        }
        if line > LISTS || column <= of_robot[line - 1].len() {
            return robot(line, column);
        }
        let name = |line: &[u8], at: usize| line[at..].split(|byte| *byte == b',').next().unwrap_or_default().to_vec();
        let declared = lines(self.module)[line - 1];
        let wanted = name(lines(joined)[line - 1], column - 1);
        let begins = |at: &usize| *at > 0 && matches!(declared[at - 1], b',' | b'=') && name(declared, *at) == wanted;
        let at = (0..declared.len()).find(begins).unwrap_or(0);
        module(line, at + 1)
    }
}
