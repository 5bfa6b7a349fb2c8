//! CaDiCaL as a program: its refutation of a formula, as it writes it.

use std::path::Path;
use std::process::{Command, Stdio};

use super::elaborate::added_lemmas;

/// What the solver says, and the lemmas that it adds where there is no assignment.
pub enum Answer {
    Satisfiable,
    Unsatisfiable(Vec<Vec<i32>>),
}

pub fn solve(clauses: &[i32], variables: usize, folder: &Path) -> Result<Answer, String> {
    let count = clauses.iter().filter(|number| **number == 0).count();
    let mut text = format!("p cnf {variables} {count}\n");
    for number in clauses {
        text += &number.to_string();
        text.push(if *number == 0 { '\n' } else { ' ' });
    }
    let (cnf, proof) = (folder.join("formula.cnf"), folder.join("proof.drat"));
    std::fs::write(&cnf, text).map_err(|why| why.to_string())?;
    let status = Command::new("cadical").arg("-q").arg(&cnf).arg(&proof).stdout(Stdio::null()).status().map_err(|why| why.to_string())?;
    match status.code() {
        Some(10) => Ok(Answer::Satisfiable),
        Some(20) => added_lemmas(&std::fs::read(&proof).map_err(|why| why.to_string())?).map(Answer::Unsatisfiable),
        _ => Err(format!("the solver ended with {status}")),
    }
}

/// The lemmas of its refutation, if it has one.
pub fn refutation(folder: &Path) -> impl Fn(&[i32], usize, &[usize]) -> Option<Vec<Vec<i32>>> + '_ {
    move |clauses, variables, _| match solve(clauses, variables, folder) {
        Ok(Answer::Unsatisfiable(lemmas)) => Some(lemmas),
        _ => None,
    }
}
