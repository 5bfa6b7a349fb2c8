//! CaDiCaL inside this process (Debian's libcadical-dev), for many questions about one formula: each is
//! asked under assumptions, so the formula is read once. The C interface is that of ccadical.h.

use std::os::raw::{c_char, c_int, c_void};

#[link(name = "cadical")]
#[link(name = "stdc++")]
extern "C" {
    fn ccadical_init() -> *mut c_void;
    fn ccadical_release(solver: *mut c_void);
    fn ccadical_set_option(solver: *mut c_void, name: *const c_char, value: c_int);
    fn ccadical_add(solver: *mut c_void, number: c_int);
    fn ccadical_assume(solver: *mut c_void, literal: c_int);
    fn ccadical_solve(solver: *mut c_void) -> c_int;
    fn ccadical_val(solver: *mut c_void, literal: c_int) -> c_int;
}

const SATISFIABLE: c_int = 10;
const UNSATISFIABLE: c_int = 20;

pub struct Cadical {
    solver: *mut c_void,
    variables: usize,
}

impl Cadical {
    /// A solver that holds the clauses of these numbers, each clause ended by 0.
    pub fn new(variables: usize, numbers: &[i32]) -> Cadical {
        // SAFETY: `ccadical_init` answers a solver of its own; every call below is made with it, between
        // its making and its release, and with literals other than 0 and the least number.
        let solver = unsafe { ccadical_init() };
        unsafe { ccadical_set_option(solver, b"quiet\0".as_ptr().cast(), 1) };
        let mut cadical = Cadical { solver, variables };
        cadical.add(numbers);
        cadical
    }

    /// Adds clauses, each ended by 0.
    pub fn add(&mut self, numbers: &[i32]) {
        for number in numbers {
            unsafe { ccadical_add(self.solver, *number) };
        }
    }

    /// An assignment that makes all clauses and these literals true; entry v is the value of variable v.
    pub fn solve(&mut self, assumptions: &[i32]) -> Option<Vec<bool>> {
        for literal in assumptions {
            unsafe { ccadical_assume(self.solver, *literal) };
        }
        match unsafe { ccadical_solve(self.solver) } {
            SATISFIABLE => {
                let value = |variable| unsafe { ccadical_val(self.solver, variable) > 0 };
                let values = (1..=self.variables as c_int).map(value);
                Some(std::iter::once(false).chain(values).collect())
            }
            UNSATISFIABLE => None,
            other => panic!("CaDiCaL answered {other}"),
        }
    }
}

impl Drop for Cadical {
    fn drop(&mut self) {
        unsafe { ccadical_release(self.solver) };
    }
}
