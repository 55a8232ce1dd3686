//! Rounds over a list of atoms joined by AND, the search over pairs (document 02, #111), and what the list says of a polynomial afterwards.
//! The atoms are in normal form, no two of one polynomial, none constant.

use crate::count;
use crate::deduce::deduce;
use crate::polynomial::Polynomial;
use crate::signs::SignSet;
use crate::tree::Atom;
use crate::two_atoms::Pairs;

/// A list after its rounds.
#[derive(Clone, Debug)]
pub struct AfterRounds {
    /// The atoms with the cut sets, in the order they were given.
    pub atoms: Vec<Atom<Polynomial>>,
    /// The variables' sets.
    pub board: Vec<SignSet>,
    pub contradiction: bool,
    /// The number of rounds begun, the one that changed nothing or found the contradiction counted; a search over pairs is no round.
    pub rounds: usize,
}

enum Round {
    Changed,
    Unchanged,
    Contradiction,
}

/// What a search over pairs comes to.
enum Search {
    Nothing,
    Cut,
    Emptied,
}

/// Runs the rounds over a list of atoms on n variables.
pub fn run_rounds(n: usize, atoms: &[Atom<Polynomial>]) -> AfterRounds {
    let mut list =
        AfterRounds { atoms: atoms.to_vec(), board: vec![SignSet::FULL; n], contradiction: false, rounds: 0 };
    // "Variable i starts with its variable atom's set, else full."
    for atom in atoms {
        if let Some(i) = atom.poly.variable() {
            list.board[i] = atom.set;
        }
    }
    loop {
        list.rounds += 1;
        count::a_round();
        match list.round() {
            Round::Changed => {}
            // "A round that changes nothing ends them too", unless two atoms at once find something. "The first pair
            // finding that changes a set starts another round at once, unless that set is now empty: that ends the run
            // as a contradiction, and no further round is begun."
            Round::Unchanged => match list.search() {
                Search::Nothing => break,
                Search::Cut => {}
                Search::Emptied => {
                    list.contradiction = true;
                    break;
                }
            },
            // "A set that becomes empty ends the rounds at once: contradiction."
            Round::Contradiction => {
                list.contradiction = true;
                break;
            }
        }
    }
    count::a_run(list.rounds);
    // A variable atom's cut set is its variable's.
    for atom in &mut list.atoms {
        if let Some(i) = atom.poly.variable() {
            atom.set = list.board[i];
        }
    }
    list
}

impl AfterRounds {
    fn non_variable_atoms(&self) -> Vec<Atom<Polynomial>> {
        self.atoms.iter().filter(|atom| atom.poly.variable().is_none()).cloned().collect()
    }

    fn round(&mut self) -> Round {
        let n = self.board.len();
        let mut changed = false;
        // The non-variable atoms "with their sets from before the round".
        let before = self.non_variable_atoms();

        // "for i from 1 to n, variable i's set is cut by all deductions of x_i from the non-variable
        // atoms, taken with the variable sets at hand when i's turn begins."
        for i in 0..n {
            let mut cut = self.board[i];
            for q in &before {
                let found = deduce(&Polynomial::of_variable(n, i), &q.poly, q.set, &self.board);
                cut = cut.intersection(found);
            }
            if cut.is_empty() {
                return Round::Contradiction;
            }
            changed = changed || cut != self.board[i];
            self.board[i] = cut;
        }

        // "Then each non-variable atom's set is cut by its sign by terms and by the deductions from the
        // other non-variable atoms with their sets from before the round."
        for atom in &mut self.atoms {
            if atom.poly.variable().is_some() {
                continue;
            }
            let mut cut = atom.set.intersection(atom.poly.sign_by_terms(&self.board));
            for q in &before {
                if q.poly != atom.poly {
                    cut = cut.intersection(deduce(&atom.poly, &q.poly, q.set, &self.board));
                }
            }
            if cut.is_empty() {
                return Round::Contradiction;
            }
            changed = changed || cut != atom.set;
            atom.set = cut;
        }

        if changed {
            Round::Changed
        } else {
            Round::Unchanged
        }
    }

    /// "After a round that changes nothing, take as p each variable, then each non-variable atom, and try each pair of
    /// non-variable atoms other than p": the first finding that changes p's set cuts it.
    fn search(&mut self) -> Search {
        let n = self.board.len();
        let atoms = self.non_variable_atoms();
        let variables: Vec<Polynomial> = (0..n).map(|i| Polynomial::of_variable(n, i)).collect();
        let board = self.board.clone();
        let mut pairs = Pairs::new(&board, &atoms);
        for (i, variable) in variables.iter().enumerate() {
            if let Some(cut) = pairs.first_cut(variable, self.board[i]) {
                self.board[i] = cut;
                return if cut.is_empty() { Search::Emptied } else { Search::Cut };
            }
        }
        for atom in self.atoms.iter_mut().filter(|atom| atom.poly.variable().is_none()) {
            let p = &atoms.iter().find(|other| other.poly == atom.poly).expect("it is one of them").poly;
            if let Some(cut) = pairs.first_cut(p, atom.set) {
                atom.set = cut;
                return if cut.is_empty() { Search::Emptied } else { Search::Cut };
            }
        }
        Search::Nothing
    }

    /// "What a list *says of* p after its rounds: its set if listed (or the variable's set), else full, cut
    /// by its sign by terms and all deductions from non-variable atoms. A contradiction says the empty set."
    /// The deductions are from all non-variable atoms, p itself among them when it is listed. "What a list says of p includes
    /// these" (02, #111): the findings of all tries over pairs of non-variable atoms other than p.
    pub fn says_of(&self, p: &Polynomial) -> SignSet {
        if self.contradiction {
            return SignSet::EMPTY;
        }
        let mut says = match p.variable() {
            Some(i) => self.board[i],
            None => match self.atoms.iter().find(|atom| atom.poly == *p) {
                Some(atom) => atom.set,
                None => SignSet::FULL,
            },
        };
        says = says.intersection(p.sign_by_terms(&self.board));
        let atoms = self.non_variable_atoms();
        for q in &atoms {
            says = says.intersection(deduce(p, &q.poly, q.set, &self.board));
        }
        Pairs::new(&self.board, &atoms).cut_by_all(p, says)
    }
}
