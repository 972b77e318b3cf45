//! Damage to adapter files and to states: each breaks one rule of document 01 and knows the number that it gets.

mod breaks;
mod of_file;
mod of_state;
mod one;
mod rules;

use super::form::Form;
pub use one::Damage;

/// Every damage of a file, or of a state.
pub fn all(form: Form) -> Vec<&'static Damage> {
    let own = match form {
        Form::File => of_file::FILE,
        Form::State => of_state::STATE,
    };
    own.iter().chain(rules::RULES).collect()
}
