//! What a command wants to have come up in its pictures, if the comparison is to be worth its while, and what of it did not.

#[derive(Default)]
pub struct Missing(pub Vec<String>);

impl Missing {
    pub fn want(&mut self, ok: bool, what: &str) {
        if !ok {
            self.0.push(what.to_string());
        }
    }
}
