//! Hard sheets for the depot sheet (README.md): edge cases first, the same on every run, then drawn ones. Sheet k of a
//! seed depends on both alone.

#[path = "generate/draw.rs"]
mod draw;
mod drawn;
mod edge;
mod form;
pub mod known;
mod mutate;
mod plan;
pub mod tally;

/// The sheets of a seed.
pub struct Sheets {
    seed: u64,
    edges: Vec<Vec<u8>>,
}

/// A sheet with as many stages and readings as there may be, none missing.
pub fn longest() -> Vec<u8> {
    plan::Plan::steady(plan::STAGES, plan::READINGS).bytes()
}

impl Sheets {
    pub fn new(seed: u64) -> Self {
        Sheets { seed, edges: edge::sheets() }
    }

    /// How many edge cases there are.
    pub fn edges(&self) -> u64 {
        self.edges.len() as u64
    }

    pub fn sheet(&self, k: u64) -> Vec<u8> {
        match self.edges.get(k as usize) {
            Some(edge) => edge.clone(),
            None => drawn::sheet(&mut draw::Draw::new(self.seed, k)),
        }
    }
}
