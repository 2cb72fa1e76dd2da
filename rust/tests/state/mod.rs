//! A machine, or a plain file where there is no model, over a slice: the library's calls for the one or the other.

use kiqsaryn::{make, make_plain, replay, replay_plain, step, step_plain, Header, Refusal, Replayed, Row};

#[derive(Clone, Debug)]
pub struct State {
    pub model: Option<u32>,
    pub header: Header,
    pub maps: Vec<u32>,
}

impl State {
    pub fn make(&mut self) -> Result<(), Refusal> {
        match self.model {
            Some(model) => make(model, self.header, &mut self.maps),
            None => make_plain(self.header, &mut self.maps),
        }
    }

    pub fn step(&mut self, row: Row, number: u32, out: &mut [u32]) -> Result<u32, Refusal> {
        match self.model {
            Some(model) => step(model, self.header, &mut self.maps, row, number, out),
            None => step_plain(self.header, &mut self.maps, row, number, out),
        }
    }

    pub fn replay(&mut self, rows: &[u32], first: u32, n: u32, counts: &mut [u32], out: &mut [u32]) -> Replayed {
        match self.model {
            Some(model) => replay(model, self.header, &mut self.maps, rows, first, n, counts, out),
            None => replay_plain(self.header, &mut self.maps, rows, first, n, counts, out),
        }
    }
}
