//! The texts of the keys: `k000000`, `k000001` and so on, which stand one behind the other.
use crate::plain::key::Key;

pub const WIDTH: usize = 7;

#[derive(Clone)]
pub struct Names {
    texts: &'static [u8],
    names: Vec<&'static str>,
}

impl Names {
    pub fn new(count: usize) -> Names {
        let texts: String = (0..count).map(|number| format!("k{number:06}")).collect();
        let texts: &'static str = texts.leak();
        let names = (0..count)
            .map(|at| &texts[at * WIDTH..(at + 1) * WIDTH])
            .collect();
        Names {
            texts: texts.as_bytes(),
            names,
        }
    }

    pub fn texts(&self) -> &'static [u8] {
        self.texts
    }

    pub fn key(&self, number: usize) -> Key {
        Key::new(self.names[number])
    }
}
