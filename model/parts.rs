//! Outputs part by part: lines of text, or words.

#[derive(Clone, Copy)]
pub enum Parts {
    Lines,
    Words,
}

impl Parts {
    fn of(self, output: &[u8]) -> Vec<&[u8]> {
        match self {
            Parts::Lines => output.split_inclusive(|&byte| byte == b'\n').collect(),
            Parts::Words => output.chunks(4).collect(),
        }
    }

    pub fn count(self, output: &[u8]) -> usize {
        self.of(output).len()
    }

    /// The first part in which two outputs differ: its number, and how each of them has it.
    pub fn difference(self, one: &[u8], other: &[u8]) -> Option<(String, [String; 2])> {
        if one == other {
            return None;
        }
        let [one, other] = [one, other].map(|output| self.of(output));
        let same = one.iter().zip(&other).take_while(|(one, other)| one == other).count();
        let place = match self {
            Parts::Lines => format!("line {}", same + 1),
            Parts::Words => format!("word {}", same + 1),
        };
        Some((place, [one, other].map(|parts| self.shown(parts.get(same).copied()))))
    }

    fn shown(self, part: Option<&[u8]>) -> String {
        match (self, part) {
            (Parts::Lines, None) => String::from("(no line)"),
            (Parts::Words, None) => String::from("(no word)"),
            (Parts::Words, Some(&[a, b, c, d])) => format!("{:08X}", u32::from_le_bytes([a, b, c, d])),
            (_, Some(part)) => format!("\"{}\"", part.escape_ascii()),
        }
    }
}
