//! A stored case: a call, its answer by the original and document 01's refusals, and its bytes in the file.

use rows::{Call, Kind, Source};

/// The number that fills the lent output beforehand.
pub const FILLER: f64 = -7.25;

/// How many numbers the lent output can have at most.
pub const MOST_ROOM: usize = 4096;

/// How many bytes, or numbers of a list, the input can have at most.
pub const MOST_INPUT: usize = 1024;

#[derive(Clone, Debug)]
pub enum Input {
    Bytes(Vec<u8>),
    List(Vec<f64>),
}

#[derive(Clone, Debug)]
pub struct Case {
    /// The mesh type, 4 to 7.
    pub kind: u8,
    pub coordinate: u8,
    pub component: u8,
    pub flag: u8,
    pub components: u8,
    pub row_length: u16,
    pub decode: Vec<f64>,
    pub input: Input,
    pub room: usize,
}

/// What a call has answered, and the lent output after it.
#[derive(Clone, Debug)]
pub struct Answer {
    pub refused: u8,
    /// How many triangles or patches were written; for a refusal with ROOM, how many numbers are needed; for any other, 0.
    pub count: usize,
    pub output: Vec<f64>,
}

impl Answer {
    /// How many triangles or patches were written.
    pub fn written(&self) -> usize {
        match self.refused {
            0 => self.count,
            _ => 0,
        }
    }
}

impl Case {
    pub fn is_listed(&self) -> bool {
        matches!(self.input, Input::List(_))
    }

    /// The byte that names the function.
    pub fn function(&self) -> u8 {
        if self.is_listed() {
            10 + self.kind
        } else {
            self.kind
        }
    }

    /// LAYOUT of document 01's table.
    fn layout_is_unreadable(&self) -> bool {
        let outside = |width: u8| !(1..=32).contains(&width);
        !self.is_listed()
            && (outside(self.coordinate)
                || outside(self.component)
                || (self.kind != 5 && outside(self.flag))
                || self.decode.len() < 4)
    }

    /// The refusals of document 01's table that come before the reading, in its order. No input here is long enough for LENGTH.
    pub fn refused_at_once(&self) -> Option<u8> {
        if self.layout_is_unreadable() {
            return Some(1);
        }
        if self.components > 32 {
            return Some(2);
        }
        None
    }

    /// What the original answers: the count, and the rows' numbers.
    pub fn original(&self) -> (usize, Vec<f64>) {
        let kind = match self.kind {
            4 => Kind::Type4,
            5 => Kind::Type5 {
                row_length: usize::from(self.row_length),
            },
            6 => Kind::Type6,
            7 => Kind::Type7,
            other => unreachable!("there is no mesh of type {other}"),
        };
        let source = match &self.input {
            Input::Bytes(data) => Source::Binary {
                data,
                coordinate: usize::from(self.coordinate),
                component: usize::from(self.component),
                flag: usize::from(self.flag),
                decode: &self.decode,
            },
            Input::List(values) => Source::List(values),
        };
        Call {
            kind,
            components: usize::from(self.components),
            source,
        }
        .run()
    }

    /// How many numbers the answer needs: none where the call is refused at once.
    pub fn needed(&self) -> usize {
        match self.refused_at_once() {
            Some(_) => 0,
            None => self.original().1.len(),
        }
    }

    pub fn answer(&self) -> Answer {
        let mut output = vec![FILLER; self.room];
        let refusal = |refused: u8, count: usize, output: Vec<f64>| Answer {
            refused,
            count,
            output,
        };
        if let Some(refused) = self.refused_at_once() {
            return refusal(refused, 0, output);
        }
        let (count, numbers) = self.original();
        if numbers.len() > self.room {
            return refusal(4, numbers.len(), output);
        }
        output[..numbers.len()].copy_from_slice(&numbers);
        Answer {
            refused: 0,
            count,
            output,
        }
    }

    /// The case with an answer, in the format of `crates/replay/src/main.rt`.
    pub fn stored(&self, answer: &Answer) -> Vec<u8> {
        let numbers = |list: &[f64]| -> Vec<u8> {
            list.iter()
                .flat_map(|x| x.to_bits().to_be_bytes())
                .collect()
        };
        let (length, input) = match &self.input {
            Input::Bytes(data) => (data.len(), data.clone()),
            Input::List(values) => (values.len(), numbers(values)),
        };
        let (first, second) = digest(&answer.output);
        let mut bytes = vec![
            self.function(),
            self.coordinate,
            self.component,
            self.flag,
            self.components,
        ];
        bytes.extend(self.row_length.to_be_bytes());
        bytes.push(self.decode.len().try_into().expect("few Decode entries"));
        bytes.extend(two_bytes(length));
        bytes.extend(two_bytes(self.room));
        bytes.push(answer.refused);
        bytes.extend(two_bytes(answer.count));
        bytes.extend(first.to_be_bytes());
        bytes.extend(second.to_be_bytes());
        bytes.extend(numbers(&self.decode));
        bytes.extend(input);
        bytes
    }
}

fn two_bytes(number: usize) -> [u8; 2] {
    u16::try_from(number)
        .expect("a number of two bytes")
        .to_be_bytes()
}

/// The bits of a number, with those of one NaN for all.
fn pattern(x: f64) -> u64 {
    if x.is_nan() {
        0x7ff8_0000_0000_0000
    } else {
        x.to_bits()
    }
}

/// The sum of the numbers' bits, and the sum of that sum as it runs.
pub fn digest(numbers: &[f64]) -> (u64, u64) {
    numbers.iter().fold((0, 0), |(first, second), &x| {
        let first = first.wrapping_add(pattern(x));
        (first, second.wrapping_add(first))
    })
}
