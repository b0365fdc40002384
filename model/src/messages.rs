//! Messages: words from, to, round and count, then values (number 15).

use crate::bytes::{read_values, values, word, words, Value};
use crate::refusal::{Answer, Refusal};

#[derive(Clone, Debug, PartialEq, Eq)]
pub struct Message {
    pub from: usize,
    pub to: usize,
    pub round: usize,
    /// In export order.
    pub values: Vec<Value>,
}

impl Message {
    pub fn read(bytes: &[u8]) -> Answer<Message> {
        let (_, rest) = bytes.split_at_checked(8).ok_or(Refusal::Message)?;
        let values = read_values(rest).filter(|values| values.len() == word(bytes, 3)).ok_or(Refusal::Message)?;
        Ok(Message { from: word(bytes, 0), to: word(bytes, 1), round: word(bytes, 2), values })
    }

    pub fn encode(&self) -> Vec<u8> {
        let mut bytes = words(&[self.from, self.to, self.round, self.values.len()]);
        bytes.extend(values(&self.values));
        bytes
    }
}
