//! A file made record by record.
use crate::form::Mark;
use crate::record::write;

#[derive(Clone, Default)]
pub struct Draft(pub Vec<u8>);

impl Draft {
    /// One more record; its fields are few enough for its length.
    pub fn put(&mut self, mark: Mark, fields: &[u16]) -> &mut Self {
        self.0.extend(write(mark.form().letters, fields).expect("a short record"));
        self
    }

    pub fn repeat(&mut self, count: usize, mark: Mark, fields: &[u16]) -> &mut Self {
        for _ in 0..count {
            self.put(mark, fields);
        }
        self
    }
}
