//! Records by their lengths alone, and the 16-bit fields of a body.

pub struct Record<'a> {
    /// Where it starts in the file.
    pub at: usize,
    pub letters: [u8; 2],
    pub body: &'a [u8],
}

/// The whole records of a file, and what is left after them (a record cut short, or nothing).
pub fn records(bytes: &[u8]) -> (Vec<Record<'_>>, &[u8]) {
    let mut found = Vec::new();
    let mut at = 0;
    while let Some(head) = bytes.get(at..at + 4) {
        let length = u16::from_le_bytes([head[2], head[3]]) as usize;
        let Some(body) = bytes.get(at + 4..at + 4 + length) else { break };
        found.push(Record { at, letters: [head[0], head[1]], body });
        at += 4 + length;
    }
    (found, &bytes[at..])
}

/// Where the first request starts: the first RQ with a whole header, by lengths alone; else the end.
pub fn split(bytes: &[u8]) -> usize {
    let (found, rest) = records(bytes);
    let whole = found.iter().find(|r| r.letters == *b"RQ").map(|r| r.at);
    let cut = bytes.len() - rest.len();
    let tail = rest.len() >= 4 && rest.starts_with(b"RQ");
    whole.unwrap_or(if tail { cut } else { bytes.len() })
}

/// The fields of a body; the last byte of an odd one is left out.
pub fn fields(body: &[u8]) -> Vec<u16> {
    body.chunks_exact(2).map(|c| u16::from_le_bytes([c[0], c[1]])).collect()
}

/// A record of these fields, unless its length passes 65,535.
pub fn write(letters: [u8; 2], fields: &[u16]) -> Option<Vec<u8>> {
    let length = u16::try_from(2 * fields.len()).ok()?;
    let mut bytes = letters.to_vec();
    bytes.extend(length.to_le_bytes());
    for f in fields {
        bytes.extend(f.to_le_bytes());
    }
    Some(bytes)
}

/// A record of the library's own: its length has 32 bits.
pub fn write_long(letters: [u8; 2], fields: &[u16]) -> Vec<u8> {
    let mut bytes = letters.to_vec();
    bytes.extend((2 * fields.len() as u32).to_le_bytes());
    bytes.extend(fields.iter().flat_map(|f| f.to_le_bytes()));
    bytes
}

/// The fields of such a record where it stands whole at the start; bytes may follow it.
pub fn read_long(letters: [u8; 2], bytes: &[u8]) -> Option<Vec<u16>> {
    let (head, rest) = bytes.split_at_checked(6)?;
    let length = u32::from_le_bytes([head[2], head[3], head[4], head[5]]) as usize;
    let body = rest.get(..length)?;
    (head.starts_with(&letters) && length % 2 == 0).then(|| fields(body))
}

/// Fields taken one after the other.
pub struct Cursor<'a> {
    left: &'a [u16],
}

impl<'a> Cursor<'a> {
    pub fn new(fields: &'a [u16]) -> Self {
        Cursor { left: fields }
    }

    pub fn next(&mut self) -> Option<u16> {
        self.take(1).map(|f| f[0])
    }

    pub fn take(&mut self, count: usize) -> Option<&'a [u16]> {
        let (taken, left) = self.left.split_at_checked(count)?;
        self.left = left;
        Some(taken)
    }

    pub fn left(&self) -> usize {
        self.left.len()
    }
}

#[cfg(test)]
mod tests {
    use super::*;

    #[test]
    fn a_request_that_is_cut_still_splits() {
        let mut file = write(*b"TY", &[0]).unwrap();
        let at = file.len();
        file.extend(b"RQ\x06\x00\x00");
        assert_eq!(split(&file), at);
        file.truncate(at + 3);
        assert_eq!(split(&file), at + 3);
    }
}
