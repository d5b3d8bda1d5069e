//! The witness file, from 02's words: a bit map, then the fields whose bit stands, low byte first.

#[derive(Clone, Copy, PartialEq, Eq, Debug, Default)]
pub struct Record {
    pub map: u8,
    pub claim: u8,
    pub unknowns: u16,
    pub clauses: u16,
    pub universal: u16,
    pub existential: u16,
    pub rounds: u16,
}

impl Record {
    pub fn has(&self, bit: u32) -> bool {
        self.map >> bit & 1 == 1
    }

    /// Its map and the fields whose bit stands, the others 0.
    pub fn kept(&self) -> Record {
        let mut kept = Record { map: self.map, ..Record::default() };
        if self.has(0) {
            kept.claim = self.claim;
        }
        if self.has(1) {
            (kept.unknowns, kept.clauses) = (self.unknowns, self.clauses);
        }
        if self.has(2) {
            kept.universal = self.universal;
        }
        if self.has(3) {
            kept.existential = self.existential;
        }
        if self.has(4) {
            kept.rounds = self.rounds;
        }
        kept
    }

    /// 'Then with 7 a claim above 1, then with 4 a count of 0 or over 256.'
    fn content(&self) -> Result<(), u64> {
        if self.has(0) && self.claim > 1 {
            return Err(7);
        }
        for (bit, count) in [(2, self.universal), (3, self.existential)] {
            if self.has(bit) && !(1..=256).contains(&count) {
                return Err(4);
            }
        }
        Ok(())
    }

    /// The length of its file.
    pub fn size(&self) -> usize {
        let rows = |bit, count: u16| if self.has(bit) { 2 + 16 * count as usize } else { 0 };
        1 + usize::from(self.has(0)) + 4 * usize::from(self.has(1)) + rows(2, self.universal) + rows(3, self.existential) + 2 * usize::from(self.has(4))
    }
}

/// Takes fields off the front of a file.
struct Front<'a>(&'a [u8]);

impl<'a> Front<'a> {
    fn take(&mut self, bytes: usize) -> Result<&'a [u8], u64> {
        if self.0.len() < bytes {
            return Err(18);
        }
        let (field, rest) = self.0.split_at(bytes);
        self.0 = rest;
        Ok(field)
    }

    fn number(&mut self) -> Result<u16, u64> {
        self.take(2).map(|field| u16::from_le_bytes([field[0], field[1]]))
    }
}

/// The record and the two sides' rows, or the number of the cause.
pub fn read(file: &[u8]) -> Result<(Record, &[u8], &[u8]), u64> {
    let mut front = Front(file);
    let mut record = Record { map: front.take(1)?[0], ..Record::default() };
    let (mut universal, mut existential): (&[u8], &[u8]) = (&[], &[]);
    if record.map & 0b1110_0000 != 0 {
        return Err(17);
    }
    if record.has(0) {
        record.claim = front.take(1)?[0];
    }
    if record.has(1) {
        record.unknowns = front.number()?;
        record.clauses = front.number()?;
    }
    if record.has(2) {
        record.universal = front.number()?;
        universal = front.take(16 * record.universal as usize)?;
    }
    if record.has(3) {
        record.existential = front.number()?;
        existential = front.take(16 * record.existential as usize)?;
    }
    if record.has(4) {
        record.rounds = front.number()?;
    }
    if !front.0.is_empty() {
        return Err(18);
    }
    record.content()?;
    Ok((record, universal, existential))
}

/// The bytes of a record, whatever it holds; of the rows as many as are there.
pub fn bytes(record: &Record, universal: &[u8], existential: &[u8]) -> Vec<u8> {
    let mut file = vec![record.map];
    if record.has(0) {
        file.push(record.claim);
    }
    if record.has(1) {
        file.extend(record.unknowns.to_le_bytes());
        file.extend(record.clauses.to_le_bytes());
    }
    for (bit, count, rows) in [(2, record.universal, universal), (3, record.existential, existential)] {
        if record.has(bit) {
            file.extend(count.to_le_bytes());
            file.extend(&rows[..rows.len().min(16 * count as usize)]);
        }
    }
    if record.has(4) {
        file.extend(record.rounds.to_le_bytes());
    }
    file
}

/// The file that is written into this room, or the number of the cause.
pub fn write(record: &Record, universal: &[u8], existential: &[u8], room: usize) -> Result<Vec<u8>, u64> {
    if record.map > 31 {
        return Err(17);
    }
    if room < record.size() {
        return Err(18);
    }
    record.content()?;
    if record.has(2) && record.universal as usize > universal.len() / 16 || record.has(3) && record.existential as usize > existential.len() / 16 {
        return Err(4);
    }
    Ok(bytes(record, universal, existential))
}
