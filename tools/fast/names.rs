//! Names as numbers, and tables that find an entry by its number.

/// A name's bytes, or those of the word `all`; the first is the lowest byte.
pub type Word = u64;

pub const ALL: Word = word_of(b"all");

const fn word_of(text: &[u8]) -> Word {
    let mut word = 0;
    let mut index = text.len();
    while index > 0 {
        index -= 1;
        word = word << 8 | text[index] as Word;
    }
    word
}

const fn name_bytes() -> [bool; 256] {
    let mut table = [false; 256];
    let mut byte = 0;
    while byte < 256 {
        table[byte] = matches!(byte as u8, b'a'..=b'z' | b'0'..=b'9');
        byte += 1;
    }
    table
}

static IS_NAME_BYTE: [bool; 256] = name_bytes();

/// The word that a text is: a name or `all`.
pub fn word(text: &[u8]) -> Option<Word> {
    if text.is_empty() || text.len() > 8 {
        return None;
    }
    text.iter().all(|&byte| IS_NAME_BYTE[byte as usize]).then(|| word_of(text))
}

pub fn name(text: &[u8]) -> Option<Word> {
    word(text).filter(|&word| word != ALL)
}

const SLOTS: usize = 256;

/// Keys above 0, numbered in the order in which they came; at most 128, so that half the slots stay free.
pub struct Table {
    keys: [u64; SLOTS],
    numbers: [u8; SLOTS],
    count: usize,
}

impl Table {
    pub fn new() -> Table {
        Table { keys: [0; SLOTS], numbers: [0; SLOTS], count: 0 }
    }

    pub fn len(&self) -> usize {
        self.count
    }

    /// The slot that holds the key, or the free one where it would stand.
    fn slot(&self, key: u64) -> usize {
        let mut slot = (key.wrapping_mul(0x9e37_79b9_7f4a_7c15) >> 56) as usize;
        while self.keys[slot] != key && self.keys[slot] != 0 {
            slot = (slot + 1) % SLOTS;
        }
        slot
    }

    pub fn find(&self, key: u64) -> Option<usize> {
        let slot = self.slot(key);
        (self.keys[slot] == key).then(|| self.numbers[slot] as usize)
    }

    pub fn add(&mut self, key: u64) {
        let slot = self.slot(key);
        self.keys[slot] = key;
        self.numbers[slot] = self.count as u8;
        self.count += 1;
    }
}
