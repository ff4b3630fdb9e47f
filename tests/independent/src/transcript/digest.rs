//! The digests of a page and of bytes.

use crate::state::{Cell, COLUMNS};

/// FNV-1a over the page. The digest before each row is kept, so that only the
/// rows from the first changed one are gone through again.
pub struct PageDigest {
    page: Vec<Cell>,
    before_row: Vec<u64>,
    digest: u64,
}

impl PageDigest {
    const OFFSET: u64 = 0xCBF2_9CE4_8422_2325;
    const PRIME: u64 = 0x100_0000_01B3;

    pub fn new() -> PageDigest {
        PageDigest {
            page: Vec::new(),
            before_row: Vec::new(),
            digest: PageDigest::OFFSET,
        }
    }

    pub fn of(&mut self, page: &[Cell]) -> u64 {
        let same_length = self.page.len() == page.len();
        let old_rows = self.page.chunks(COLUMNS);
        let same_rows = old_rows
            .zip(page.chunks(COLUMNS))
            .take_while(|(a, b)| same_cells(a, b));
        let first_changed = if same_length {
            same_rows.count() * COLUMNS
        } else {
            0
        };
        if same_length && first_changed >= page.len() {
            return self.digest;
        }
        self.go_through(page, first_changed);
        self.digest
    }

    fn go_through(&mut self, page: &[Cell], first: usize) {
        let mut digest = match first {
            0 => PageDigest::OFFSET,
            _ => self.before_row[first / COLUMNS],
        };
        self.before_row.truncate(first / COLUMNS);
        for row in page[first..].chunks(COLUMNS) {
            self.before_row.push(digest);
            digest = PageDigest::through_row(digest, row);
        }
        self.page.truncate(first);
        self.page.extend_from_slice(&page[first..]);
        self.digest = digest;
    }

    /// A high byte of 0 leaves only its multiplication, which joins the other.
    fn through_row(mut digest: u64, row: &[Cell]) -> u64 {
        let is_all_text = row.iter().fold(0, |sum, cell| sum | cell.0) <= 0xFF;
        for cell in row {
            let [low, high] = cell.0.to_le_bytes();
            if is_all_text {
                let prime_twice = PageDigest::PRIME.wrapping_mul(PageDigest::PRIME);
                digest = (digest ^ low as u64).wrapping_mul(prime_twice);
            } else {
                digest = (digest ^ low as u64).wrapping_mul(PageDigest::PRIME);
                digest = (digest ^ high as u64).wrapping_mul(PageDigest::PRIME);
            }
        }
        digest
    }
}

fn same_cells(a: &[Cell], b: &[Cell]) -> bool {
    a.iter().zip(b).fold(0, |sum, (a, b)| sum | (a.0 ^ b.0)) == 0
}

pub fn bytes_digest(bytes: &[u8]) -> u64 {
    bytes.iter().fold(PageDigest::OFFSET, |digest, &byte| {
        (digest ^ byte as u64).wrapping_mul(PageDigest::PRIME)
    })
}
