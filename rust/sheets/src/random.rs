//! Random sheets, the same on every run: sound ones, and the ways in which the format knows one to be wrong.

/// The splitmix generator.
pub struct Random(u64);

impl Random {
    pub fn new(seed: u64) -> Random {
        Random(seed)
    }

    /// A number from 0 to `end` - 1.
    pub fn below(&mut self, end: u64) -> u64 {
        self.0 = self.0.wrapping_add(0x9e37_79b9_7f4a_7c15);
        let mut z = self.0;
        z = (z ^ (z >> 30)).wrapping_mul(0xbf58_476d_1ce4_e5b9);
        z = (z ^ (z >> 27)).wrapping_mul(0x94d0_49bb_1331_11eb);
        (z ^ (z >> 31)) % end
    }

    /// A place in a list of this length.
    pub fn index(&mut self, length: usize) -> usize {
        self.below(length as u64) as usize
    }

    /// The same things in any order.
    pub fn shuffle<T>(&mut self, things: &mut [T]) {
        for i in (1..things.len()).rev() {
            things.swap(i, self.index(i + 1));
        }
    }

    /// The rows of a graph with few routes, in which nothing is wrong.
    pub fn rows(&mut self) -> Vec<Vec<u32>> {
        let most = [4, 9, 33][self.index(3)];
        let n = self.index(most);
        let parts = 1 + self.below(6);
        self.rows_of(n, parts)
    }

    /// The rows of a graph of n routes in which nothing is wrong, each in any order. Of the edges that are possible one
    /// in `parts` is there.
    pub fn rows_of(&mut self, n: usize, parts: u64) -> Vec<Vec<u32>> {
        let mut rows = vec![Vec::new(); n];
        for v in 0..n {
            for w in 0..v {
                if self.below(parts) == 0 {
                    rows[v].push(w as u32);
                    rows[w].push(v as u32);
                }
            }
        }
        rows.iter_mut().for_each(|row| self.shuffle(row));
        rows
    }

    /// A row that is not empty, if there is one.
    fn some_row(&mut self, rows: &[Vec<u32>]) -> Option<usize> {
        let full: Vec<usize> = (0..rows.len()).filter(|&v| !rows[v].is_empty()).collect();
        (!full.is_empty()).then(|| full[self.index(full.len())])
    }

    /// One thing wrong with the rows: a loop, a twin, an entry gone or changed or no route, two entries swapped.
    pub fn damage_rows(&mut self, rows: &mut [Vec<u32>]) {
        if rows.is_empty() {
            return;
        }
        let (any, n) = (self.index(rows.len()), rows.len() as u64);
        let Some(row) = self.some_row(rows) else {
            rows[any].push(self.below(n + 1) as u32);
            return;
        };
        let place = self.index(rows[row].len());
        match self.below(6) {
            0 => {
                let at = self.index(rows[any].len() + 1);
                rows[any].insert(at, any as u32);
            }
            1 => {
                let (twin, at) = (rows[row][place], self.index(rows[row].len() + 1));
                rows[row].insert(at, twin);
            }
            2 => drop(rows[row].remove(place)),
            3 => rows[row][place] = self.below(n) as u32,
            4 => rows[row][place] = [n, n + self.below(9), u32::MAX.into()][self.index(3)] as u32,
            _ => {
                let other = self.some_row(rows).unwrap_or(row);
                let there = self.index(rows[other].len());
                let entry = rows[other][there];
                rows[other][there] = rows[row][place];
                rows[row][place] = entry;
            }
        }
    }

    /// One thing wrong with the bytes: a bit, a byte or a number changed, a start moved, some bytes cut off or added.
    pub fn damage_bytes(&mut self, sheet: &mut Vec<u8>) {
        if sheet.len() < 8 {
            return;
        }
        let (at, contents) = (self.index(sheet.len()), 2 + usize::from(sheet[0]));
        match self.below(7) {
            0 => sheet[at] ^= 1 << self.below(8),
            1 => sheet[at] = self.below(256) as u8,
            2 => self.change_number(sheet, 0),
            3 => self.change_number(sheet, at / 4),
            4 => {
                let start = 1 + self.index(contents - 1);
                self.change_number(sheet, start);
            }
            5 => sheet.truncate(at),
            _ => sheet.extend((0..=self.below(8)).map(|byte| byte as u8)),
        }
    }

    /// Another number near the one that stands there, or with bits that only a wide number keeps.
    fn change_number(&mut self, sheet: &mut [u8], k: usize) {
        let Some(bytes) = sheet.get_mut(4 * k..4 * k + 4) else { return };
        let was = u32::from_le_bytes(bytes.try_into().unwrap());
        let near = was.wrapping_add(self.below(5) as u32).wrapping_sub(2);
        let wide = was ^ [1 << 16, 1 << 30, 3 << 30, 1 << 31][self.index(4)];
        let now = if self.below(3) == 0 { wide } else { near };
        bytes.copy_from_slice(&now.to_le_bytes());
    }
}
