//! Labels, and the schemes that name their parts.

#[derive(Clone, Copy, PartialEq, Eq)]
pub struct Label {
    pub level: u8,
    pub categories: [u64; 4],
}

impl Label {
    #[inline(always)]
    pub fn dominates(&self, other: &Label) -> bool {
        let missing = |n: usize| other.categories[n] & !self.categories[n];
        other.level <= self.level && missing(0) | missing(1) | missing(2) | missing(3) == 0
    }
}

/// The names of levels, the lowest first, and of categories.
#[derive(Default)]
pub struct Scheme {
    pub levels: Vec<String>,
    pub categories: Vec<String>,
}

fn place(names: &[String], word: &[u8]) -> Option<usize> {
    names.iter().position(|name| name.as_bytes() == word)
}

impl Scheme {
    /// The label that a text spells, `LEVEL` or `LEVEL:CAT,..`.
    pub fn read(&self, text: &[u8]) -> Option<Label> {
        let mut parts = text.splitn(2, |byte| *byte == b':');
        let level = place(&self.levels, parts.next()?)? as u8;
        let mut categories = [0; 4];
        for word in parts.next().into_iter().flat_map(|list| list.split(|byte| *byte == b',')) {
            let n = place(&self.categories, word)?;
            if categories[n / 64] >> (n % 64) & 1 == 1 {
                return None;
            }
            categories[n / 64] |= 1 << (n % 64);
        }
        Some(Label { level, categories })
    }

    /// Whether a label that was written by numbers is of this scheme.
    pub fn has(&self, label: &Label) -> bool {
        let ends = |n: usize| 64 * (n + 1) - label.categories[n].leading_zeros() as usize;
        let is_below = |n: usize| label.categories[n] == 0 || ends(n) <= self.categories.len();
        usize::from(label.level) < self.levels.len() && (0..4).all(is_below)
    }
}
