//! A range that is lent to the library, with guards on both sides.

/// How many guards stand on each side, at least.
const GUARD: usize = 64;

/// What a range is made of: bytes, or numbers of eight bytes.
pub trait Item: Copy + PartialEq {
    /// The guard at a place: never the same twice in a row.
    fn guard(place: usize) -> Self;
}

impl Item for u8 {
    fn guard(place: usize) -> u8 {
        (place * 37 + 165) as u8
    }
}

impl Item for u64 {
    fn guard(place: usize) -> u64 {
        (place as u64 + 1).wrapping_mul(0x9e37_79b9_7f4a_7c15)
    }
}

pub struct Lent<T> {
    items: Vec<T>,
    start: usize,
    length: usize,
    as_lent: Vec<T>,
}

impl<T: Item> Lent<T> {
    /// Lends these bytes or numbers. The shift moves bytes against the machine's words.
    pub fn new(content: &[T], shift: usize) -> Lent<T> {
        let start = GUARD + shift % 8;
        let mut items: Vec<T> = (0..start + content.len() + GUARD).map(T::guard).collect();
        items[start..start + content.len()].copy_from_slice(content);
        Lent { items, start, length: content.len(), as_lent: content.to_vec() }
    }

    pub fn inside(&self) -> &[T] {
        &self.items[self.start..self.start + self.length]
    }

    pub fn inside_mut(&mut self) -> &mut [T] {
        &mut self.items[self.start..self.start + self.length]
    }

    /// Whether nothing outside was touched.
    pub fn is_guarded(&self) -> bool {
        let inside = self.start..self.start + self.length;
        self.items.iter().enumerate().all(|(k, item)| inside.contains(&k) || *item == T::guard(k))
    }

    /// Whether everything inside is as it was lent.
    pub fn is_as_lent(&self) -> bool {
        self.inside() == self.as_lent
    }
}
