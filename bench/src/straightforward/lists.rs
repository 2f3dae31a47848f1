//! What the calls by list share: the fields of list words, and the tests of list and info word.

/// The bits of `word` from `low` on, `width` of them.
pub fn field(word: u64, low: u32, width: u32) -> u64 {
    word >> low & ((1 << width) - 1)
}

/// FIRST and LAST, if list and info word are what a call by list takes.
pub fn first_and_last(list: &[u8], info: u64) -> Option<(u64, u64)> {
    let (first, last) = (field(info, 3, 9), field(info, 55, 9));
    let fits = !list.is_empty()
        && list.len() % 8 == 0
        && list.len() <= 8 * 512
        && field(info, 0, 3) == 0
        && field(info, 52, 3) == 0
        && last < list.len() as u64 / 8;
    fits.then_some((first, last))
}

/// The info word as it comes back.
pub fn with_first(info: u64, next: u64) -> u64 {
    info & !(0x1ff << 3) | (next % 512) << 3
}

pub fn page_of(entry: u64) -> u64 {
    field(entry, 12, 40)
}

/// Reserved bits, LEVEL or MIG_TYPE are not 0.
pub fn ill_formed(entry: u64) -> bool {
    let reserved = field(entry, 5, 2) | field(entry, 54, 2) | field(entry, 61, 3);
    let (level, mig_type) = (field(entry, 0, 2), field(entry, 10, 2));
    reserved != 0 || level != 0 || mig_type != 0
}
