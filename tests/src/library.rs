//! The compiled library's C interface. Slices are never null, and have any aligned pointer when empty.
//!
//! Without the feature `library` the independent reader stands in, so that this package can be tried without the archive.

// What include/sycamoot.h declares is written down once.
#[cfg_attr(not(feature = "library"), allow(dead_code))]
#[path = "../../rust/src/library.rs"]
mod interface;

pub use interface::{Answer, Checked, Compared, Found, Text, Written};

#[cfg(feature = "library")]
pub use compiled::{check_index, compare, compare_indexed, look_up, read, term_text, write, write_index};
#[cfg(not(feature = "library"))]
pub use stand_in::{check_index, compare, compare_indexed, look_up, read, term_text, write, write_index};

#[cfg(feature = "library")]
mod compiled {
    use super::interface::{sycamoot_check_index, sycamoot_compare, sycamoot_compare_indexed, sycamoot_look_up};
    use super::interface::{sycamoot_read, sycamoot_term_text, sycamoot_write, sycamoot_write_index, Writer};
    use super::{Answer, Checked, Compared, Found, Text, Written};
    use crate::reader::long_form::Given;
    use crate::reader::read::Lent;

    pub fn read(document: &[u8], base: &[u8], mode: u32, lent: Lent) -> Answer {
        // SAFETY: each pointer and length are one live slice's, and the lent slices are borrowed by this call alone.
        unsafe {
            sycamoot_read(
                document.as_ptr(),
                document.len(),
                base.as_ptr(),
                base.len(),
                mode,
                lent.work.as_mut_ptr(),
                lent.work.len(),
                lent.rows.as_mut_ptr(),
                lent.rows.len(),
                lent.terms.as_mut_ptr(),
                lent.terms.len(),
                lent.store.as_mut_ptr(),
                lent.store.len(),
            )
        }
    }

    pub fn term_text(given: &Given, number: u32) -> Text {
        // SAFETY: as above.
        unsafe {
            sycamoot_term_text(
                given.terms.as_ptr(),
                given.terms.len(),
                given.term_count,
                given.store.as_ptr(),
                given.store.len(),
                given.store_count,
                number,
            )
        }
    }

    pub fn write(given: &Given, out: &mut [u8]) -> Written {
        written(sycamoot_write, given, out)
    }

    pub fn write_index(given: &Given, out: &mut [u8]) -> Written {
        written(sycamoot_write_index, given, out)
    }

    fn written(writer: Writer, given: &Given, out: &mut [u8]) -> Written {
        // SAFETY: as above.
        unsafe {
            writer(
                given.rows.as_ptr(),
                given.rows.len(),
                given.row_count,
                given.terms.as_ptr(),
                given.terms.len(),
                given.term_count,
                given.store.as_ptr(),
                given.store.len(),
                given.store_count,
                out.as_mut_ptr(),
                out.len(),
            )
        }
    }

    pub fn check_index(given: &Given, index: &[u8]) -> Checked {
        // SAFETY: as above.
        unsafe {
            sycamoot_check_index(
                given.rows.as_ptr(),
                given.rows.len(),
                given.row_count,
                given.terms.as_ptr(),
                given.terms.len(),
                given.term_count,
                given.store.as_ptr(),
                given.store.len(),
                given.store_count,
                index.as_ptr(),
                index.len(),
            )
        }
    }

    pub fn look_up(address: &[u8], index: &[u8]) -> Found {
        // SAFETY: as above.
        unsafe { sycamoot_look_up(address.as_ptr(), address.len(), index.as_ptr(), index.len()) }
    }

    pub fn compare(left: &Given, right: &Given, pairing: &[u32], left_list: &mut [u32], right_list: &mut [u32]) -> Compared {
        // SAFETY: as above.
        unsafe {
            sycamoot_compare(
                left.rows.as_ptr(),
                left.rows.len(),
                left.row_count,
                left.terms.as_ptr(),
                left.terms.len(),
                left.term_count,
                left.store.as_ptr(),
                left.store.len(),
                left.store_count,
                right.rows.as_ptr(),
                right.rows.len(),
                right.row_count,
                right.terms.as_ptr(),
                right.terms.len(),
                right.term_count,
                right.store.as_ptr(),
                right.store.len(),
                right.store_count,
                pairing.as_ptr(),
                pairing.len(),
                left_list.as_mut_ptr(),
                left_list.len(),
                right_list.as_mut_ptr(),
                right_list.len(),
            )
        }
    }

    pub fn compare_indexed(
        left: &Given,
        right: &Given,
        pairing: &[u32],
        left_list: &mut [u32],
        right_list: &mut [u32],
        index: &mut [u32],
    ) -> Compared {
        // SAFETY: as above.
        unsafe {
            sycamoot_compare_indexed(
                left.rows.as_ptr(),
                left.rows.len(),
                left.row_count,
                left.terms.as_ptr(),
                left.terms.len(),
                left.term_count,
                left.store.as_ptr(),
                left.store.len(),
                left.store_count,
                right.rows.as_ptr(),
                right.rows.len(),
                right.row_count,
                right.terms.as_ptr(),
                right.terms.len(),
                right.term_count,
                right.store.as_ptr(),
                right.store.len(),
                right.store_count,
                pairing.as_ptr(),
                pairing.len(),
                left_list.as_mut_ptr(),
                left_list.len(),
                right_list.as_mut_ptr(),
                right_list.len(),
                index.as_mut_ptr(),
                index.len(),
            )
        }
    }
}

#[cfg(not(feature = "library"))]
mod stand_in {
    use super::{Answer, Checked, Compared, Found, Text, Written};
    use crate::reader::changes;
    use crate::reader::index;
    use crate::reader::long_form::{self, Given};
    use crate::reader::look_up;
    use crate::reader::read::{self, Lent, Request};

    pub fn read(document: &[u8], base: &[u8], mode: u32, lent: Lent) -> Answer {
        let (work, row_words, term_words, store) = (lent.work.len(), lent.rows.len(), lent.terms.len(), lent.store.len());
        let answer = read::read(&Request { document, base, mode, work, row_words, term_words, store });
        let of = super::Answer::of(&answer);
        answer.leave(lent);
        of
    }

    pub fn term_text(given: &Given, number: u32) -> Text {
        Text::of(long_form::term_text(given, number))
    }

    pub fn write(given: &Given, out: &mut [u8]) -> Written {
        Written::of(long_form::write(given, out))
    }

    pub fn write_index(given: &Given, out: &mut [u8]) -> Written {
        Written::of(index::write(given, out))
    }

    pub fn check_index(given: &Given, bytes: &[u8]) -> Checked {
        Checked::of(index::check(given, bytes))
    }

    pub fn look_up(address: &[u8], index: &[u8]) -> Found {
        Found::of(look_up::look_up(address, index))
    }

    pub fn compare(left: &Given, right: &Given, pairing: &[u32], left_list: &mut [u32], right_list: &mut [u32]) -> Compared {
        Compared::of(changes::compare(left, right, pairing, left_list, right_list))
    }

    pub fn compare_indexed(
        left: &Given,
        right: &Given,
        pairing: &[u32],
        left_list: &mut [u32],
        right_list: &mut [u32],
        index: &mut [u32],
    ) -> Compared {
        index.fill(0);
        compare(left, right, pairing, left_list, right_list)
    }
}

impl Answer {
    /// The independent reader's answer in the library's form.
    pub fn of(answer: &crate::reader::read::Answer) -> Self {
        Answer {
            position: answer.position as u64,
            number: answer.number,
            rows: answer.rows.len() as u32,
            terms: answer.terms.len() as u32,
            store: answer.store.len() as u32,
        }
    }
}

impl Text {
    /// 18 comes with an empty part.
    pub fn of(part: Option<std::ops::Range<usize>>) -> Self {
        match part {
            Some(part) => Text { start: part.start as u64, length: part.len() as u64, number: 0 },
            None => Text { start: 0, length: 0, number: 18 },
        }
    }
}

impl Written {
    pub fn of((number, position): (u32, usize)) -> Self {
        Written { position: position as u64, number }
    }
}

impl Checked {
    pub fn of((number, yes): (u32, bool)) -> Self {
        Checked { number, yes: u32::from(yes) }
    }
}

impl Found {
    pub fn of((number, rows, first): (u32, u32, u32)) -> Self {
        Found { number, rows, first }
    }
}

impl Compared {
    pub fn of((number, same, left, right): (u32, bool, u32, u32)) -> Self {
        Compared { number, same: u32::from(same), left, right }
    }
}
