//! The read call: the answer, and what it leaves in lent memory.

use super::grammar::Recogniser;
use super::iri;
use super::lexer::{self, Next, Token};
use super::machine::{Machine, Refusal};
use super::tables::Group;
use super::text;
use super::utf8;

pub const LONGEST_DOCUMENT: usize = 1_048_576;
pub const LEAST_WORK: usize = 35_840;

/// What a caller lends, memory by its size: bytes, and for rows and terms 32-bit words.
#[derive(Clone, Copy)]
pub struct Request<'a> {
    pub document: &'a [u8],
    pub base: &'a [u8],
    pub mode: u32,
    pub work: usize,
    pub row_words: usize,
    pub term_words: usize,
    pub store: usize,
}

#[derive(Clone, PartialEq, Eq, Debug, Default)]
pub struct Answer {
    pub number: u32,
    pub position: usize,
    pub rows: Vec<Group>,
    pub terms: Vec<Group>,
    pub store: Vec<u8>,
}

/// The slices lent.
pub struct Lent<'a> {
    pub work: &'a mut [u8],
    pub rows: &'a mut [u32],
    pub terms: &'a mut [u32],
    pub store: &'a mut [u8],
}

pub fn read(request: &Request) -> Answer {
    match try_read(request) {
        Ok(answer) => answer,
        Err((number, position)) => Answer { number, position, ..Answer::default() },
    }
}

fn try_read(request: &Request) -> Result<Answer, (Refusal, usize)> {
    let document = request.document;
    let refuse_if = |wrong: bool, number: Refusal| if wrong { Err((number, 0)) } else { Ok(()) };
    refuse_if(document.len() > LONGEST_DOCUMENT, 1)?;
    refuse_if(request.mode > 1, 2)?;
    refuse_if(!request.base.is_empty() && !iri::can_be_base(request.base), 3)?;
    refuse_if(request.work < LEAST_WORK, 4)?;
    utf8::first_bad(document).map_or(Ok(()), |bad| Err((5, bad)))?;

    let mut recogniser = Recogniser::new(request.mode);
    let mut machine = Machine::new(document, request.base);
    let mut place = 0;
    loop {
        match lexer::next(document, place) {
            Next::Unreadable(at) => return Err((6, at)),
            Next::End if recogniser.is_complete() => break,
            Next::End => return Err((8, document.len())),
            Next::Token(token) => {
                take(request, &mut recogniser, &mut machine, token).map_err(|number| (number, token.start))?;
                place = token.end;
            }
        }
    }
    let tables = machine.tables;
    Ok(Answer { number: 0, position: document.len(), rows: tables.rows, terms: tables.terms, store: tables.store })
}

/// "at each token 6 to 16 in number order, 14 to 16 counting everything that token writes".
fn take(request: &Request, recogniser: &mut Recogniser, machine: &mut Machine, token: Token) -> Result<(), Refusal> {
    if text::names_no_character(request.document, token) {
        return Err(7);
    }
    if !recogniser.take(token.kind) {
        return Err(8);
    }
    machine.take(token)?;
    if machine.tables.rows.len() > request.row_words / 5 {
        return Err(14);
    }
    if machine.tables.terms.len() > request.term_words / 5 {
        return Err(15);
    }
    if machine.tables.store.len() > request.store {
        return Err(16);
    }
    Ok(())
}

impl Answer {
    /// Leaves in lent memory what this answer leaves there.
    pub fn leave(&self, lent: Lent) {
        match self.number {
            0 => {
                lent.work.fill(0);
                lent.rows[..self.rows.len() * 5].copy_from_slice(&self.rows.concat());
                lent.terms[..self.terms.len() * 5].copy_from_slice(&self.terms.concat());
                lent.store[..self.store.len()].copy_from_slice(&self.store);
            }
            1..=4 => {}
            _ => {
                lent.work.fill(0);
                lent.rows.fill(0);
                lent.terms.fill(0);
                lent.store.fill(0);
            }
        }
    }
}
