//! A page of blocks with its bitmap and state, owned or borrowed.

use crate::answer::{Answer, Refusal};
use crate::event::{Event, Request};
use crate::ffi::{self, State, ANSWER_WORDS, EVENT_WORDS, STATE_WORDS};

/// Words that the page owns, or that the host lends to it.
#[derive(Debug)]
enum Words<'a> {
    Owned(Vec<u64>),
    Lent(&'a mut [u64]),
}

impl Words<'_> {
    fn get(&self) -> &[u64] {
        match self {
            Words::Owned(words) => words,
            Words::Lent(words) => words,
        }
    }

    fn get_mut(&mut self) -> &mut [u64] {
        match self {
            Words::Owned(words) => words,
            Words::Lent(words) => words,
        }
    }
}

/// A page of n blocks of bw words for W workers, with its bitmap and its state.
///
/// Calls take `&mut self`, so one call is made at a time; a host with threads puts the page behind a lock.
#[derive(Debug)]
pub struct Page<'a> {
    state: State,
    page: Words<'a>,
    bits: Words<'a>,
}

/// The words that a page and a bitmap of n blocks have; none past the sizes that memory can hold.
fn lengths(n: u64, bw: u64) -> Option<(usize, usize)> {
    let page = n.checked_add(1)?.checked_mul(bw)?;
    let bits = n.checked_add(64)? / 64;
    Some((usize::try_from(page).ok()?, usize::try_from(bits).ok()?))
}

impl Page<'static> {
    /// The most blocks that a page has.
    pub const MOST_BLOCKS: u64 = 4095;
    /// The most words that a block has.
    pub const MOST_WORDS: u64 = 64;

    /// A fresh page with words of its own, all 0. Refused with [`Refusal::BadPage`] if n, bw or W breaks the page rules.
    pub fn fresh(n: u64, bw: u64, w: u64) -> Result<Page<'static>, Refusal> {
        if n > Self::MOST_BLOCKS || bw > Self::MOST_WORDS {
            return Err(Refusal::BadPage);
        }
        let (page, bits) = lengths(n, bw).ok_or(Refusal::BadPage)?;
        Page::start(Words::Owned(vec![0; page]), Words::Owned(vec![0; bits]), n, bw, w)
    }
}

impl<'a> Page<'a> {
    /// A fresh page over the host's words, (n+1)·bw of them, and a bitmap of (n+64)/64 words, which is zeroed. The page
    /// stays as it is, so entries may be filled before.
    ///
    /// ```
    /// use albmerik::{Page, Refusal};
    /// let (mut words, mut bits) = (vec![0; 64 * 4], vec![0; 1]);
    /// assert!(Page::fresh_over(&mut words, &mut bits, 63, 4, 8).is_ok());
    /// assert_eq!(Page::fresh_over(&mut words[1..], &mut bits, 63, 4, 8).err(), Some(Refusal::BadPage));
    /// ```
    pub fn fresh_over(page: &'a mut [u64], bits: &'a mut [u64], n: u64, bw: u64, w: u64) -> Result<Page<'a>, Refusal> {
        Page::start(Words::Lent(page), Words::Lent(bits), n, bw, w)
    }

    fn start(page: Words<'a>, bits: Words<'a>, n: u64, bw: u64, w: u64) -> Result<Page<'a>, Refusal> {
        let mut made = Page { state: [0; STATE_WORDS], page, bits };
        let answer = ffi::fresh(&mut made.state, made.page.get(), made.bits.get_mut(), n, bw, w);
        Answer::from(answer).at_once()?;
        Ok(made)
    }

    /// Goes on with a state, a page and a bitmap that were kept from before. Any words are accepted: what is wrong with
    /// them is answered by the calls.
    pub fn resume(state: State, page: &'a mut [u64], bits: &'a mut [u64]) -> Page<'a> {
        Page { state, page: Words::Lent(page), bits: Words::Lent(bits) }
    }

    /// The words of the state, to be kept for [`Page::resume`].
    pub fn state(&self) -> &State {
        &self.state
    }

    /// The words of the page.
    pub fn words(&self) -> &[u64] {
        self.page.get()
    }

    /// The words of the bitmap.
    pub fn bits(&self) -> &[u64] {
        self.bits.get()
    }

    /// A worker's request.
    pub fn request(&mut self, worker: u64, request: Request) -> Answer {
        let (a, b) = request.arguments();
        let (page, bits) = (self.page.get_mut(), self.bits.get_mut());
        ffi::request(&mut self.state, page, bits, worker, request.code(), a, b).into()
    }

    /// A worker's move: one stage of its operation. With the flag set, an exchange fails.
    pub fn make_move(&mut self, worker: u64, flag: bool) -> Answer {
        ffi::make_move(&mut self.state, self.page.get_mut(), self.bits.get(), worker, u64::from(flag)).into()
    }

    /// Switches T on.
    pub fn on(&mut self) -> Answer {
        ffi::on(&mut self.state, self.page.get(), self.bits.get()).into()
    }

    /// Switches T off. Value: its tag.
    pub fn off(&mut self) -> Answer {
        ffi::off(&mut self.state, self.page.get(), self.bits.get()).into()
    }

    /// Runs events in order and gives each one's answer. This is the fastest way to make many calls.
    ///
    /// ```
    /// use albmerik::{Answer, Event, Page, Request};
    /// let mut page = Page::fresh(63, 4, 8)?;
    /// let answers = page.events(&[
    ///     Event::Request { worker: 0, request: Request::Extend { first: 3, count: 3 } },
    ///     Event::Request { worker: 0, request: Request::Pop },
    /// ])?;
    /// assert_eq!(answers, [Answer::Done(3), Answer::Done(3)]);
    /// # Ok::<(), albmerik::Refusal>(())
    /// ```
    pub fn events(&mut self, events: &[Event]) -> Result<Vec<Answer>, Refusal> {
        let words: Vec<u64> = events.iter().flat_map(|event| event.words()).collect();
        let mut answers = vec![0; words.len() / EVENT_WORDS * ANSWER_WORDS];
        let (page, bits) = (self.page.get_mut(), self.bits.get_mut());
        Answer::from(ffi::events(&mut self.state, page, bits, &words, &mut answers)).at_once()?;
        let pairs = answers.chunks_exact(ANSWER_WORDS);
        Ok(pairs.map(|pair| ffi::Numbers { number: pair[0], value: pair[1] }.into()).collect())
    }

    /// How many blocks are on a list or in a hand.
    pub fn listed_count(&self) -> Result<u64, Refusal> {
        Answer::from(ffi::listed_count(&self.state, self.words(), self.bits())).at_once()
    }

    /// The smallest block that is neither on a list nor in a hand; [`Refusal::NoneLeft`] if there is none.
    pub fn first_unlisted(&self) -> Result<u64, Refusal> {
        Answer::from(ffi::first_unlisted(&self.state, self.words(), self.bits())).at_once()
    }

    /// The entry of a block that is with its caller: the bw-1 words after its link.
    pub fn entry(&self, block: u64) -> Result<&[u64], Refusal> {
        Answer::from(ffi::entry_answer(&self.state, self.words(), self.bits(), block)).at_once()?;
        Ok(&self.words()[self.entry_range(block)])
    }

    /// The entry of any block 1 to n, to be written: only links belong to the lists.
    pub fn entry_mut(&mut self, block: u64) -> Result<&mut [u64], Refusal> {
        match ffi::entry_answer(&self.state, self.words(), self.bits(), block).into() {
            Answer::Refused(refusal) if refusal != Refusal::Listed => Err(refusal),
            _ => {
                let range = self.entry_range(block);
                Ok(&mut self.page.get_mut()[range])
            }
        }
    }

    /// The count of equal leading words of the entries of two blocks; bw-1 if all are equal.
    pub fn compare_entries(&self, a: u64, b: u64) -> Result<u64, Refusal> {
        Answer::from(ffi::compare_entries(&self.state, self.words(), self.bits(), a, b)).at_once()
    }

    /// Where a block's entry stands in the page; the page rules hold and the block is one of 1 to n.
    fn entry_range(&self, block: u64) -> std::ops::Range<usize> {
        let bw = self.state[1] as usize;
        let start = block as usize * bw;
        start + 1..start + bw
    }
}
