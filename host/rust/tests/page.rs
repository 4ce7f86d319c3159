//! The safe face: owned and lent pages, entries, and what a host may hand in.

use albmerik::{Answer, Page, Refusal, Request};

#[test]
fn numbers_past_the_limits_are_refused() {
    for (n, bw, w) in [(4096, 1, 1), (0, 0, 1), (0, 65, 1), (0, 1, 0), (0, 1, 9), (u64::MAX, u64::MAX, u64::MAX)] {
        assert_eq!(Page::fresh(n, bw, w).err(), Some(Refusal::BadPage), "n {n}, bw {bw}, W {w}");
    }
    for (n, bw, w) in [(0, 1, 1), (4095, 64, 8), (63, 4, 8), (64, 1, 2)] {
        assert!(Page::fresh(n, bw, w).is_ok(), "n {n}, bw {bw}, W {w}");
    }
}

#[test]
fn a_lent_page_is_kept_and_resumed() {
    let (mut words, mut bits) = ((0..256).collect::<Vec<u64>>(), vec![u64::MAX]);
    let mut page = Page::fresh_over(&mut words, &mut bits, 63, 4, 8).unwrap();
    assert_eq!(page.request(0, Request::Insert { block: 1 }), Answer::Done(0));
    let state = *page.state();
    drop(page);
    assert_eq!(bits, [2]);
    assert_eq!(words[..6], [0, 1, 2, 3, 0, 5]);
    let mut page = Page::resume(state, &mut words, &mut bits);
    assert_eq!(page.request(0, Request::Pop), Answer::Done(1));
    assert_eq!(page.entry(1).unwrap(), [5, 6, 7]);
}

#[test]
fn any_words_are_answered() {
    let (mut words, mut bits) = (vec![u64::MAX; 256], vec![u64::MAX]);
    let mut page = Page::resume([u64::MAX; 70], &mut words, &mut bits);
    assert_eq!(page.request(0, Request::Pop), Answer::Refused(Refusal::BadPage));
    assert_eq!(page.make_move(0, true), Answer::Refused(Refusal::BadPage));
    assert_eq!(page.entry(1), Err(Refusal::BadPage));
    assert_eq!(page.entry_mut(1).err(), Some(Refusal::BadPage));
    let mut state = [u64::MAX; 70];
    state[..3].copy_from_slice(&[63, 4, 8]);
    let mut page = Page::resume(state, &mut words, &mut bits);
    assert_eq!(page.request(0, Request::Pop), Answer::Refused(Refusal::Busy));
    assert_eq!(page.make_move(0, false), Answer::Refused(Refusal::Damaged));
}

#[test]
fn entries_are_viewed_and_compared() {
    let mut page = Page::fresh(63, 4, 8).unwrap();
    page.entry_mut(5).unwrap().copy_from_slice(&[1, 2, 3]);
    page.entry_mut(6).unwrap().copy_from_slice(&[1, 2, 4]);
    assert_eq!(page.compare_entries(5, 6), Ok(2));
    assert_eq!(page.compare_entries(5, 5), Ok(3));
    assert_eq!(page.compare_entries(5, 64), Err(Refusal::NoSuch));
    assert_eq!(page.entry(0), Err(Refusal::NoSuch));
    page.request(0, Request::Insert { block: 5 });
    assert_eq!(page.compare_entries(5, 6), Err(Refusal::Listed));
    assert_eq!(page.entry(5), Err(Refusal::Listed));
    page.entry_mut(5).unwrap()[0] = 9;
    assert_eq!((page.listed_count(), page.first_unlisted()), (Ok(1), Ok(1)));
    page.request(0, Request::Pop);
    assert_eq!(page.entry(5).unwrap(), [9, 2, 3]);
}

#[test]
fn a_full_page_has_no_unlisted_block() {
    let mut page = Page::fresh(64, 1, 1).unwrap();
    assert_eq!(page.request(0, Request::Extend { first: 1, count: 64 }), Answer::Done(64));
    assert_eq!(page.first_unlisted(), Err(Refusal::NoneLeft));
    assert_eq!(page.request(0, Request::IsEmpty), Answer::Done(0));
    assert_eq!(page.request(0, Request::Release), Answer::Done(64));
    assert_eq!(page.entry(1).unwrap(), [0u64; 0]);
}
