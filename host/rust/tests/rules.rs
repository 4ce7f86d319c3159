//! Document 01's table P4 to P12 and its whole case, through the archive and through the second reading.

mod reading;

use albmerik::{Answer, Event, Page, Refusal, Request};
use reading::Reading;

/// A page of n = 63, bw = 4, W = 8 and the second reading of it, kept side by side.
struct Both {
    page: Page<'static>,
    reading: Reading,
}

impl Both {
    fn fresh() -> Both {
        let mut reading = Reading::of(&[0; reading::STATE_WORDS], vec![0; 256], vec![0; 1]);
        assert_eq!(reading.fresh(63, 4, 8), reading::done(0));
        Both { page: Page::fresh(63, 4, 8).expect("the page rules hold"), reading }
    }

    /// Both must answer alike and be left alike.
    fn same(&self, here: Answer, there: reading::Answer) -> Answer {
        assert_eq!((here.number(), here.value()), (there.number, there.value));
        assert_eq!(*self.page.state(), self.reading.state());
        assert_eq!(self.page.words(), self.reading.page);
        assert_eq!(self.page.bits(), self.reading.bits);
        here
    }

    fn request(&mut self, worker: u64, request: Request) -> Answer {
        let (a, b) = request.arguments();
        let here = self.page.request(worker, request);
        let there = self.reading.request(worker, request.code(), a, b);
        self.same(here, there)
    }

    fn make_move(&mut self, worker: u64, flag: bool) -> Answer {
        let here = self.page.make_move(worker, flag);
        let there = self.reading.make_move(worker, flag);
        self.same(here, there)
    }

    fn on(&mut self) {
        let here = self.page.on();
        let there = self.reading.switch_on();
        self.same(here, there);
    }

    /// A staged request with moves until it is done.
    fn whole(&mut self, worker: u64, request: Request) -> Answer {
        let mut answer = self.request(worker, request);
        while answer == Answer::UnderWay {
            answer = self.make_move(worker, false);
        }
        answer
    }

    /// Own, popped until it is empty.
    fn popped(&mut self, worker: u64) -> Vec<u64> {
        let mut blocks = Vec::new();
        while let Answer::Done(block) = self.request(worker, Request::Pop) {
            blocks.push(block);
        }
        blocks
    }
}

#[test]
fn append_puts_got_before_own() {
    let mut both = Both::fresh();
    assert_eq!(both.request(0, Request::Append), Answer::Done(0));
    for block in [5, 6] {
        both.request(0, Request::Insert { block });
    }
    for block in [8, 9] {
        assert_eq!(both.whole(1, Request::PushShared { block }), Answer::Done(0));
    }
    assert_eq!(both.whole(0, Request::TakeShared), Answer::Done(9));
    assert_eq!(both.request(0, Request::Append), Answer::Done(2));
    assert_eq!(both.popped(0), [9, 8, 6, 5]);
}

#[test]
fn extend_links_ascending_blocks() {
    let mut both = Both::fresh();
    both.request(0, Request::Insert { block: 7 });
    assert_eq!(both.request(0, Request::Extend { first: 3, count: 3 }), Answer::Done(3));
    let words = both.page.words();
    assert_eq!([words[12], words[16], words[20]], [128, 160, 224]);
    assert_eq!(both.request(0, Request::Extend { first: 8, count: 0 }), Answer::Refused(Refusal::NoSuch));
    assert_eq!(both.request(0, Request::Extend { first: 62, count: 3 }), Answer::Refused(Refusal::NoSuch));
    assert_eq!(both.request(0, Request::Extend { first: 62, count: 2 }), Answer::Done(2));
    assert_eq!(both.popped(0), [62, 63, 3, 4, 5, 7]);
}

#[test]
fn a_take_of_the_tagged_list_keeps_the_tag() {
    let mut both = Both::fresh();
    both.on();
    assert_eq!(both.whole(0, Request::SetTag { tag: 3 }), Answer::Done(0));
    assert_eq!(both.whole(0, Request::PushTagged { block: 3 }), Answer::Done(3));
    assert_eq!(both.page.state()[4], 99);
    assert_eq!(both.whole(0, Request::TakeTagged), Answer::Done(3));
    assert_eq!(both.page.state()[4], 3);
}

#[test]
fn asking_for_tag_zero() {
    let mut both = Both::fresh();
    both.on();
    both.whole(0, Request::SetTag { tag: 2 });
    assert_eq!(both.whole(1, Request::AskForTagZero), Answer::Done(1));
    assert_eq!(both.page.state()[4], 0);
    both.whole(0, Request::SetTag { tag: 1 });
    both.request(1, Request::AskForTagZero);
    for _ in 0..4 {
        assert_eq!(both.make_move(1, false), Answer::UnderWay);
    }
    assert_eq!(both.make_move(1, false), Answer::Done(0));
}

#[test]
fn a_block_in_a_hand_is_listed() {
    let mut both = Both::fresh();
    both.request(0, Request::PushShared { block: 9 });
    assert_eq!(both.request(1, Request::Insert { block: 9 }), Answer::Refused(Refusal::Listed));
}

#[test]
fn the_whole_case() {
    let request = |worker, request| Event::Request { worker, request };
    let make_move = |worker, flag| Event::Move { worker, flag };
    let mut events = vec![
        request(0, Request::Insert { block: 5 }),
        request(0, Request::Insert { block: 6 }),
        request(1, Request::PushShared { block: 9 }),
        request(2, Request::PushShared { block: 9 }),
    ];
    events.extend([false, false, true, false, false, false].map(|flag| make_move(1, flag)));
    events.push(request(0, Request::TakeShared));
    events.extend([make_move(0, false); 2]);
    events.extend([request(0, Request::Append), request(0, Request::Pop)]);
    let numbers = [0, 0, 1, 9, 1, 1, 1, 1, 1, 0, 1, 1, 0, 0, 0];
    let values = [0, 0, 0, 0, 0, 0, 0, 0, 0, 0, 0, 0, 9, 1, 9];

    let answers = Page::fresh(63, 4, 8).unwrap().events(&events).unwrap();
    assert!(answers.iter().map(|answer| answer.number()).eq(numbers));
    assert!(answers.iter().map(|answer| answer.value()).eq(values));

    let words: Vec<u64> = events.iter().flat_map(|event| event.words()).collect();
    let mut there = vec![0; 2 * events.len()];
    assert_eq!(Both::fresh().reading.events(&words, &mut there), reading::done(15));
    assert!(there.iter().step_by(2).copied().eq(numbers));
    assert!(there.iter().skip(1).step_by(2).copied().eq(values));
}
