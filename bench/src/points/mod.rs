//! The work of the points program in Rust, for its speed to be measured against: a sweep once the basis and its history
//! are accepted, then each line answered from it as it comes.
pub mod line;
pub mod reply;

use crate::engine::basis::Basis;
use crate::engine::enquiries::check_question;
use crate::engine::refusal::Refusal;
use crate::engine::sets::{Question, Results};
use crate::engine::sweep::Swept;
use line::{LONGEST, parse};
use reply::{put_refusal, put_results};

/// Answers a text that comes in parts. Of a line that is not finished it keeps as much as decides its form.
pub struct Answering<'lent> {
    basis: Basis<'lent>,
    swept: Swept,
    /// The unfinished line, cut off behind the first byte that makes it too long.
    unfinished: Vec<u8>,
    /// The lines that have ended.
    ended: u64,
}

impl<'lent> Answering<'lent> {
    pub fn new(basis: Basis<'lent>) -> Self {
        Answering { basis, swept: Swept::new(basis), unfinished: Vec::with_capacity(LONGEST + 1), ended: 0 }
    }

    /// Takes a part of the text, and puts the replies to the lines that end in it behind what `replies` holds.
    pub fn feed(&mut self, part: &[u8], replies: &mut Vec<u8>) {
        let mut lines = part.split(|&byte| byte == b'\n');
        // what stands behind the last byte 10 is not a whole line; a part without one is no more than that
        let rest = lines.next_back().unwrap_or(&[]);
        for line in lines {
            if self.unfinished.is_empty() {
                self.answer(line, replies);
            } else {
                self.keep(line);
                self.answer_unfinished(replies);
            }
        }
        self.keep(rest);
    }

    /// The end of the text: an unfinished line is a line.
    pub fn finish(&mut self, replies: &mut Vec<u8>) {
        if !self.unfinished.is_empty() {
            self.answer_unfinished(replies);
        }
    }

    fn keep(&mut self, bytes: &[u8]) {
        let room = LONGEST + 1 - self.unfinished.len();
        self.unfinished.extend_from_slice(&bytes[..bytes.len().min(room)]);
    }

    fn answer_unfinished(&mut self, replies: &mut Vec<u8>) {
        let line = std::mem::take(&mut self.unfinished);
        self.answer(&line, replies);
        self.unfinished = line;
        self.unfinished.clear();
    }

    fn answer(&mut self, line: &[u8], replies: &mut Vec<u8>) {
        self.ended += 1;
        let answered = match parse(line) {
            Some(question) => self.point(question).map(|results| (question, results)),
            None => Err(Refusal::line(self.ended)),
        };
        match answered {
            Ok((question, results)) => put_results(replies, question, &results),
            Err(refusal) => put_refusal(replies, refusal),
        }
    }

    fn point(&self, question: Question) -> Result<Results, Refusal> {
        let Question { age, deferment, year } = question;
        check_question(&self.basis, age, deferment, year)?;
        self.swept.point(question)
    }
}

#[cfg(test)]
mod tests {
    use super::*;
    use crate::bases::Draft;
    use crate::bases::draft::Component;
    use crate::engine::form::Form;
    use crate::engine::layout::AGES;

    /// F and B 2006, all base rates 100,000,000.
    fn tenth() -> Draft {
        let mut draft = Draft::plain(2006, 2006);
        (0..AGES).for_each(|index| draft.set_base_rate(index, 100_000_000));
        draft
    }

    fn answered<'text>(parts: impl IntoIterator<Item = &'text [u8]>) -> String {
        answered_on(&tenth(), parts)
    }

    fn answered_on<'text>(draft: &Draft, parts: impl IntoIterator<Item = &'text [u8]>) -> String {
        let mut answering = Answering::new(Basis::accept(&draft.run, &[]).unwrap());
        let mut replies = Vec::new();
        parts.into_iter().for_each(|part| answering.feed(part, &mut replies));
        answering.finish(&mut replies);
        String::from_utf8(replies).unwrap()
    }

    #[test]
    fn the_sample() {
        let wanted = "148 0 2010 2.210000000 2.210000000 2.710000000 2.710000000\n\
                      150 0 2010 0.500000000 0.500000000 1.000000000 1.000000000\n\
                      refused 8 148 3\n";
        let text = b"148 0 2010\n150 0 2010\n148 3 2010";
        assert_eq!(answered([text.as_slice()]), wanted);
        // however it is cut
        for size in 1..text.len() {
            assert_eq!(answered(text.chunks(size)), wanted);
        }
    }

    /// The replies to a line are those of either form, and a P that is no whole per cent shows in them.
    #[test]
    fn a_basis_of_either_form() {
        let line = b"60 0 2010".as_slice();
        let mut draft = Draft::benchmark();
        let old = answered_on(&draft, [line]);
        draft = draft.in_form(Form::Mpb2);
        assert_eq!(answered_on(&draft, [line]), old);
        draft.set_proportion(Component::Age, 40, 5_001);
        assert_ne!(answered_on(&draft, [line]), old);
    }

    /// One per cent of improvement a year from 2130 on: the rates are 99,000,000 at 148 in 2131 and 98,010,000 at 149 in
    /// 2132, and the period annuity stays in 2130.
    #[test]
    fn a_line_that_comes_to_years_after_2130() {
        let mut draft = tenth();
        draft.set_years(2006, 2130);
        draft.set_addition(10_000_000);
        let wanted = "147 1 2130 2.212801000 2.213692990 2.439000000 2.442323691\nrefused 7 2131 0\n";
        assert_eq!(answered_on(&draft, [b"147 1 2130\n147 1 2131".as_slice()]), wanted);
    }

    #[test]
    fn every_line_is_counted_and_nothing_is_no_line() {
        assert_eq!(answered([b"".as_slice()]), "");
        assert_eq!(answered([b"\n".as_slice()]), "refused 12 1 0\n");
        assert_eq!(
            answered([b"\n\n19 0 2010\n x".as_slice()]),
            "refused 12 1 0\nrefused 12 2 0\nrefused 6 19 0\nrefused 12 4 0\n"
        );
        let long = [b"148 0 2010".repeat(100), b"\n150 1 2010\n".to_vec()].concat();
        for size in [1, 2, 15, 16, 17, 100, 2000] {
            assert_eq!(answered(long.chunks(size)), "refused 12 1 0\nrefused 8 150 1\n");
        }
    }
}
