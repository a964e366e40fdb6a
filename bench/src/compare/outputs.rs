//! The calls that are lent an output of bytes: prefilled alike for both engines it must end alike, and unchanged after a
//! refusal.
use super::calls::{Calls, Compared, edge};
use super::inputs;
use super::report::Function;
use crate::bases::{damaged, files};
use crate::engine::file::{self, file_needed, run_needed};
use crate::engine::form::Form;
use crate::engine::{Refusal as EngineRefusal, short_form};
use crate::ffi::{self, Refusal};
use crate::guard::Guarded;
use crate::random::Random;

impl Calls {
    /// Reads the run's file, damaged now and then, or the file of a damaged run.
    pub fn read_basis(&mut self, random: &mut Random) -> Compared {
        let mut run = self.run.bytes().to_vec();
        damaged::of_some_form(random, &mut run);
        if random.one_in(4) {
            damaged::damage(random, &mut run);
            damaged::of_some_form(random, &mut run);
        }
        let mut file = files::file_of(&run);
        if random.one_in(2) {
            files::damage(random, &mut file);
        }
        let length = inputs::output_length(random, run_needed(file.len()));
        self.read_file(random, &file, length)
    }

    /// Reads this file into an output of so many bytes.
    pub fn read_file(&mut self, random: &mut Random, file: &[u8], length: usize) -> Compared {
        self.file.lend(file, edge(random));
        let asked = format!("a file of {} bytes", file.len());
        self.output(random, Function::ReadBasis, length, asked, |calls, out| {
            (ffi::read_basis(calls.file.bytes(), out.proved), file::read_basis(file, out.rust))
        })
    }

    pub fn write_basis(&mut self, random: &mut Random) -> Compared {
        let length = inputs::output_length(random, file_needed(self.run.bytes().len()));
        self.write_file(random, length)
    }

    pub fn write_file(&mut self, random: &mut Random, length: usize) -> Compared {
        self.output(random, Function::WriteBasis, length, "the run".into(), |calls, out| {
            let run = calls.run.bytes();
            (ffi::write_basis(run, out.proved), file::write_basis(run, out.rust))
        })
    }

    pub fn write_old_form(&mut self, random: &mut Random) -> Compared {
        let length = inputs::output_length(random, Form::Mpb1.file_length());
        self.write_old_file(random, length)
    }

    pub fn write_old_file(&mut self, random: &mut Random, length: usize) -> Compared {
        self.output(random, Function::WriteOldForm, length, "the run".into(), |calls, out| {
            let run = calls.run.bytes();
            (ffi::write_old_form(run, out.proved), file::write_old_form(run, out.rust))
        })
    }

    pub fn short_form(&mut self, random: &mut Random) -> Compared {
        let needed = Form::of_run(self.run.bytes().len()).unwrap_or(Form::Mpb1).run_length();
        let length = inputs::output_length(random, needed);
        self.shorten(random, length)
    }

    pub fn shorten(&mut self, random: &mut Random, length: usize) -> Compared {
        let rate = inputs::long_term_rate(random);
        self.output(random, Function::ShortForm, length, format!("long-term rate {rate}"), |calls, out| {
            let run = calls.run.bytes();
            (ffi::short_form(run, rate, out.proved), short_form::short_form(run, rate, out.rust))
        })
    }

    fn output(
        &mut self,
        random: &mut Random,
        function: Function,
        length: usize,
        asked: String,
        call: impl FnOnce(&Self, Outputs) -> (Refusal, Result<(), EngineRefusal>),
    ) -> Compared {
        let mut output = std::mem::replace(&mut self.output, Guarded::new(0));
        let lent = output.place(length, edge(random));
        inputs::fill(random, lent);
        let before = lent.to_vec();
        let mut rust_output = before.clone();
        let (proved, rust) = call(self, Outputs { proved: lent, rust: &mut rust_output });
        let rust = Refusal::from(rust);
        let asked = move || format!("{asked}, output of {length} bytes");
        let kept = proved.number == 0 || output.bytes() == before;
        let alike = output.bytes() == rust_output;
        self.output = output;
        self.same(function, rust, &asked, &(rust, true, true), &(proved, kept, alike))
    }
}

struct Outputs<'lent> {
    proved: &'lent mut [u8],
    rust: &'lent mut [u8],
}
