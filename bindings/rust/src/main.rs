//! The command `chuntarek`: outlines, checks, values, renderings and differences of CIF files.

#![cfg_attr(
    not(test),
    deny(
        clippy::unwrap_used,
        clippy::expect_used,
        clippy::panic,
        clippy::indexing_slicing
    )
)]

mod command {
    pub mod arguments;
    pub mod cell;
    pub mod change;
    pub mod changes;
    pub mod check;
    pub mod compare;
    pub mod excerpt;
    pub mod frame;
    pub mod help;
    pub mod hint;
    pub mod input;
    pub mod json;
    pub mod message;
    pub mod outline;
    pub mod ragged;
    pub mod render;
    pub mod status;
    pub mod strict;
    pub mod table;
    pub mod values;
    pub mod walk;
    pub mod wanted;
}

use std::env;
use std::io::{self, BufWriter, ErrorKind, Write};
use std::process::ExitCode;

use command::arguments::{self, Request};
use command::status::Status;
use command::{check, compare, help, outline, render, values};

fn main() -> ExitCode {
    let request = match arguments::parse(env::args_os().skip(1)) {
        Ok(request) => request,
        Err(message) => {
            command::message::say(&format!("chuntarek: {message}\n{}", help::HINT));
            return Status::Failed.into();
        }
    };
    let mut out = BufWriter::new(io::stdout().lock());
    let done = answer(&request, &mut out).and_then(|status| out.flush().map(|()| status));
    match done {
        Ok(status) => status.into(),
        // Whoever read the output has seen enough: nothing went wrong.
        Err(error) if error.kind() == ErrorKind::BrokenPipe => cut_short(&request).into(),
        Err(error) => {
            command::message::say(&format!("chuntarek: the output cannot be written: {error}"));
            Status::Failed.into()
        }
    }
}

/// How a command ends whose output is not wanted any more. What differs was being written.
fn cut_short(request: &Request) -> Status {
    match request {
        Request::Compare { .. } => Status::Differs,
        _ => Status::Done,
    }
}

/// Does what is asked for. An error is one of the output.
fn answer(request: &Request, out: &mut impl Write) -> io::Result<Status> {
    match request {
        Request::Help => write!(out, "{}", help::TEXT).map(|()| Status::Done),
        Request::Version => writeln!(out, "{}", help::VERSION).map(|()| Status::Done),
        Request::Outline { reading, files } => outline::files(*reading, files, out),
        Request::Check { reading, files } => Ok(check::files(*reading, files)),
        Request::Values {
            reading,
            file,
            wish,
        } => values::file(*reading, file, wish, out),
        Request::Render { reading, file } => render::file(*reading, file, out),
        Request::Compare {
            reading,
            old,
            new,
            wish,
        } => compare::files(*reading, old, new, wish, out),
    }
}
