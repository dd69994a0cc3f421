//! `judge replay [-a] [-f] FILE...`: what the port's program must print.

use std::io::{self, Read, Write};

use crate::print::{Options, Printer};
use crate::run::run;

/// An option holds for the files after it. A file that can't be opened is told of, and the next goes on.
pub fn replay(arguments: &[String]) -> io::Result<()> {
    let mut options = Options::default();
    let mut files = 0;
    for argument in arguments {
        match argument.as_str() {
            "-a" => options.actions = true,
            "-f" => options.fields = true,
            file => {
                files += 1;
                match std::fs::read(file) {
                    Ok(bytes) => print(&bytes, options)?,
                    Err(error) => eprintln!("{file}: {error}: give the path of a trace that can be read"),
                }
            }
        }
    }
    if files == 0 {
        let mut bytes = Vec::new();
        io::stdin().read_to_end(&mut bytes)?;
        print(&bytes, options)?;
    }
    Ok(())
}

fn print(bytes: &[u8], options: Options) -> io::Result<()> {
    io::stdout().write_all(text(bytes, options).as_bytes())
}

/// A trace's whole text.
pub fn text(bytes: &[u8], options: Options) -> String {
    let mut text = String::new();
    run(bytes, &mut Printer { options, text: &mut text });
    text
}
