//! Converts a file of teletex text from one form to another.
//!
//!     convert SOURCE TARGET FILE OUTPUT
//!
//! SOURCE and TARGET are 1 (T51String in eight bits), 2 (in seven bits) or 3 (basic T.61). One line says how many elements did not
//! stand in SOURCE's canonical spelling. Exit status: 0, converted; 1, the text is refused, and the message names the octet and its place,
//! except for 11 and 12, which are about none; 2, anything else. OUTPUT is written only where the text is converted.

use std::fs;
use std::io::{self, Write};
use std::process::ExitCode;

use oakentwirl::{Error, Form};

const USAGE: &str = "usage: convert SOURCE TARGET FILE OUTPUT";
const NO_FORM: &str = "refused with 11: a form is not 1, 2 or 3";

/// Why the program fails, and its exit status.
struct Failure(String, u8);

fn form(said: &str) -> Result<Form, Failure> {
    match said {
        "1" => Ok(Form::Eight),
        "2" => Ok(Form::Seven),
        "3" => Ok(Form::Basic),
        _ => Err(Failure(NO_FORM.into(), 1)),
    }
}

/// Names a refusal in words, with its octet in hex and the octet's place.
fn refused(error: Error, text: &[u8]) -> Failure {
    let Error {
        refusal, element, ..
    } = error;
    let said = match error.at() {
        Some(at) => {
            let (number, octet) = (refusal as u8, text[at]);
            format!("refused with {number}: octet {octet:02X} at place {at}, in element {element}, {refusal}")
        }
        None => error.to_string(),
    };
    Failure(said, 1)
}

fn run(arguments: &[String]) -> Result<(), Failure> {
    let (source, target, file, output) = match arguments {
        [source, target, file, output] => (source, target, file, output),
        _ => return Err(Failure(USAGE.into(), 2)),
    };
    let text = fs::read(file).map_err(|_| Failure(format!("{file}: cannot be read"), 2))?;
    let converted = oakentwirl::convert(form(source)?, form(target)?, &text)
        .map_err(|error| refused(error, &text))?;
    fs::write(output, converted.text)
        .map_err(|_| Failure(format!("{output}: cannot be written"), 2))?;
    let number = converted.respelled;
    writeln!(io::stdout(), "elements that were not canonical in form {source}: {number}")
        .map_err(|_| Failure("the number: cannot be written".into(), 2))
}

fn main() -> ExitCode {
    let arguments: Vec<String> = std::env::args().skip(1).collect();
    match run(&arguments) {
        Ok(()) => ExitCode::SUCCESS,
        Err(Failure(said, status)) => {
            eprintln!("convert: {said}");
            ExitCode::from(status)
        }
    }
}
