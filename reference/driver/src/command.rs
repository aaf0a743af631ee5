//! What the command line tools share: input, one clear line for an error, and the answer to a text.

use crate::check::check;
use crate::finish::{Finished, MOST_MATERIAL_FACE, finish};
use crate::sheet::{Limits, Refusal, Sheet, parse};
use std::io::Read;

/// Print one line on standard error and end with a status other than 0.
pub fn fail(message: &str) -> ! {
    eprintln!("{message}");
    std::process::exit(2)
}

/// The bytes of a file, or of standard input where the name is `-` or missing.
pub fn input(name: Option<&str>) -> Vec<u8> {
    let mut bytes = Vec::new();
    let read = match name {
        None | Some("-") => std::io::stdin().read_to_end(&mut bytes).map(|_| ()),
        Some(path) => std::fs::read(path).map(|b| bytes = b),
    };
    match read {
        Ok(()) => bytes,
        Err(e) => fail(&format!("{}: {e}", name.unwrap_or("standard input"))),
    }
}

/// The sheet that a text is, its body within the limits of document 01.
pub fn accepted(text: &[u8], limits: Option<&Limits>) -> Result<Sheet, Refusal> {
    let sheet = parse(text, limits)?;
    check(&sheet)?;
    if sheet.materials.iter().any(|(face, _)| *face > MOST_MATERIAL_FACE) {
        fail("this tool takes material lines for face numbers up to 16777215");
    }
    Ok(sheet)
}

/// The finished body of a text, or its refusal; with limits, those of the bench program's results too.
pub fn answer(text: &[u8], limits: Option<&Limits>) -> Result<Finished, Refusal> {
    let done = finish(&accepted(text, limits)?)?;
    if limits.is_some_and(|l| done.stitched_vertices > l.result || done.stitched_indices > l.result) {
        return Err(Refusal::new(32, "the stitched body passes the bench program's 192 vertices or 192 indices"));
    }
    Ok(done)
}
