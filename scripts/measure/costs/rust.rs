//! Calls the crate for each line of hexadecimal digits of the standard input: `costs CALL`. What stands between the
//! entry and the return of `counted` is what is counted.

use linkwire::view::{IfName, LinkView, Mtu, OperState};
use linkwire::{attributes, check, DecodeError, LinkMessage};
use std::io::BufRead;

/// The call, by its name, and something of its answer.
#[no_mangle]
#[inline(never)]
pub extern "C" fn counted(call: u8, bytes: *const u8, len: usize) -> usize {
    let bytes = unsafe { std::slice::from_raw_parts(bytes, len) };
    match call {
        b'c' => check(bytes).is_ok() as usize,
        b'p' => LinkMessage::parse(bytes).map_or(0, |it| it.attributes.len()),
        b'u' => LinkView::peek(bytes).and_then(three).unwrap_or(0),
        b'v' => LinkView::new(bytes).and_then(three).unwrap_or(0),
        b't' => LinkMessage::parse(bytes).ok().and_then(|it| it.to_vec().ok()).map_or(0, |it| it.len()),
        _ => attributes(bytes).filter_map(Result::ok).map(|it| it.payload().len()).sum(),
    }
}

/// The name, the MTU and the state of a message, and something of them.
fn three(view: LinkView<'_>) -> Result<usize, DecodeError> {
    let (name, mtu, state) = view.get((IfName, Mtu, OperState))?;
    Ok(name.map_or(0, str::len) + mtu.unwrap_or(0) as usize + state.is_some() as usize)
}

fn main() {
    let call = std::env::args().nth(1).expect("a call").as_bytes()[0];
    let digit = |it: u8| char::from(it).to_digit(16).expect("a digit") as u8;
    let (mut input, mut answers) = (std::io::stdin().lock(), 0usize);
    let (mut line, mut bytes) = (Vec::new(), Vec::new());
    while input.read_until(b'\n', &mut line).expect("a line") > 0 {
        bytes.extend(line.chunks_exact(2).map(|pair| 16 * digit(pair[0]) + digit(pair[1])));
        answers = answers.wrapping_add(counted(call, bytes.as_ptr(), bytes.len()));
        (line.clear(), bytes.clear());
    }
    println!("{answers}");
}
