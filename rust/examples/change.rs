//! Sets the MTU of an interface, and sets it up: `change NAME MTU`.

mod socket;

use linkwire::request::{self, Request};
use socket::{NLMSG_ERROR, Socket};

/// Sends a request, and waits until the kernel has answered it.
fn ask(socket: &mut Socket, request: &Request) -> Result<(), Box<dyn std::error::Error>> {
    socket.send(&request.packet(1)?)?;
    for (kind, bytes) in socket.receive()? {
        // the error is a number, negative, and 0 where all is done
        let error = bytes.get(..4).map_or(0, |it| i32::from_ne_bytes([it[0], it[1], it[2], it[3]]));
        if kind == NLMSG_ERROR && error != 0 {
            return Err(std::io::Error::from_raw_os_error(-error).into());
        }
    }
    Ok(())
}

fn main() -> Result<(), Box<dyn std::error::Error>> {
    let args: Vec<String> = std::env::args().skip(1).collect();
    match &args[..] {
        [name, mtu] => {
            let mut socket = Socket::new(0)?;
            ask(&mut socket, &request::mtu(name, mtu.parse()?)?)?;
            ask(&mut socket, &request::up(name)?)
        }
        _ => Err("usage: change NAME MTU".into()),
    }
}
