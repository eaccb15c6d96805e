//! The name, the MTU and the state of each message of a file, by views of the crate in rust/ and by Debian's
//! netlink-packet-route, and frames by the crate's iterators and by a loop: `views FILE`, whose lines end in digits. Of
//! each pair it prints nanoseconds a message, their ratio, and requests for memory a message. Messages are timed in
//! groups, by turns, and of each group the least time counts.

use linkwire::view::{IfName, LinkView, Mtu, OperState};
use linkwire::{NlasIterator, attributes};
use netlink_packet_core::{NLM_F_ACK, NLM_F_REQUEST, NetlinkMessage};
use netlink_packet_route::link::nlas::Nla;
use netlink_packet_route::traits::Parseable;
use netlink_packet_route::{LinkMessage, LinkMessageBuffer, RtnlMessage};
use std::alloc::{GlobalAlloc, Layout, System};
use std::hint::black_box;
use std::sync::atomic::{AtomicUsize, Ordering::Relaxed};
use std::time::{Duration, Instant};

const TURNS: usize = 200;
const GROUP: usize = 100;
const HEADER: usize = 16;

/// The system's allocator, and how often it was asked, for how many bytes.
struct Counting;

static ASKED: AtomicUsize = AtomicUsize::new(0);
static BYTES: AtomicUsize = AtomicUsize::new(0);

unsafe impl GlobalAlloc for Counting {
    unsafe fn alloc(&self, layout: Layout) -> *mut u8 {
        ASKED.store(ASKED.load(Relaxed) + 1, Relaxed);
        BYTES.store(BYTES.load(Relaxed) + layout.size(), Relaxed);
        System.alloc(layout)
    }

    unsafe fn dealloc(&self, at: *mut u8, layout: Layout) {
        System.dealloc(at, layout)
    }
}

#[global_allocator]
static ALLOCATOR: Counting = Counting;

/// How often memory is asked for, and for how many bytes.
fn asked(what: impl FnOnce()) -> (usize, usize) {
    let before = (ASKED.load(Relaxed), BYTES.load(Relaxed));
    what();
    (ASKED.load(Relaxed) - before.0, BYTES.load(Relaxed) - before.1)
}

type Call<'a> = &'a dyn Fn(&[u8]);

/// The least times of both, by groups and by turns, and what they ask of memory.
fn ratio(what: &str, messages: &[Vec<u8>], calls: [Call<'_>; 2]) {
    let mut sums = [Duration::ZERO; 2];
    for group in messages.chunks(GROUP) {
        let mut least = [Duration::MAX; 2];
        for turn in 0..2 * TURNS {
            let start = Instant::now();
            group.iter().for_each(|it| calls[turn % 2](black_box(it)));
            least[turn % 2] = least[turn % 2].min(start.elapsed());
        }
        (sums[0], sums[1]) = (sums[0] + least[0], sums[1] + least[1]);
    }
    let count = messages.len() as f64;
    let [one, other] = sums.map(|it| it.as_nanos() as f64 / count);
    let [here, there] = calls.map(|it| asked(|| messages.iter().for_each(|message| it(message))).0 as f64 / count);
    println!("{what}: {one:.0} ns, {other:.0} ns, {:.3}; requests {here:.2}, {there:.2}", one / other);
}

fn their_parse(message: &[u8]) -> LinkMessage {
    LinkMessage::parse(&LinkMessageBuffer::new(&message)).unwrap()
}

fn their_three(message: &[u8]) {
    let (mut name, mut mtu, mut state) = (None, None, None);
    for it in their_parse(message).nlas {
        match it {
            Nla::IfName(it) => name = Some(it),
            Nla::Mtu(it) => mtu = Some(it),
            Nla::OperState(it) => state = Some(it),
            _ => (),
        }
    }
    black_box((name, mtu, state));
}

/// The attributes of the three numbers, by the crate's frames.
fn by_frames(message: &[u8]) {
    let mut found = [None; 3];
    for frame in NlasIterator::new(&message[HEADER..]) {
        let Ok(frame) = frame else { return };
        match frame.kind() {
            3 => found[0] = Some(frame.value()),
            4 => found[1] = Some(frame.value()),
            16 => found[2] = Some(frame.value()),
            _ => (),
        }
    }
    black_box(found);
}

/// The same by attributes.
fn by_attributes(message: &[u8]) {
    let mut found = [None; 3];
    for attribute in attributes(message) {
        let Ok(attribute) = attribute else { return };
        match attribute.number() {
            3 => found[0] = Some(attribute.payload()),
            4 => found[1] = Some(attribute.payload()),
            16 => found[2] = Some(attribute.payload()),
            _ => (),
        }
    }
    black_box(found);
}

/// The same by a loop over the bytes, which refuses what the iterator refuses.
fn by_hand(message: &[u8]) {
    let mut found = [None; 3];
    let mut left = &message[HEADER..];
    while !left.is_empty() {
        if left.len() < 4 {
            return;
        }
        let length = u16::from_ne_bytes([left[0], left[1]]) as usize;
        if length < 4 || length > left.len() {
            return;
        }
        match u16::from_ne_bytes([left[2], left[3]]) & 0x3fff {
            3 => found[0] = Some(&left[4..length]),
            4 => found[1] = Some(&left[4..length]),
            16 => found[2] = Some(&left[4..length]),
            _ => (),
        }
        left = left.get((length + 3) / 4 * 4..).unwrap_or(&[]);
    }
    black_box(found);
}

fn three(view: LinkView<'_>) {
    black_box(view.get((IfName, Mtu, OperState)).unwrap());
}

/// The bytes that a request of an MTU asks for, of both.
fn request() {
    let ours = asked(|| drop(black_box(linkwire::request::mtu("eth0", black_box(1400)).unwrap().packet(1).unwrap())));
    let other = asked(|| {
        let mut link = LinkMessage::default();
        link.nlas.push(Nla::IfName(black_box("eth0").to_string()));
        link.nlas.push(Nla::Mtu(black_box(1400)));
        let mut packet = NetlinkMessage::from(RtnlMessage::SetLink(link));
        packet.header.flags = NLM_F_REQUEST | NLM_F_ACK;
        packet.finalize();
        let mut out = vec![0; packet.buffer_len()];
        packet.serialize(&mut out);
        drop(black_box(out));
    });
    println!("a request of an MTU by name: {} bytes in {} requests, {} in {}", ours.1, ours.0, other.1, other.0);
}

fn main() {
    let path = std::env::args().nth(1).expect("a file");
    let text = std::fs::read_to_string(path).expect("lines");
    let digit = |it: u8| char::from(it).to_digit(16).expect("a digit") as u8;
    let lines = text.lines().filter(|it| !it.starts_with('#')).map(|it| it.rsplit(' ').next().unwrap());
    let bytes = |it: &str| it.as_bytes().chunks(2).map(|it| 16 * digit(it[0]) + digit(it[1])).collect::<Vec<u8>>();
    let is_read = |it: &Vec<u8>| {
        linkwire::check(it).is_ok() && LinkMessage::parse(&LinkMessageBuffer::new(&it.as_slice())).is_ok()
    };
    // those that are dumped, and not what is asked for or announced in a few attributes
    let is_long = |it: &Vec<u8>| attributes(it).count() > 20;
    let messages: Vec<_> = lines.map(bytes).filter(|it| is_read(it) && is_long(it)).collect();
    let count: usize = messages.iter().map(|it| attributes(it).count()).sum();
    println!("{} messages that both read, of {} attributes", messages.len(), count / messages.len());
    let new: Call<'_> = &|it| three(LinkView::new(it).unwrap());
    let peek: Call<'_> = &|it| three(LinkView::peek(it).unwrap());
    ratio("new and three, its parse", &messages, [new, &|it| drop(black_box(their_parse(it)))]);
    ratio("peek and three, its parse", &messages, [peek, &|it| drop(black_box(their_parse(it)))]);
    ratio("new and three, its three", &messages, [new, &their_three]);
    ratio("peek and three, its three", &messages, [peek, &their_three]);
    ratio("peek and three, a loop", &messages, [peek, &by_hand]);
    ratio("frames, a loop", &messages, [&by_frames, &by_hand]);
    ratio("attributes, a loop", &messages, [&by_attributes, &by_hand]);
    request();
}
