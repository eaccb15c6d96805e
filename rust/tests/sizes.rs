//! The calls on messages from 5 kB to 20 MB, beside what is known of how they were made.

use linkwire::{
    CanonError, Emitable, HEADER_SIZE, LinkMessage, RoomError, Writer, attributes, canonical, canonical_into,
    canonical_len, canonical_within, check, fault_at, same_message, same_state, state, state_within,
};

const SIZES: [usize; 4] = [5_000, 70_000, 1_200_000, 20_000_000];
const PAYLOADS: [usize; 10] = [0, 1, 2, 3, 5, 8, 100, 1000, 4096, 65531];
/// A header whose reserved byte and change mask are not zero.
const HEADER: [u8; HEADER_SIZE] = [0, 9, 1, 0, 7, 0, 0, 0, 0x43, 0, 0, 0, 0x55, 0, 0, 0];
/// Numbers of linux/if_link.h, and the first of those that no kernel has.
const IFNAME: u16 = 3;
const MTU: u16 = 4;
const CARRIER_CHANGES: u16 = 35;
const UNKNOWN: u16 = 300;

/// A message whose padding, flags and reserved byte are not zero, its canonical encoding, and its state encoding.
struct Made {
    message: Vec<u8>,
    canonical: Vec<u8>,
    state: Vec<u8>,
    count: usize,
}

fn add(to: &mut Vec<u8>, kind: u16, payload: &[u8], padding: u8) {
    to.extend(((4 + payload.len()) as u16).to_ne_bytes());
    to.extend(kind.to_ne_bytes());
    to.extend(payload);
    to.resize((to.len() + 3) / 4 * 4, padding);
}

impl Made {
    fn new(size: usize) -> Made {
        let (message, canonical) = (HEADER.to_vec(), HEADER.to_vec());
        let mut made = Made { message, canonical, state: Vec::new(), count: 0 };
        made.canonical[1] = 0;
        made.add(IFNAME, b"eth0", IFNAME, b"eth0\0");
        made.add(MTU | 0xc000, &[0xdc, 5, 0, 0], MTU, &[0xdc, 5, 0, 0]);
        while made.message.len() < size {
            let number = made.count;
            let len = PAYLOADS[number % PAYLOADS.len()];
            let payload: Vec<u8> = (0..len).map(|at| (number + at * 7 + (at >> 8)) as u8).collect();
            let kind = UNKNOWN + (number % 1000) as u16;
            made.add(kind, &payload, kind, &payload);
        }
        made.add(CARRIER_CHANGES, &[5, 0, 0, 0], CARRIER_CHANGES, &[5, 0, 0, 0]);
        made.state = made.canonical.clone();
        made.state[12] = 0;
        let last = made.state.len() - 4;
        made.state[last] = 0;
        made
    }

    fn add(&mut self, kind: u16, payload: &[u8], canonical_kind: u16, canonical: &[u8]) {
        add(&mut self.message, kind, payload, 0xaa);
        add(&mut self.canonical, canonical_kind, canonical, 0);
        self.count += 1;
    }
}

/// A call writes this encoding to room that is just as long, and nothing to less.
fn writes(write: fn(&[u8], &mut [u8]) -> Result<usize, RoomError>, made: &Made, wanted: &[u8]) {
    let mut out = vec![0x55; wanted.len()];
    let short = write(&made.message, &mut out[1..]);
    assert_eq!(short, Err(RoomError::NoRoom { wanted: wanted.len() }));
    assert!(out.iter().all(|byte| *byte == 0x55));
    assert_eq!(write(&made.message, &mut out), Ok(wanted.len()));
    assert!(out == wanted);
}

fn values(made: &Made) {
    let message = LinkMessage::parse(&made.message).unwrap();
    assert_eq!(message.attributes.len(), made.count);
    assert!(message.fits() && message.reads_back() && message.clone() == message);
    assert_eq!(message.buffer_len(), made.canonical.len());
    let mut out = vec![0x55; made.canonical.len()];
    message.emit(&mut out);
    assert!(out == made.canonical && message.to_vec().unwrap() == made.canonical);
    assert!(LinkMessage::parse(&made.canonical).unwrap() == message);
}

fn encodings(made: &Made) {
    assert_eq!(canonical_len(&made.message), Ok(made.canonical.len()));
    assert!(canonical(&made.message).unwrap() == made.canonical);
    assert!(state(&made.message).unwrap() == made.state);
    writes(canonical_into, made, &made.canonical);
    writes(canonical_within, made, &made.canonical);
    writes(state_within, made, &made.state);
    assert_eq!(same_message(&made.message, &made.canonical), Ok(true));
    assert_eq!(same_message(&made.message, &made.state), Ok(false));
    assert_eq!(same_state(&made.message, &made.state), Ok(true));
    assert_eq!(same_state(&made.message, &HEADER), Ok(false));
}

/// Goes over the attributes, and writes each where it came from.
fn goes_over(made: &Made) {
    let mut out = vec![0x55; made.canonical.len()];
    let mut writer = Writer::message(&mut out, made.canonical[..HEADER_SIZE].try_into().unwrap()).unwrap();
    let mut count = 0;
    for attribute in attributes(&made.canonical) {
        let attribute = attribute.unwrap();
        writer.put(attribute.kind(), attribute.payload()).unwrap();
        count += 1;
    }
    assert!(writer.finish() == made.canonical);
    assert_eq!(count, made.count);
}

/// An MTU of three bytes at the end.
fn refuses(made: &Made) {
    let mut faulty = made.message.clone();
    faulty.extend([7u16.to_ne_bytes(), MTU.to_ne_bytes()].concat());
    faulty.extend([1, 2, 3]);
    let (fault, at) = fault_at(&faulty).unwrap();
    assert_eq!(at, made.message.len());
    assert_eq!(LinkMessage::fault_path(&faulty).unwrap().numbers(), [MTU]);
    assert_eq!(check(&faulty), Err(fault));
    assert_eq!(LinkMessage::parse(&faulty), Err(fault));
    let (front, found) = LinkMessage::parse_before_fault(&faulty).unwrap();
    assert!(found == Some(fault) && front.attributes.len() == made.count);
    assert_eq!(canonical(&faulty), Err(CanonError::Decode(fault)));
    assert_eq!(state(&faulty), Err(CanonError::Decode(fault)));
}

#[test]
fn long_messages() {
    for size in SIZES {
        let made = Made::new(size);
        assert_eq!(check(&made.message), Ok(()));
        values(&made);
        encodings(&made);
        goes_over(&made);
        refuses(&made);
    }
}

/// A message of 60 MB, of attributes as long as one can be.
#[test]
fn sixty_megabytes() {
    let (mut message, payload) = (HEADER.to_vec(), vec![7; 65531]);
    message[1] = 0;
    while message.len() < 60_000_000 {
        add(&mut message, UNKNOWN, &payload, 0);
    }
    let value = LinkMessage::parse(&message).unwrap();
    assert!(value.fits() && value.buffer_len() == message.len());
    assert!(value.to_vec().unwrap() == message && canonical(&message).unwrap() == message);
}

/// Messages of 60 MB whose encodings would have 3 GB and 4.7 GB, more than memory can be on 32 bits, and than 2^32.
#[test]
#[cfg(target_pointer_width = "32")]
fn encodings_that_no_memory_holds() {
    const STATS64: u16 = 23;
    const AF_SPEC: u16 = 26;
    let mut counters = Vec::new();
    (0..207).for_each(|_| add(&mut counters, 3, &[], 0));
    let (mut family, mut spec) = (Vec::new(), Vec::new());
    add(&mut family, 10, &counters, 0);
    add(&mut spec, AF_SPEC, &family, 0);
    let mut stats = Vec::new();
    add(&mut stats, STATS64, &[], 0);
    for one in [stats, spec] {
        let mut message = HEADER.to_vec();
        message.extend(one.repeat(60_000_000 / one.len()));
        assert_eq!(canonical_len(&message), Err(CanonError::DoesNotFit));
        assert_eq!(canonical(&message), Err(CanonError::DoesNotFit));
    }
}
