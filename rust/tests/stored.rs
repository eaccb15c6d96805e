//! Lines of hexadecimal messages: the stored input of the program `linkwire`, the rows of its tests, and those of the
//! file that `LINKWIRE_LINES` names. What the calls of this crate say of one message has to agree, and their answers to
//! the stored lines and the rows have to be those of the program.

use linkwire::{
    Attribute, Attributes, BYTE_ORDER, CANONICAL_FORM, CanonError, DecodeError, Emitable, GROWTH, HEADER_SIZE,
    LinkAttribute, LinkMessage, RoomError, STATE_FORM, Writer, attributes, canonical, canonical_into, canonical_len,
    canonical_within, check, fault_at, same_message, same_state, state, state_within,
};
use std::fs;

/// The text of a file of the repository.
fn stored(file: &str) -> String {
    fs::read_to_string(format!("{}/../crates/linkwire/{file}", env!("CARGO_MANIFEST_DIR"))).unwrap()
}

fn bytes_of(line: &str) -> Option<Vec<u8>> {
    let digits: Option<Vec<u8>> = line.chars().map(|it| it.to_digit(16).map(|digit| digit as u8)).collect();
    let digits = digits.filter(|it| it.len() % 2 == 0)?;
    Some(digits.chunks(2).map(|it| 16 * it[0] + it[1]).collect())
}

fn answer(line: &str) -> String {
    let message = match bytes_of(line) {
        Some(message) => message,
        None => return "nothex".into(),
    };
    match canonical(&message) {
        Ok(text) => format!("ok {}", text.iter().map(|it| format!("{it:02x}")).collect::<String>()),
        Err(CanonError::Decode(_)) => "refused".into(),
        Err(CanonError::DoesNotFit) => "unfit".into(),
        Err(CanonError::EmptyVfPorts) => "empty-ports".into(),
    }
}

/// The stored lines and answers have numbers lowest byte first; in the other order the lines mean something else.
fn is_answered(line: &str, wanted: &str, name: &str) {
    if BYTE_ORDER == "little" {
        assert_eq!(answer(line), wanted, "{name}");
    }
}

/// What the calls say of one string of bytes agrees.
fn agrees(bytes: &[u8]) {
    let read = LinkMessage::parse(bytes);
    let fault = read.as_ref().err().copied();
    assert_eq!(check(bytes).err(), fault);
    assert_eq!(LinkMessage::check(bytes).err(), fault);
    assert_eq!(LinkMessage::try_from(bytes), read);
    assert_eq!(fault_at(bytes).map(|(fault, _)| fault), fault);
    assert_eq!(fault_at(bytes).map(|(_, at)| at), LinkMessage::fault_at(bytes));
    assert_eq!(LinkMessage::fault_path(bytes).map(|path| path.offset), LinkMessage::fault_at(bytes));
    assert!(fault_at(bytes).map_or(true, |(_, at)| at <= bytes.len()));
    let before = LinkMessage::parse_before_fault(bytes);
    match read {
        Ok(message) => {
            assert_eq!(before.as_ref(), Ok(&(message.clone(), None)));
            agrees_with_value(bytes, &message);
        }
        Err(fault) if bytes.len() < HEADER_SIZE => {
            assert_eq!(before, Err(fault));
            all_refuse(bytes, CanonError::Decode(fault));
        }
        Err(fault) => {
            let front = LinkMessage::parse(&bytes[..outermost_at_fault(bytes)]).unwrap();
            assert_eq!(before, Ok((front, Some(fault))));
            all_refuse(bytes, CanonError::Decode(fault));
        }
    }
}

/// Which attribute of a list holds the byte at this place, if one does, and where it begins.
fn around(list: &[u8], place: usize) -> Option<(Attribute<'_>, usize)> {
    let mut at = 0;
    for attribute in Attributes::of_list(list).map_while(Result::ok) {
        let end = at + 4 + attribute.payload().len();
        if (at..end).contains(&place) {
            return Some((attribute, at));
        }
        at = (end + 3) / 4 * 4;
    }
    None
}

/// The numbers of the fault's path lead to its offset. Returns where the outermost attribute at fault begins, or the
/// bytes that are none.
fn outermost_at_fault(bytes: &[u8]) -> usize {
    let path = LinkMessage::fault_path(bytes).unwrap();
    let (mut list, mut start, mut begins) = (&bytes[HEADER_SIZE..], HEADER_SIZE, Vec::new());
    for number in path.numbers() {
        let (attribute, at) = around(list, path.offset - start).unwrap();
        assert_eq!(attribute.number(), *number);
        begins.push(start + at);
        (list, start) = (attribute.payload(), start + at + 4);
    }
    // the innermost begins there, or in it no attribute does
    assert!(begins.last() == Some(&path.offset) || around(list, path.offset - start).is_none());
    begins.first().copied().unwrap_or(path.offset)
}

/// What the calls on bytes say agrees with what the calls of their value say.
fn agrees_with_value(bytes: &[u8], message: &LinkMessage) {
    let copy = message.clone();
    assert_eq!(&copy, message);
    let found = attributes(bytes).collect::<Result<Vec<Attribute>, DecodeError>>().unwrap();
    assert_eq!(found.len(), message.attributes.len());
    assert_eq!(message.fits(), !matches!(message.to_vec(), Err(CanonError::DoesNotFit)));
    match message.to_vec() {
        Ok(text) => {
            is_written_as(bytes, message, &text);
            assert_eq!(LinkMessage::parse(&text), Ok(copy));
            rewrites(bytes, &found);
        }
        Err(refusal) => {
            assert!(!message.fits() || message.has_empty_ports());
            assert!(!message.reads_back());
            all_refuse(bytes, refusal);
        }
    }
}

/// Every call that writes, writes the same.
fn is_written_as(bytes: &[u8], message: &LinkMessage, text: &[u8]) {
    assert!(message.fits() && !message.has_empty_ports() && message.reads_back());
    assert_eq!(canonical(bytes).as_deref(), Ok(text));
    assert_eq!(canonical(text).as_deref(), Ok(text));
    assert_eq!(canonical_len(bytes), Ok(text.len()));
    assert!(text.len() <= GROWTH * bytes.len());
    assert_eq!(same_message(bytes, text), Ok(true));
    assert_eq!(same_message(bytes, &[0; HEADER_SIZE]), Ok(*text == [0; HEADER_SIZE]));
    writes(canonical_into, bytes, text);
    writes(canonical_within, bytes, text);
    has_state(bytes, text);

    let mut longer = vec![0x55; text.len() + 9];
    message.emit(&mut longer);
    assert_eq!(message.buffer_len(), text.len());
    assert_eq!(longer[..text.len()], *text);
    assert_eq!(longer[text.len()..], [0x55; 9]);
    let attributes: &[LinkAttribute] = &message.attributes;
    assert_eq!(HEADER_SIZE + attributes.buffer_len(), text.len());
}

/// A call writes this text to the front of a longer buffer, and nothing to a shorter one.
fn writes(write: fn(&[u8], &mut [u8]) -> Result<usize, RoomError>, bytes: &[u8], text: &[u8]) {
    let mut longer = vec![0x55; text.len() + 9];
    assert_eq!(write(bytes, &mut longer), Ok(text.len()));
    assert_eq!(longer[..text.len()], *text);
    assert_eq!(longer[text.len()..], [0x55; 9]);
    let short = &mut longer[..text.len() - 1];
    short.fill(0x55);
    assert_eq!(write(bytes, short), Err(RoomError::NoRoom { wanted: text.len() }));
    assert!(short.iter().all(|it| *it == 0x55));
}

/// The state is canonical, as long as the canonical encoding, and that but for zeros; each call writes it, and its own
/// state is itself.
fn has_state(bytes: &[u8], text: &[u8]) {
    let found = state(bytes).unwrap();
    assert_eq!(found.len(), text.len());
    assert!(found.iter().zip(text).all(|(state, canonical)| *state == 0 || state == canonical));
    assert_eq!(canonical(&found).as_ref(), Ok(&found));
    assert_eq!(state(text).as_ref(), Ok(&found));
    assert_eq!(state(&found).as_ref(), Ok(&found));
    assert_eq!(same_state(bytes, text), Ok(true));
    assert_eq!(same_state(bytes, &found), Ok(true));
    assert_eq!(same_state(&[0; HEADER_SIZE], bytes), Ok(found == [0; HEADER_SIZE]));
    writes(state_within, bytes, &found);
}

/// A refusal without the name of the place, which is for a log: calls on a list alone do not know what it is of.
fn nameless(refusal: CanonError) -> CanonError {
    match refusal {
        CanonError::Decode(fault) => CanonError::Decode(DecodeError { place: "", ..fault }),
        refusal => refusal,
    }
}

/// Every call that wants an encoding refuses, and leaves the buffer as it was.
fn all_refuse(bytes: &[u8], refusal: CanonError) {
    let refusal = nameless(refusal);
    assert_eq!(canonical(bytes).map_err(nameless), Err(refusal));
    assert_eq!(canonical_len(bytes).map_err(nameless), Err(refusal));
    assert_eq!(same_message(bytes, &[0; HEADER_SIZE]).map_err(nameless), Err(refusal));
    assert_eq!(same_message(&[0; HEADER_SIZE], bytes).map_err(nameless), Err(refusal));
    assert_eq!(state(bytes).map_err(nameless), Err(refusal));
    assert_eq!(same_state(bytes, &[0; HEADER_SIZE]).map_err(nameless), Err(refusal));
    assert_eq!(same_state(&[0; HEADER_SIZE], bytes).map_err(nameless), Err(refusal));
    for write in [canonical_into, canonical_within, state_within] {
        let mut out = [0x55; 64];
        match write(bytes, &mut out) {
            Err(RoomError::NoEncoding(it)) => assert_eq!(nameless(it), refusal),
            other => panic!("{other:?}, where {refusal:?} is refused"),
        }
        assert_eq!(out, [0x55; 64]);
    }
}

/// The attributes of a message, written again, mean the same.
fn rewrites(message: &[u8], attributes: &[Attribute]) {
    let mut buffer = vec![0; message.len() + 3];
    let mut writer = Writer::message(&mut buffer, message[..HEADER_SIZE].try_into().unwrap()).unwrap();
    for attribute in attributes {
        writer.put(attribute.kind(), attribute.payload()).unwrap();
    }
    assert_eq!(same_message(message, writer.finish()), Ok(true));
}

/// The forms are those of the header for C.
#[test]
fn forms() {
    let header = stored("../../include/linkwire.h");
    for (name, form) in [("CANONICAL", CANONICAL_FORM), ("STATE", STATE_FORM)] {
        assert!(header.contains(&format!("#define LINKWIRE_{name}_FORM {form}\n")), "{name}");
    }
}

#[test]
fn stored_input() {
    let (lines, wanted) = (stored("stdin"), stored("stdout"));
    assert_eq!(lines.lines().count(), wanted.lines().count());
    for (line, wanted) in lines.lines().zip(wanted.lines()) {
        is_answered(line, wanted, line);
        bytes_of(line).iter().for_each(|it| agrees(it));
    }
}

/// Code without its comments, each line that ends in a backslash joined with the next.
fn joined(source: &str) -> String {
    let mut code = String::new();
    for line in source.lines().filter(|it| !it.trim_start().starts_with("//")) {
        let goes_on = code.ends_with('\\');
        code.truncate(code.len() - usize::from(goes_on));
        code.push_str(if goes_on { line.trim_start() } else { line });
    }
    code
}

/// The rows are a label, a line and its answer, texts between quotes, in which only a CR is escaped.
#[test]
fn rows() {
    let sources = ["rows.rt", "rows/lists.rt"].map(|it| joined(&stored(&format!("src/tests/{it}"))));
    let code = sources.concat().replace("\\r", "\r");
    let texts: Vec<&str> = code.split('"').skip(1).step_by(2).collect();
    assert!(texts.len() > 150 && texts.len() % 3 == 0);
    for row in texts.chunks(3) {
        is_answered(row[1], row[2], row[0]);
        bytes_of(row[1]).iter().for_each(|it| agrees(it));
    }
}

/// The lines of the file that `LINKWIRE_LINES` names; none where it is not set.
#[test]
fn lines() {
    let file = match std::env::var_os("LINKWIRE_LINES") {
        Some(file) => file,
        None => return,
    };
    let text = fs::read(file).unwrap();
    let lines = text.split(|it| *it == b'\n').filter_map(|it| std::str::from_utf8(it).ok());
    let messages = lines.filter_map(bytes_of).map(|it| agrees(&it)).count();
    assert!(messages > 0);
    println!("{messages} messages");
}
