//! Attributes that are written inside of others, and those that have no room or do not fit.

use linkwire::{Attributes, CanonError, Cause, RoomError, Writer, attributes, canonical};

#[test]
fn nests() {
    let mut buffer = [0; 64];
    let mut writer = Writer::message(&mut buffer, &[0; 16]).unwrap();
    let numbers = [1u32.to_ne_bytes(), 2u32.to_ne_bytes()].concat();
    let put = writer.nest(22, |list| list.nest(1, |function| function.put(5, &numbers)));
    assert_eq!(put, Ok(()));
    assert!(matches!(writer.nest(18, |info| info.put(1, &[b'x'; 65])), Err(RoomError::NoRoom { .. })));
    let message = writer.finish();
    assert_eq!(message.len(), 16 + 4 + 4 + 12);
    let list = attributes(message).next().unwrap().unwrap();
    let function = list.nested().next().unwrap().unwrap();
    let state = function.nested().next().unwrap().unwrap();
    assert_eq!((list.number(), function.number(), state.number()), (22, 1, 5));
    assert_eq!(state.as_u64(), Some(u64::from_ne_bytes(numbers.try_into().unwrap())));
    assert_eq!((state.as_u8(), state.as_u16(), state.as_u32()), (None, None, None));
    assert_eq!(canonical(message).as_deref(), Ok(message));
}

#[test]
fn no_room() {
    assert_eq!(Writer::message(&mut [0; 15], &[0; 16]).unwrap_err(), RoomError::NoRoom { wanted: 16 });
    let mut buffer = [0x55; 18];
    let mut writer = Writer::message(&mut buffer, &[1; 16]).unwrap();
    assert_eq!(writer.put(4, &[]), Err(RoomError::NoRoom { wanted: 20 }));
    assert_eq!(writer.nest(18, |_| Ok(())), Err(RoomError::NoRoom { wanted: 20 }));
    assert_eq!(writer.finish(), [1; 16]);
    assert_eq!(buffer[16..], [0x55; 2]);
}

#[test]
fn does_not_fit() {
    let unfit = Err(RoomError::NoEncoding(CanonError::DoesNotFit));
    let mut buffer = vec![0; 70_000];
    let mut writer = Writer::new(&mut buffer);
    assert_eq!(writer.nest(1, |list| list.put(1, &[0; 65_524])), Ok(()));
    let mut buffer = vec![0; 70_000];
    let mut writer = Writer::new(&mut buffer);
    assert_eq!(writer.nest(1, |list| list.put(1, &[0; 65_531])), unfit);
    assert_eq!(writer.put(1, &[0; 65_532]), unfit);
    assert!(writer.finish().is_empty());
}

#[test]
fn first_fault_ends() {
    let causes = |mut list: Attributes| (list.next().unwrap().unwrap_err().cause, list.next().is_none());
    assert_eq!(causes(attributes(&[0; 15])), (Cause::TooShort { got: 15, need: 16 }, true));
    assert_eq!(causes(Attributes::of_list(&[0; 3])), (Cause::FrameShort { left: 3 }, true));
    let header = |length: u16| [length.to_ne_bytes(), [0; 2]].concat();
    assert_eq!(causes(Attributes::of_list(&header(3))), (Cause::FrameUnder { length: 3 }, true));
    let over = Cause::FrameOver { length: 5, left: 4 };
    assert_eq!(causes(Attributes::of_list(&header(5))), (over, true));
    assert!(Attributes::of_list(&[]).next().is_none());
}
