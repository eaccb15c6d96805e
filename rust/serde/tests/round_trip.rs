//! Messages as JSON and back.

use linkwire::typed::{InfoData, InfoKind, LinkInfos};
use linkwire::{LinkAttribute, LinkFlags, LinkMessage};
use serde::Serialize;
use serde::de::DeserializeOwned;
use std::fmt::Debug;

fn comes_back<T: Serialize + DeserializeOwned + PartialEq + Debug>(value: &T) -> String {
    let text = serde_json::to_string(value).unwrap();
    assert_eq!(&serde_json::from_str::<T>(&text).unwrap(), value);
    text
}

/// The messages of `bench/messages.txt`, and of the file that `LINK_MESSAGES` names: each the hexadecimal digits at the
/// end of a line.
#[test]
fn messages_of_kernels() {
    let mut paths = vec![concat!(env!("CARGO_MANIFEST_DIR"), "/../../bench/messages.txt").to_string()];
    paths.extend(std::env::var("LINK_MESSAGES"));
    for path in paths {
        let text = std::fs::read_to_string(&path).unwrap();
        let (mut messages, mut data) = (0, 0);
        for line in text.lines().filter_map(|line| line.split_whitespace().last()) {
            let digits: Option<Vec<u8>> = line.bytes().map(|it| Some((it as char).to_digit(16)? as u8)).collect();
            let bytes: Vec<u8> = digits.unwrap_or_default().chunks_exact(2).map(|it| it[0] * 16 + it[1]).collect();
            let message = match LinkMessage::parse(&bytes) {
                Ok(message) => message,
                Err(_) => continue,
            };
            comes_back(&message);
            messages += 1;
            for attribute in &message.attributes {
                if let LinkAttribute::LinkInfo(list) = attribute {
                    data += list.info_data().map_or(0, |it| comes_back(&it.unwrap()).len().min(1));
                    list.port_data().map(|it| comes_back(&it.unwrap()));
                }
            }
        }
        println!("{path}: {messages} messages, {data} data of kinds");
        assert!(messages > 100 && data > 20);
    }
}

#[test]
fn texts() {
    assert_eq!(comes_back(&InfoKind::Bond), r#""Bond""#);
    assert_eq!(comes_back(&(LinkFlags::Up | LinkFlags::Loopback)), "9");
    let data = InfoData::parse(&InfoKind::Vlan, &[6, 0, 1, 0, 10, 0, 0, 0]).unwrap();
    assert_eq!(comes_back(&data), r#"{"Vlan":[{"Id":10}]}"#);
}
