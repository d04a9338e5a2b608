//! Small files of forms that a reader has to decide. Values are those that Python's `maxminddb` and libmaxminddb tell, but where they
//! differ, or the page of the crate decides otherwise; decimals are those of Python's `repr`, and hexadecimal numbers of `float.hex`.

use cidr::{Ipv4Cidr, Ipv6Cidr};
use cidr_mmdb::{lookup, open, Database, Found, JsonError, MetadataError, OpenError};
use cidr_support::alloc::Global;

const MARKER: &[u8] = b"\xab\xcd\xefMaxMind.com";

/// Metadata with these numbers.
fn metadata(nodes: u8, record_size: u8, ip_version: u8) -> Vec<u8> {
    let mut bytes = b"\xe3\x4anode_count\xc1".to_vec();
    bytes.push(nodes);
    bytes.extend(b"\x4brecord_size\xa1");
    bytes.push(record_size);
    bytes.extend(b"\x4aip_version\xa1");
    bytes.push(ip_version);
    bytes
}

/// A file of one node, with these records of 24 bits.
fn file_of(left: u8, right: u8, data: &[u8], metadata: &[u8]) -> Vec<u8> {
    let mut bytes = vec![0, 0, left, 0, 0, right];
    bytes.extend([0; 16]);
    bytes.extend(data);
    bytes.extend(MARKER);
    bytes.extend(metadata);
    bytes
}

/// A file in which the lower half of all IPv4 addresses has the value at the beginning of the data.
fn file(data: &[u8]) -> Vec<u8> {
    file_of(17, 1, data, &metadata(1, 24, 4))
}

fn text(database: &Database<'_>, limit: usize) -> Result<String, JsonError> {
    let answer = lookup::<Ipv4Cidr>(database, "10.0.0.1".parse().unwrap());
    assert_eq!((answer.network.to_string().as_str(), answer.found), ("0.0.0.0/1", Found::Value(0)));
    database.json(Global, 0, limit).map(|text| String::from_utf8(text.to_vec()).unwrap())
}

#[test]
fn values_of_each_form() {
    let rows: [(&[u8], Result<&str, JsonError>); 33] = [
        (b"\xc1\x07", Ok("7")),
        (b"\x20\x02\xc1\x07", Ok("7")),
        (b"\x20\x02\x20\x04\xc1\x07", Err(JsonError::Malformed)),
        (b"\x20\x00", Err(JsonError::Malformed)),
        (b"\xe1\x41a\x20\x00", Err(JsonError::Malformed)),
        (b"\xe1\x20\x05\xa1\x07\x41k", Ok(r#"{"k":7}"#)),
        (b"\xe1\xa1\x01\xa1\x07", Err(JsonError::Malformed)),
        (b"\xe2\x41a\xa1\x01\x41a\xa1\x02", Ok(r#"{"a":1,"a":2}"#)),
        (b"\x00\x00", Ok("{}")),
        (b"\x00\x04", Ok("[]")),
        (b"\x03\x04\xa1\x01\x41b\x00\x07", Ok(r#"[1,"b",false]"#)),
        (b"\x00\x05", Err(JsonError::Malformed)),
        (b"\x00\x06", Err(JsonError::Malformed)),
        (b"\x00\x09", Err(JsonError::Malformed)),
        (b"\x01\x07", Ok("true")),
        (b"\x02\x07", Err(JsonError::Malformed)),
        (b"\xa0", Ok("0")),
        (b"\xa2\x00\x01", Ok("1")),
        (b"\xa3\x01\x02\x03", Err(JsonError::Malformed)),
        (b"\x08\x02\xff\xff\xff\xff\xff\xff\xff\xff", Ok("18446744073709551615")),
        (
            b"\x10\x03\xff\xff\xff\xff\xff\xff\xff\xff\xff\xff\xff\xff\xff\xff\xff\xff",
            Ok("340282366920938463463374607431768211455"),
        ),
        (b"\x01\x01\xff", Ok("255")),
        (b"\x04\x01\xff\xff\xff\xff", Ok("-1")),
        (b"\x04\x01\x80\x00\x00\x00", Ok("-2147483648")),
        (b"\x42\xff\xfe", Err(JsonError::Malformed)),
        (b"\x44a\"\\\x1f", Ok(r#""a\"\\\u001f""#)),
        (b"\x42\xc3\xa9", Ok("\"\u{e9}\"")),
        (b"\x5d\x00aaaaaaaaaaaaaaaaaaaaaaaaaaaaa", Ok("\"aaaaaaaaaaaaaaaaaaaaaaaaaaaaa\"")),
        (b"\x45ab", Err(JsonError::Malformed)),
        (b"\x83\x00\xab\xff", Ok("\"00abff\"")),
        (b"\x64\x00\x00\x00\x00", Err(JsonError::Malformed)),
        (b"\x1f\x04\xff\xff\xff", Err(JsonError::Malformed)),
        (b"", Err(JsonError::Malformed)),
    ];
    for (data, wanted) in rows {
        let bytes = file(data);
        let database = open(&bytes).unwrap();
        if data.is_empty() {
            assert_eq!(lookup::<Ipv4Cidr>(&database, "10.0.0.1".parse().unwrap()).found, Found::Broken);
            continue;
        }
        assert_eq!(text(&database, 10_000), wanted.map(str::to_string), "{data:x?}");
    }
}

#[test]
fn numbers_of_ieee_754() {
    for (value, wanted) in [
        (0.0, "0.0"),
        (-0.0, "-0.0"),
        (5.0, "5.0"),
        (0.1, "0.1"),
        (0.1 + 0.2, "0.30000000000000004"),
        (1.0 / 3.0, "0.3333333333333333"),
        (-122.3321, "-122.3321"),
        (47.6, "47.6"),
        (9007199254740993.0, "9007199254740992.0"),
        (1e-7, "\"0x1.ad7f29abcaf48p-24\""),
        (5e-324, "\"0x0.0000000000001p-1022\""),
        (-f64::MAX, "\"-0x1.fffffffffffffp+1023\""),
        (f64::INFINITY, "\"Infinity\""),
        (f64::NEG_INFINITY, "\"-Infinity\""),
        (f64::NAN, "\"NaN\""),
    ] {
        let bytes = file(&[b"\x68".as_slice(), &value.to_be_bytes()].concat());
        assert_eq!(text(&open(&bytes).unwrap(), 100).unwrap(), wanted);
    }
    for (value, wanted) in [(1.0f32, "1.0"), (0.1, "0.10000000149011612"), (1e-45, "\"0x0.0000020000000p-126\""), (f32::NAN, "\"NaN\"")] {
        let bytes = file(&[b"\x04\x08".as_slice(), &value.to_be_bytes()].concat());
        assert_eq!(text(&open(&bytes).unwrap(), 100).unwrap(), wanted);
    }
}

#[test]
fn depth_and_length_are_limited() {
    let nested = |levels: usize| [b"\x01\x04".repeat(levels), b"\xc1\x07".to_vec()].concat();
    let (deep, deeper) = (file(&nested(511)), file(&nested(512)));
    assert_eq!(text(&open(&deep).unwrap(), 2000).unwrap().len(), 1023);
    assert_eq!(text(&open(&deeper).unwrap(), 2000), Err(JsonError::Malformed));
    // Each array has two pointers to the next.
    let mut doubling: Vec<u8> = (1..=25u8).flat_map(|i| [2, 4, 0x20, 6 * i, 0x20, 6 * i]).collect();
    doubling.extend(b"\xc1\x07");
    assert_eq!(text(&open(&file(&doubling)).unwrap(), 100_000), Err(JsonError::TooLong));
    assert_eq!(text(&open(&file(b"\x42ab")).unwrap(), 4), Ok("\"ab\"".to_string()));
    assert_eq!(text(&open(&file(b"\x42ab")).unwrap(), 3), Err(JsonError::TooLong));
}

#[test]
fn records_and_families() {
    let found = |bytes: &[u8], address: &str| lookup::<Ipv4Cidr>(&open(bytes).unwrap(), address.parse().unwrap()).found;
    for (record, wanted) in [(0, Found::Broken), (1, Found::Nothing), (6, Found::Broken), (17, Found::Value(0)), (18, Found::Value(1)), (19, Found::Broken)] {
        assert_eq!(found(&file_of(record, 1, b"\xc1\x07", &metadata(1, 24, 4)), "0.0.0.0"), wanted);
    }
    let ipv4 = file(b"\xc1\x07");
    let answer = lookup::<Ipv6Cidr>(&open(&ipv4).unwrap(), "2001:db8::".parse().unwrap());
    assert_eq!((answer.network.to_string().as_str(), answer.found), ("::/0", Found::Nothing));
    let ipv6 = file_of(17, 1, b"\xc1\x07", &metadata(1, 24, 6));
    let answer = lookup::<Ipv4Cidr>(&open(&ipv6).unwrap(), "192.0.2.1".parse().unwrap());
    assert_eq!((answer.network.to_string().as_str(), answer.found), ("0.0.0.0/0", Found::Value(0)));
    let answer = lookup::<Ipv6Cidr>(&open(&ipv6).unwrap(), "8000::1".parse().unwrap());
    assert_eq!((answer.network.to_string().as_str(), answer.found), ("8000::/1", Found::Nothing));
}

#[test]
fn bytes_that_are_no_file() {
    let of = |metadata: &[u8]| open(&file_of(17, 1, b"\xc1\x07", metadata)).err();
    assert_eq!(open(b"").err(), Some(OpenError::NoMarker));
    assert_eq!(of(b""), Some(OpenError::Metadata(MetadataError::NoNodeCount)));
    assert_eq!(of(&metadata(1, 20, 4)), Some(OpenError::Metadata(MetadataError::NoRecordSize)));
    assert_eq!(of(&metadata(1, 24, 5)), Some(OpenError::Metadata(MetadataError::NoIpVersion)));
    assert_eq!(of(&metadata(9, 24, 4)), Some(OpenError::TreeTooLong));
    // The last marker counts, and bytes behind the metadata are not read.
    let twice = [&b"\xc1\x07"[..], MARKER, b"other"].concat();
    assert_eq!(open(&file(&twice)).unwrap().data.len(), 21);
    assert!(open(&[file(b"\xc1\x07"), MARKER.to_vec()].concat()).is_err());
    assert!(open(&[file(b"\xc1\x07"), b"tail".to_vec()].concat()).is_ok());
    assert!(open(&[file(b"\xc1\x07"), vec![0; 140_000]].concat()).is_err());
    assert_eq!(open(b"").err().unwrap().to_string(), "no marker of the metadata in the last 128 KiB");
}
