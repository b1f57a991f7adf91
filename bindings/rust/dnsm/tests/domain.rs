//! What the tests of the crate `domain` (0.12.3) say of its message layer, where this crate has a call for it. The texts of flags
//! aren't among it.
use dnsm::{
    build, name_from_text, Builder, Class, EdnsOption, Error, Item, Message, Name, NewItem, NewOpt, Opcode, Rcode, Rtype,
    Section, AA, AD, CD, QR, RA, RD, TC,
};

/// Uncompressed names.
const EXAMPLE: &[u8] = b"\x07example\x03com\0";
const FOO: &[u8] = b"\x03foo\x07example\x03com\0";
const BAR: &[u8] = b"\x03bar\x07example\x03com\0";
const BAZ: &[u8] = b"\x03baz\x07example\x03com\0";
const OPAQUE: Rtype = Rtype(65280);

fn record<'a>(section: Section, owner: &'a [u8], rtype: Rtype, ttl: u32, data: &'a [u8]) -> NewItem<'a> {
    NewItem::record(section, owner, rtype, ttl, data)
}

fn items(octets: &[u8]) -> Vec<Item<'_>> {
    Message::new(octets).unwrap().items().collect::<Result<_, _>>().unwrap()
}

/// A CNAME record of the answer, and an NS record of the authority section.
fn two_records() -> Vec<u8> {
    let answer = record(Section::Answer, FOO, Rtype::CNAME, 86000, BAZ);
    build(0, 0, &[answer, record(Section::Authority, BAR, Rtype::NS, 86000, BAZ)]).unwrap()
}

/// `ds_octets_into`: a record in other octets has the same owner and digest.
#[test]
fn a_copied_record_is_the_same() {
    let ds = record(Section::Answer, b"\x01a\x07example\0", Rtype::DS, 86400, b"\0\x0c\x08\x02something");
    let octets = build(0, 0, &[ds]).unwrap();
    let mut out = [0; 64];
    let mut builder = Builder::new(&mut out, 0, 0).unwrap();
    builder.put_from(&items(&octets)[0], Section::Answer, 86400).unwrap();
    let (from, copy) = (items(&octets)[0], items(builder.finish().unwrap())[0].to_string());
    assert_eq!((from.to_string(), &from.data()[4..]), (copy, &b"something"[..]));
}

/// `short_message`, `short_header`, `short_header_counts` and `short_header_section`.
#[test]
fn a_message_has_at_least_12_octets() {
    for len in [3, 4, 8, 11] {
        assert_eq!(Message::new(&[0; 12][..len]).err(), Some(Error::ShortInput));
    }
    assert!(Message::new(&[0; 12]).is_ok());
}

/// The name at the end of the CNAME records that begin at the question's. None if they don't end.
fn canonical_name<'a>(items: &[Item<'a>]) -> Option<Name<'a>> {
    let mut name = items[0].name();
    for _ in items {
        let alias = items.iter().find(|item| item.rtype() == Rtype::CNAME && item.name() == name);
        match alias {
            Some(alias) => name = alias.data_name(0).unwrap(),
            None => return Some(name),
        }
    }
    None
}

/// `canonical_name`: aliases are followed in any order, and a loop of them has no end.
#[test]
fn aliases_are_followed() {
    let alias = |owner, target| record(Section::Answer, owner, Rtype::CNAME, 86000, target);
    let address = record(Section::Answer, BAZ, Rtype::A, 86000, &[127, 0, 0, 1]);
    let all = [
        NewItem::question(EXAMPLE, Rtype::A, Class::IN),
        alias(BAR, BAZ),
        alias(EXAMPLE, FOO),
        alias(FOO, BAR),
        alias(BAZ, FOO),
        address,
    ];
    for (count, wanted) in [(1, Some(EXAMPLE)), (4, Some(BAZ)), (5, None), (6, None)] {
        let octets = build(0, 0, &all[..count]).unwrap();
        assert_eq!(canonical_name(&items(&octets)).map(|name| name.to_octets()), wanted.map(<[u8]>::to_vec), "{count} items");
    }
}

/// `message_iterator`.
#[test]
fn items_come_in_the_order_of_the_sections() {
    let octets = two_records();
    assert_eq!(items(&octets).iter().map(Item::section).collect::<Vec<_>>(), [Section::Answer, Section::Authority]);
}

/// `copy_records`: only CNAME records.
#[test]
fn some_records_are_copied() {
    let (octets, mut out) = (two_records(), [0; 512]);
    let mut builder = Builder::new(&mut out, 0, 0).unwrap();
    for item in items(&octets).iter().filter(|item| item.rtype() == Rtype::CNAME) {
        builder.put_from(item, item.section(), item.ttl()).unwrap();
    }
    let copy = builder.finish().unwrap();
    assert_eq!(Message::new(copy).unwrap().header().counts, [0, 1, 0, 0]);
    assert_eq!(items(copy)[0].to_string(), "foo.example.com. 86000 IN CNAME baz.example.com.");
}

/// `for_slice`, `counts` and `update_counts`.
#[test]
fn headers_are_read() {
    let header = Message::new(b"\x01\x02\0\0\x12\x34\x56\x78\x9a\xbc\xde\xf0").unwrap().header();
    assert_eq!((header.id, header.flags, header.counts), (0x0102, 0, [0x1234, 0x5678, 0x9abc, 0xdef0]));
    for octets in [[1, 2, 3, 4, 5, 6, 7, 8], [8, 7, 6, 5, 4, 3, 2, 1]] {
        let wanted = [0, 2, 4, 6].map(|at| u16::from_be_bytes([octets[at], octets[at + 1]]));
        assert_eq!(Message::new(&[&[0; 4][..], &octets].concat()).unwrap().header().counts, wanted);
    }
}

/// `header`: each field is read as it was written, and no other one changes. 0x40 is Z.
#[test]
fn header_fields_are_read_as_written() {
    let fields = |id, flags| {
        let octets = build(id, flags, &[]).unwrap();
        let header = Message::new(&octets).unwrap().header();
        (header.id, header.flags & 0x87f0, header.opcode, header.rcode)
    };
    assert_eq!((fields(0, 0), fields(0x1234, 0)), ((0, 0, 0, 0), (0x1234, 0, 0, 0)));
    for flag in [QR, AA, TC, RD, RA, AD, CD, 0x40] {
        assert_eq!(fields(0, flag), (0, flag, 0, 0));
    }
    assert_eq!(fields(0, u16::from(Opcode::NOTIFY.0) << 11), (0, 0, 4, 0));
    assert_eq!(fields(0, Rcode::REFUSED.0), (0, 0, 0, 5));
}

/// `inc_qdcount`, `inc_ancount`, `inc_nscount` and `inc_arcount`: 65,534 items of a section may get one more, and no other.
#[test]
fn a_section_has_at_most_65535_items() {
    let mut out = vec![0; 12 + 65536 * 11];
    for section in [Section::Question, Section::Answer, Section::Authority, Section::Additional] {
        let mut builder = Builder::new(&mut out, 0, 0).unwrap();
        let item = record(section, b"\0", OPAQUE, 0, b"");
        assert!((0..65535).all(|_| builder.put(&item).is_ok()));
        assert_eq!(builder.put(&item), Err(Error::TooMany));
        let counts = Message::new(builder.finish().unwrap()).unwrap().header().counts;
        assert_eq!((counts[section as usize], counts.iter().filter(|&&count| count == 0).count()), (65535, 3));
    }
}

/// `message_builder`: a response of all sections is read back.
#[test]
fn a_message_of_all_sections_is_read_back() {
    let all = [
        NewItem::question(EXAMPLE, Rtype::A, Class::IN),
        record(Section::Answer, EXAMPLE, Rtype::A, 86400, &[192, 0, 2, 1]),
        record(Section::Answer, EXAMPLE, Rtype::A, 86400, &[192, 0, 2, 2]),
        record(Section::Authority, EXAMPLE, Rtype::NS, 0, EXAMPLE),
        record(Section::Additional, EXAMPLE, Rtype::A, 86400, &[192, 0, 2, 1]),
    ];
    let mut out = [0; 512];
    let mut builder = Builder::new(&mut out, 0, RD).unwrap();
    let lengths: Vec<_> = all.iter().map(|item| builder.put(item).map(|()| builder.len()).unwrap()).collect();
    assert_eq!(lengths, [29, 45, 61, 75, 91]);
    let octets = builder.finish().unwrap();
    assert_eq!(build(0, RD, &all).unwrap(), octets);
    let texts: Vec<String> = items(octets).iter().map(Item::to_string).collect();
    assert_eq!(texts[0], "example.com. IN A");
    assert_eq!(texts[1..3], ["example.com. 86400 IN A 192.0.2.1", "example.com. 86400 IN A 192.0.2.2"]);
    assert_eq!(texts[3..], ["example.com. 0 IN NS example.com.", "example.com. 86400 IN A 192.0.2.1"]);
}

/// `exceed_limits`: a limit below the content refuses all, and without one the buffer is the limit.
#[test]
fn limits_are_kept() {
    let (mut out, data) = ([0; 100], [0; 39]);
    let mut builder = Builder::new(&mut out, 0, 0).unwrap();
    let opaque = |len: usize| record(Section::Answer, b"\0", OPAQUE, 0, &data[..len]);
    let steps = [
        (usize::MAX, 39, Ok(()), 62),
        (25, 0, Err(Error::NoRoom), 62),
        (usize::MAX, 27, Ok(()), 100),
        (usize::MAX, 0, Err(Error::NoRoom), 100),
    ];
    for (limit, len, put, after) in steps {
        builder.set_limit(limit);
        assert_eq!((builder.put(&opaque(len)), builder.len()), (put, after));
    }
}

/// `opt_builder`.
#[test]
fn options_are_read_as_written() {
    let nsid = EdnsOption { code: 3, data: b"example" };
    let octets = build(0, 0, &[NewOpt::new(4096, false, 0, &[nsid]).unwrap().item()]).unwrap();
    let opt = Message::new(&octets).unwrap().opt().unwrap().unwrap();
    assert_eq!((opt.udp_size(), opt.options().collect::<Vec<_>>()), (4096, vec![Ok(nsid)]));
}

/// `compress_past_14bit_limit`: names after the range of pointers are read as they were written.
#[test]
fn names_past_the_range_of_pointers_are_read() {
    let (owner, data) = (name_from_text("a.b.c").unwrap(), [0; 16400]);
    let all = [
        record(Section::Answer, b"\x03pad\x07example\x03com\0", OPAQUE, 0, &data),
        record(Section::Answer, &owner, Rtype::A, 0, &[1, 2, 3, 4]),
        record(Section::Answer, &owner, Rtype::A, 0, &[5, 6, 7, 8]),
    ];
    let mut out = vec![0; 65535];
    let mut builder = Builder::new(&mut out, 0, 0).unwrap();
    all.iter().for_each(|item| builder.put(item).unwrap());
    for octets in [build(0, 0, &all).unwrap(), builder.finish().unwrap().to_vec()] {
        let found = items(&octets);
        assert!(found[1].name() == found[2].name() && found[2].name().to_octets() == owner);
    }
}
