//! Reading, writing, and the errors of both.
use dnsm::{
    build, name_from_text, query, respond_a, Builder, Class, EdnsOption, Error, ExtendedErrorCode, Item, Message, NewItem,
    NewName, NewOpt, Opcode, OptionCode, Rcode, Rtype, Section, QR,
};

/// A response with the question example.com. IN A, and its address by a pointer to that name.
const RESPONSE: &[u8] =
    b"\x12\x34\x81\x80\0\x01\0\x01\0\0\0\0\x07example\x03com\0\0\x01\0\x01\xc0\x0c\0\x01\0\x01\0\0\x0e\x10\0\x04\xc0\0\x02\x01";
const OWNER: &[u8] = b"\x07example\x03com\0";

fn answer<'a>(name: &'a str, rtype: Rtype, data: &'a [u8]) -> NewItem<'a> {
    NewItem::record(Section::Answer, name, rtype, 3600, data)
}

#[test]
fn a_response_is_read() {
    let message = Message::new(RESPONSE).unwrap();
    let header = message.header();
    assert_eq!((header.id, header.flags, header.counts), (0x1234, 0x8180, [1, 1, 0, 0]));
    let items: Vec<Item> = message.items().collect::<Result<_, _>>().unwrap();
    assert_eq!(items.len(), 2);
    assert_eq!(items[0].to_string(), "example.com. IN A");
    assert!(items[0].data_text().is_none() && items[0].data().is_empty());
    assert_eq!(items[1].to_string(), "example.com. 3600 IN A 192.0.2.1");
    assert_eq!(items[1].data(), [192, 0, 2, 1]);
    assert_eq!(items[1].name().to_octets(), OWNER);
    assert_eq!(items[1].data_name(0).err(), Some(Error::NoName));
    assert_eq!(items[1].opt().err(), Some(Error::NotOpt));
    assert_eq!(message.section(Section::Answer).count(), 1);
    assert!(message.opt().unwrap().is_none());
}

#[test]
fn names_in_rdata_end_with_it() {
    // An NS record of one octet, which would be a label with octets after the RDATA; and one of a pointer to such a label.
    let label = b"\0\0\x80\0\0\0\0\x01\0\0\0\0\0\0\x02\0\x01\0\0\0\0\0\x01\x01a\0";
    let pointer = b"\0\0\x80\0\0\0\0\x01\0\0\0\0\0\0\x02\0\x01\0\0\0\x06\0\x02\xc0\x14aa\0";
    for octets in [&label[..], &pointer[..]] {
        let record = Message::new(octets).unwrap().items().next().unwrap().unwrap();
        assert_eq!(record.data_name(0).err(), Some(Error::BadData));
        assert!(record.to_string().contains(" NS \\# "));
    }
}

#[test]
fn numbers_have_their_registered_names() {
    assert_eq!(Rtype::SRV.to_string() + &Class(254).to_string(), "SRVNONE");
    assert_eq!(Rtype(65280).to_string() + &Class(2).to_string(), "TYPE65280CLASS2");
    assert_eq!(ExtendedErrorCode(3).to_string(), "Stale Answer");
}

#[test]
fn numbers_are_read_from_text() {
    assert_eq!(("mx".parse(), "TYPE65280".parse()), (Ok(Rtype::MX), Ok(Rtype(65280))));
    assert_eq!(("IN".parse(), "class2".parse()), (Ok(Class::IN), Ok(Class(2))));
    assert_eq!(("update".parse(), "OPCODE256".parse::<Opcode>()), (Ok(Opcode::UPDATE), Err(Error::BadText)));
    assert_eq!(("BadVers".parse(), "RCODE4096".parse::<Rcode>()), (Ok(Rcode::BADVERS), Err(Error::BadText)));
    assert_eq!(("cookie".parse(), "OPTION4".parse()), (Ok(OptionCode(10)), Ok(OptionCode(4))));
    assert_eq!(("stale answer".parse(), "EDE49152".parse()), (Ok(ExtendedErrorCode(3)), Ok(ExtendedErrorCode(49152))));
    for text in ["", "15", "TYPE", "TYPE65536", "\u{ff}"] {
        assert_eq!(text.parse::<Rtype>(), Err(Error::BadText), "{text:?}");
    }
}

#[test]
fn every_prefix_ends_in_one_error() {
    for len in 0..RESPONSE.len() {
        match Message::new(&RESPONSE[..len]) {
            Err(error) => assert!(len < 12 && error == Error::ShortInput),
            Ok(message) => {
                assert_eq!(message.items().filter(Result::is_err).count(), 1, "{len} octets");
                assert_eq!(message.section(Section::Question).filter(Result::is_err).count(), usize::from(len < 29));
            }
        }
    }
}

#[test]
fn options_are_read_as_they_were_written() {
    let options = [EdnsOption { code: 3, data: b"" }, EdnsOption { code: 10, data: &[7; 8] }];
    let opt = NewOpt::new(1232, true, 1, &options).unwrap();
    assert_eq!(opt.octets(), 11 + 4 + 12);
    let octets = build(1, 0, &[NewItem::question("a", Rtype::A, Class::IN), opt.item()]).unwrap();
    let message = Message::new(&octets).unwrap();
    let opt = message.opt().unwrap().unwrap();
    assert_eq!((opt.udp_size(), opt.dnssec_ok(), opt.version(), opt.rcode(0)), (1232, true, 0, 16));
    assert_eq!(opt.options().collect::<Result<Vec<_>, _>>().unwrap(), options);
    assert_eq!(NewOpt::new(1232, false, 0, &[EdnsOption { code: 1, data: &[0; 65536] }]).err(), Some(Error::LongData));
}

#[test]
fn names_are_read_from_texts() {
    assert_eq!(name_from_text("a\\.b.c").unwrap(), b"\x03a.b\x01c\0");
    assert_eq!(name_from_text("").unwrap_err().to_string(), "the text, or the name of an item, isn't valid");
    assert_eq!(name_from_text("\u{e9}").unwrap_err(), Error::BadText);
}

#[test]
fn what_cannot_be_written_is_an_error() {
    assert_eq!(build(1, 0, &[NewItem::question("a..b", Rtype::A, Class::IN)]), Err(Error::BadText));
    assert_eq!(build(1, 0, &[NewItem::question(b"\x01".as_slice(), Rtype::A, Class::IN)]), Err(Error::ShortInput));
    assert_eq!(build(1, 0, &[answer("a", Rtype::A, &[1])]), Err(Error::BadData));
    assert_eq!(build(1, 0, &[answer("a", Rtype::TXT, &[0; 65536])]), Err(Error::LongData));
    assert_eq!(build(1, 0, &[]).unwrap(), b"\0\x01\0\0\0\0\0\0\0\0\0\0");
}

#[test]
fn names_may_be_text_or_octets() {
    for name in [NewName::Text("example.com"), NewName::Text("example.com."), NewName::Octets(OWNER)] {
        let record = NewItem { name, ..answer("", Rtype::A, &[192, 0, 2, 1]) };
        let items = [NewItem::question(OWNER, Rtype::A, Class::IN), record];
        assert_eq!(build(0x1234, 0x8180, &items).unwrap(), RESPONSE);
        let mut out = [0; 64];
        let mut builder = Builder::new(&mut out, 0x1234, 0x8180).unwrap();
        for item in &items {
            builder.put(item).unwrap();
        }
        assert_eq!(builder.finish().unwrap(), RESPONSE);
    }
}

#[test]
fn a_message_has_a_limit() {
    let mut out = [0; 512];
    let mut builder = Builder::new(&mut out, 0x1234, 0x8180).unwrap();
    builder.put(&NewItem::question("example.com", Rtype::A, Class::IN)).unwrap();
    let (mark, record) = (builder.mark(), answer("example.com", Rtype::A, &[192, 0, 2, 1]));
    builder.set_limit(44);
    assert_eq!((builder.put(&record), builder.len()), (Err(Error::NoRoom), 29));
    builder.set_limit(45);
    builder.set_reserved(1);
    assert_eq!((builder.put(&record), builder.len()), (Err(Error::NoRoom), 29));
    builder.set_reserved(0);
    assert_eq!((builder.put(&record), builder.len()), (Ok(()), 45));
    assert_eq!(builder.put(&record), Err(Error::NoRoom));
    builder.set_flags(0);
    assert_eq!(builder.flags(), 0);
    builder.rewind(&mark);
    assert_eq!((builder.flags(), builder.len()), (0x8180, 29));
    builder.put(&record).unwrap();
    assert_eq!(builder.finish().unwrap(), RESPONSE);
}

#[test]
fn what_cannot_be_put_is_an_error() {
    assert_eq!(Builder::new(&mut [0; 11], 1, 0).err(), Some(Error::NoRoom));
    let mut out = [0; 512];
    let mut builder = Builder::new(&mut out, 1, 0).unwrap();
    assert_eq!(builder.put(&answer("a..b", Rtype::A, &[0; 4])), Err(Error::BadText));
    assert_eq!(builder.put(&answer("a", Rtype::TXT, &[0; 65536])), Err(Error::LongData));
    let unfinished = NewItem { name: NewName::Octets(b"\x01a"), ..answer("", Rtype::A, &[0; 4]) };
    assert_eq!(builder.put(&unfinished), Err(Error::BadText));
    builder.put(&answer("a", Rtype::A, &[0; 4])).unwrap();
    assert_eq!(builder.put(&NewItem::question("a", Rtype::A, Class::IN)), Err(Error::BadSection));
    assert_eq!(builder.finish().unwrap().len(), 12 + 17);
}

#[test]
fn a_query_is_answered() {
    let query = query(7, true, "a.example", Rtype::A, Class::IN).unwrap();
    let response = respond_a(&query, true, 60, [192, 0, 2, 9]).unwrap();
    let last = Message::new(&response).unwrap().items().last().unwrap().unwrap();
    assert_eq!(last.to_string(), "a.example. 60 IN A 192.0.2.9");
    assert_eq!(respond_a(&response, true, 60, [0; 4]), Err(Error::IsResponse));
    assert!(Message::new(&response).unwrap().header().flags & QR != 0);
}

#[test]
fn long_texts_are_whole() {
    let data: Vec<u8> = [[255].as_slice(), &[b'a'; 255]].concat().repeat(40);
    let octets = build(1, 0, &[answer("a", Rtype::TXT, &data)]).unwrap();
    let item = Message::new(&octets).unwrap().items().next().unwrap().unwrap();
    assert_eq!(item.data_text().unwrap().to_string().len(), 40 * 258 - 1);
}

#[test]
fn values_may_be_shared_between_threads() {
    fn is_shared<T: Send + Sync>() {}
    is_shared::<Message<'_>>();
    is_shared::<Builder<'_>>();
    is_shared::<Error>();
}
