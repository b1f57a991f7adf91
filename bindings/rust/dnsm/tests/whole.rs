//! All fields of a message, and all reasons for an error. The octets are by hand (RFC 1035 section 4.1, RFC 6891 section 6.1).
use dnsm::{
    build, name_from_text, query, query_opt, respond_a, Builder, Class, EdnsOption, Error, Message, Name, NewItem, NewName,
    NewOpt, Rtype, Section, AA, AD, CD, QR,
};

/// A message with an item in each section. It has opcode 5, rcode 3 and the flags QR, AA, AD and CD.
const WHOLE: &[u8] = b"\x12\x34\xac\x33\0\x01\0\x01\0\x01\0\x02\
    \x07example\0\0\xff\0\x03\
    \xc0\x0c\0\x0f\0\x01\0\x01\x02\x03\0\x07\0\x0a\x02mx\xc0\x0c\
    \xc0\x0c\0\x06\0\x03\0\0\x1c\x20\0\x20\x02ns\xc0\x0c\x04host\xc0\x0c\0\0\0\x01\0\0\0\x02\0\0\0\x03\0\0\0\x04\0\0\0\x05\
    \xc0\x38\0\x01\0\x01\0\0\x01\x2c\0\x04\xc0\0\x02\x01\
    \0\0\x29\x10\0\x01\x02\x80\x01\0\x0a\0\x03\0\0\0\x0a\0\x02\xab\xcd";
const FLAGS: u16 = QR | AA | AD | CD | 5 << 11 | 3;
const MX: &[u8] = b"\0\x0a\x02mx\x07example\0";
const SOA: &[u8] = b"\x02ns\x07example\0\x04host\x07example\0\0\0\0\x01\0\0\0\x02\0\0\0\x03\0\0\0\x04\0\0\0\x05";
const OPTIONS: &[u8] = b"\0\x03\0\0\0\x0a\0\x02\xab\xcd";

/// The same message in items to write.
fn items() -> [NewItem<'static>; 5] {
    let soa = NewItem::record(Section::Authority, "example", Rtype::SOA, 7200, SOA);
    let opt = NewItem::record(Section::Additional, b"\0".as_slice(), Rtype::OPT, 0x0102_8001, OPTIONS);
    [
        NewItem::question("example", Rtype::ANY, Class::CH),
        NewItem::record(Section::Answer, "example", Rtype::MX, 0x0001_0203, MX),
        NewItem { class: Class::CH, ..soa },
        NewItem::record(Section::Additional, "ns.example", Rtype::A, 300, &[192, 0, 2, 1]),
        NewItem { class: Class(4096), ..opt },
    ]
}

/// The text of a name and its offset.
fn named(name: Name<'_>) -> (String, usize) {
    (name.to_string(), name.offset())
}

#[test]
fn all_fields_are_read() {
    let message = Message::new(WHOLE).unwrap();
    let header = message.header();
    assert_eq!((header.id, header.flags, header.opcode, header.rcode, header.counts), (0x1234, 0xac33, 5, 3, [1, 1, 1, 2]));
    let fields =
        message.items().map(Result::unwrap).map(|it| (it.section(), it.rtype().0, it.class().0, it.ttl(), it.data_offset()));
    let wanted = [
        (Section::Question, 255, 3, 0, 25),
        (Section::Answer, 15, 1, 66051, 37),
        (Section::Authority, 6, 3, 7200, 56),
        (Section::Additional, 1, 1, 300, 100),
        (Section::Additional, 41, 4096, 16_941_057, 115),
    ];
    assert_eq!(fields.collect::<Vec<_>>(), wanted);
    let texts: Vec<String> = message.items().map(|item| item.unwrap().to_string()).collect();
    assert_eq!(texts[0], "example. CH ANY");
    assert_eq!(texts[1], "example. 66051 IN MX 10 mx.example.");
    assert_eq!(texts[2], "example. 7200 CH SOA ns.example. host.example. 1 2 3 4 5");
    assert_eq!(texts[3], "ns.example. 300 IN A 192.0.2.1");
    assert_eq!(texts[4], ". 16941057 CLASS4096 OPT \\# 10 00030000000a0002abcd");
    for section in [Section::Question, Section::Answer, Section::Authority, Section::Additional] {
        let found: Vec<String> = message.section(section).map(|item| item.unwrap().to_string()).collect();
        assert_eq!(found, texts.iter().zip(wanted).filter(|it| it.1 .0 == section).map(|it| it.0.clone()).collect::<Vec<_>>());
    }
    assert_eq!(message.octets(), WHOLE);
}

#[test]
fn items_before_an_error_are_read() {
    let message = Message::new(&WHOLE[..103]).unwrap();
    assert_eq!(message.items().map(|item| item.err()).collect::<Vec<_>>(), [None, None, None, Some(Error::ShortInput)]);
    for (section, wanted) in [(Section::Question, 0), (Section::Answer, 0), (Section::Authority, 0), (Section::Additional, 1)] {
        assert_eq!(message.section(section).filter(Result::is_err).count(), wanted);
    }
    assert_eq!(message.opt().err(), Some(Error::ShortInput));
}

#[test]
fn all_names_are_found() {
    let items: Vec<_> = Message::new(WHOLE).unwrap().items().map(Result::unwrap).collect();
    let owners =
        ["example.", "example.", "example.", "ns.example.", "."].map(String::from).into_iter().zip([12, 25, 44, 88, 104]);
    assert!(items.iter().map(|item| named(item.name())).eq(owners));
    assert_eq!(items[3].name().to_octets(), b"\x02ns\x07example\0");
    assert_eq!(items[1].data_name(0).map(named), Ok(("mx.example.".into(), 39)));
    assert_eq!(items[2].data_name(0).map(named), Ok(("ns.example.".into(), 56)));
    assert_eq!(items[2].data_name(1).map(named), Ok(("host.example.".into(), 61)));
    assert_eq!((items[1].data_name(1).err(), items[2].data_name(2).err()), (Some(Error::NoName), Some(Error::NoName)));
    assert_eq!((items[1].data(), items[3].data()), (&WHOLE[37..44], &[192, 0, 2, 1][..]));
    assert_eq!((items[0].data(), items[4].data()), (&[][..], OPTIONS));
    assert_eq!(items[0].data_name(0).err(), Some(Error::BadSection));
}

#[test]
fn long_data_is_whole() {
    let data: Vec<u8> = (0..65535).map(|number| (number % 251) as u8).collect();
    let octets = build(1, 0, &[NewItem::record(Section::Answer, ".", Rtype(65280), 0, &data)]).unwrap();
    assert_eq!(Message::new(&octets).unwrap().items().next().unwrap().unwrap().data(), data);
}

#[test]
fn the_opt_record_is_read() {
    let opt = Message::new(WHOLE).unwrap().opt().unwrap().unwrap();
    assert_eq!((opt.udp_size(), opt.dnssec_ok(), opt.version(), opt.rcode(3), opt.rcode(0xf3)), (4096, true, 2, 19, 19));
    let wanted = [EdnsOption { code: 3, data: b"" }, EdnsOption { code: 10, data: b"\xab\xcd" }];
    assert!(opt.options().map(Result::unwrap).eq(wanted));
    // An option that isn't whole: an error after those before it, and then the end.
    let mut octets = WHOLE.to_vec();
    octets[122] = 3;
    let opt = Message::new(&octets).unwrap().opt().unwrap().unwrap();
    assert!(opt.options().take(9).eq([Ok(wanted[0]), Err(Error::BadOption)]));
    // An extended rcode of more than eight bits.
    octets[109] = 0x12;
    assert_eq!(Message::new(&octets).unwrap().opt().unwrap().unwrap().rcode(3), 0x123);
    // Without DO, with another flag.
    let mut octets = WHOLE.to_vec();
    octets[111] = 0;
    assert!(!Message::new(&octets).unwrap().opt().unwrap().unwrap().dnssec_ok());
    // The first of two, in the additional section only.
    let records = [(Section::Answer, 1), (Section::Additional, 2), (Section::Additional, 3)];
    let records =
        records.map(|(section, size)| NewItem { class: Class(size), ..NewItem::record(section, ".", Rtype::OPT, 0, b"") });
    let octets = build(1, 0, &records).unwrap();
    assert_eq!(Message::new(&octets).unwrap().opt().unwrap().unwrap().udp_size(), 2);
    assert!(Message::new(&build(1, 0, &records[..1]).unwrap()).unwrap().opt().unwrap().is_none());
}

#[test]
fn all_fields_are_written() {
    assert_eq!(build(0x1234, FLAGS, &items()).unwrap(), WHOLE);
    let mut out = [0; 512];
    let mut builder = Builder::new(&mut out, 0x1234, FLAGS).unwrap();
    for item in &items() {
        builder.put(item).unwrap();
    }
    assert_eq!((builder.len(), builder.flags()), (WHOLE.len(), FLAGS));
    assert_eq!(builder.finish().unwrap(), WHOLE);
}

#[test]
fn an_opt_record_is_written() {
    let options = [EdnsOption { code: 3, data: b"" }, EdnsOption { code: 10, data: b"\xab\xcd" }];
    let opt = NewOpt::new(4096, true, 1, &options).unwrap();
    assert_eq!(&build(0, 0, &[opt.item()]).unwrap()[12..], [&b"\0\0\x29\x10\0\x01\0\x80\0\0\x0a"[..], OPTIONS].concat());
    let opt = NewOpt::new(512, false, 0x12, &[]).unwrap();
    assert_eq!(opt.item().ttl, 0x1200_0000);
    let opt = NewOpt::new(512, false, 0, &[]).unwrap();
    assert_eq!(build(0, 0, &[opt.item()]).unwrap(), b"\0\0\0\0\0\0\0\0\0\0\0\x01\0\0\x29\x02\0\0\0\0\0\0\0");
}

#[test]
fn queries_and_responses_have_all_fields() {
    let asked = b"\x01\x02\0\0\0\x01\0\0\0\0\0\0\x01a\x01b\0\0\x0f\0\x03";
    assert_eq!(query(0x0102, false, "a.b", Rtype::MX, Class::CH).unwrap(), asked);
    let asked = b"\x01\x02\x01\0\0\x01\0\0\0\0\0\0\x01a\x01b\0\0\x01\0\x01";
    assert_eq!(query(0x0102, true, "a.b.", Rtype::A, Class::IN).unwrap(), asked);
    for (authoritative, flags) in [(true, 0x85), (false, 0x81)] {
        let response = respond_a(asked, authoritative, 0x0102_0304, [192, 0, 2, 9]).unwrap();
        let header = [1, 2, flags, 0, 0, 1, 0, 1, 0, 0, 0, 0];
        assert_eq!(response, [&header[..], &asked[12..], b"\xc0\x0c\0\x01\0\x01\x01\x02\x03\x04\0\x04\xc0\0\x02\x09"].concat());
    }
}

#[test]
fn a_query_has_an_opt_record() {
    let options = [EdnsOption { code: 3, data: b"" }, EdnsOption { code: 10, data: b"\xab\xcd" }];
    let opt = NewOpt::new(4096, true, 1, &options).unwrap();
    let head = b"\x01\x02\x01\0\0\x01\0\0\0\0\0\x01\x01a\x01b\0\0\x0f\0\x03\0\0\x29\x10\0\x01\0\x80\0\0\x0a";
    assert_eq!(query_opt(0x0102, true, "a.b", Rtype::MX, Class::CH, &opt).unwrap(), [&head[..], OPTIONS].concat());
    assert_eq!(query_opt(1, true, "", Rtype::A, Class::IN, &opt), Err(Error::BadText));
    let opt = NewOpt::new(512, false, 0, &[]).unwrap();
    let asked = b"\0\x01\0\0\0\x01\0\0\0\0\0\x01\0\0\x01\0\x01\0\0\x29\x02\0\0\0\0\0\0\0";
    assert_eq!(query_opt(1, false, ".", Rtype::A, Class::IN, &opt).unwrap(), asked);
    let opt = NewOpt::new(512, false, 0, &[EdnsOption { code: 1, data: &[0; 65532] }]).unwrap();
    assert_eq!(query_opt(1, false, ".", Rtype::A, Class::IN, &opt), Err(Error::LongData));
}

#[test]
fn a_limit_may_be_long() {
    let mut out = [0; 4096];
    let mut builder = Builder::new(&mut out, 1, 0).unwrap();
    let data = [0; 1477];
    builder.set_limit(1501);
    let item = NewItem::record(Section::Answer, ".", Rtype(65280), 0, &data);
    assert_eq!(builder.put(&NewItem { data: &[0; 1479], ..item }), Err(Error::NoRoom));
    builder.set_limit(1500);
    assert_eq!((builder.put(&item), builder.len()), (Ok(()), 12 + 11 + 1477));
    builder.set_limit(4096);
    builder.put(&item).unwrap();
    assert_eq!(builder.finish().unwrap().len(), 12 + 2 * (11 + 1477));
}

#[test]
fn a_rewind_restores_limit_and_reserved_octets() {
    let mut out = [0; 64];
    let mut builder = Builder::new(&mut out, 1, 0).unwrap();
    let item = NewItem::question(".", Rtype::A, Class::IN);
    builder.set_limit(16);
    let limited = builder.mark();
    builder.set_limit(64);
    builder.set_reserved(48);
    let reserved = builder.mark();
    builder.set_reserved(0);
    builder.rewind(&reserved);
    assert_eq!(builder.put(&item), Err(Error::NoRoom));
    builder.rewind(&limited);
    assert_eq!(builder.put(&item), Err(Error::NoRoom));
    builder.set_limit(17);
    assert_eq!(builder.put(&item), Ok(()));
}

#[test]
fn texts_may_be_padded() {
    assert_eq!(format!("{:>3}{:3}{:>9}", Rtype::A, Class::IN, Section::Answer), "  AIN    answer");
}

#[test]
fn the_empty_text_is_no_name() {
    assert_eq!(query(1, true, "", Rtype::A, Class::IN), Err(Error::BadText));
    let item = NewItem::question("", Rtype::A, Class::IN);
    assert_eq!((build(1, 0, &[item]), putting(&[item])), (Err(Error::BadText), Err(Error::BadText)));
}

/// Names in octets that are no name, or more than one.
#[test]
fn a_name_in_octets_is_whole() {
    let names: [(&[u8], Error); 6] = [
        (b"\0x", Error::BadText),
        (b"\x01a\0\0", Error::BadText),
        (b"\x02\0b\xc0\x01", Error::BadText),
        (b"", Error::ShortInput),
        (b"\x01a", Error::ShortInput),
        (b"\x40", Error::BadLabel),
    ];
    for (name, error) in names {
        let item = NewItem::question(name, Rtype::A, Class::IN);
        assert_eq!(build(1, 0, &[item]), Err(error), "{name:?}");
        let mut out = [0; 64];
        assert_eq!(Builder::new(&mut out, 1, 0).unwrap().put(&item), Err(Error::BadText), "{name:?}");
    }
}

/// The error of the first item that can't be read, or else of the OPT record's options.
fn reading(octets: &[u8]) -> Result<(), Error> {
    let message = Message::new(octets)?;
    message.items().try_for_each(|item| item.map(drop))?;
    message.opt()?.map_or(Ok(()), |opt| opt.options().try_for_each(|option| option.map(drop)))
}

/// What `respond_a` says of a question after this header.
fn answering(header: &[u8], question: &[u8]) -> Result<(), Error> {
    respond_a(&[header, b"\0\0\0\0\0\0", question].concat(), false, 0, [0; 4]).map(drop)
}

/// A message of one question with these octets.
fn asking(question: &[u8]) -> Result<(), Error> {
    reading(&[&b"\0\0\0\0\0\x01\0\0\0\0\0\0"[..], question].concat())
}

fn putting(items: &[NewItem<'_>]) -> Result<(), Error> {
    let mut out = [0; 64];
    let mut builder = Builder::new(&mut out, 1, 0)?;
    items.iter().try_for_each(|item| builder.put(item))
}

#[test]
fn each_error_has_its_number() {
    let mut octets = WHOLE.to_vec();
    octets[122] = 3;
    let question = NewItem::question(".", Rtype::A, Class::IN);
    let answer = NewItem { section: Section::Answer, data: &[0; 4], ..question };
    let items: Vec<_> = Message::new(WHOLE).unwrap().items().map(Result::unwrap).collect();
    let cases = [
        (reading(&[0; 11]), Error::ShortInput, 2),
        (asking(b"\x40\0\0\x01\0\x01"), Error::BadLabel, 3),
        (asking(b"\xc0\x0c\0\x01\0\x01"), Error::BadPointer, 4),
        (asking(&[[63; 256].as_slice(), b"\0\0\x01\0\x01"].concat()), Error::LongName, 5),
        (putting(&[NewItem { data: &[0; 64], rtype: Rtype(65280), ..answer }]), Error::NoRoom, 7),
        (name_from_text("a..b").map(drop), Error::BadText, 8),
        (answering(b"\0\0\0\0\0\0", b""), Error::NoQuestion, 9),
        (putting(&[answer, question]), Error::BadSection, 10),
        (putting(&[NewItem { data: &[0; 65536], ..answer }]), Error::LongData, 12),
        (build(1, 0, &vec![question; 65536]).map(drop), Error::TooMany, 13),
        (answering(b"\0\0\x80\0\0\x01", b"\0\0\x01\0\x01"), Error::IsResponse, 14),
        (answering(b"\0\0\x08\0\0\x01", b"\0\0\x01\0\x01"), Error::OtherOpcode, 15),
        (answering(b"\0\0\0\0\0\x01", b"\0\0\x01\0\x03"), Error::OtherClass, 16),
        (answering(b"\0\0\0\0\0\x01", b"\0\0\x02\0\x01"), Error::OtherType, 17),
        (items[3].opt().map(drop), Error::NotOpt, 18),
        (reading(&octets), Error::BadOption, 19),
        (items[3].data_name(0).map(drop), Error::NoName, 20),
        (putting(&[NewItem { rtype: Rtype::MX, ..answer }]), Error::BadData, 21),
    ];
    for (result, error, number) in cases {
        assert_eq!((result, error.status()), (Err(error), number));
    }
    assert_eq!(Error::NoRoom.to_string(), "the output buffer is too short");
    assert_eq!((Error::NoMemory.status(), Error::Other(99).status()), (11, 99));
    assert!(Error::Other(99).to_string().ends_with("99"));
}

#[test]
fn a_name_may_be_of_each_kind() {
    for name in [NewName::from("a"), NewName::from(b"\x01a\0".as_slice()), NewName::from(&b"\x01a\0".to_vec())] {
        let item = NewItem::question(name, Rtype::A, Class::IN);
        assert_eq!(build(0, 0, &[item]).unwrap(), b"\0\0\0\0\0\x01\0\0\0\0\0\0\x01a\0\0\x01\0\x01");
    }
}
