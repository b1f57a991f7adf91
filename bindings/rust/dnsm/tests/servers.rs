//! What servers and forwarders use.
use dnsm::{
    age_ttls, build, data_from_text, first_message, library_version, missing_octets, name_from_text, query, record_from_text,
    Builder, Class, Error, Field, Item, Message, Name, NewItem, Opcode, OptionCode, Rcode, ReplyKind, Rtype, Section, Step,
    Transfer, QR, RD, TC,
};
use std::cmp::Ordering;
use std::collections::HashSet;

/// A response for example.org: a question, MX with a pointer in its RDATA, SRV, and MINFO with two pointers.
const RESPONSE: &[u8] = b"\x12\x34\x85\x80\0\x01\0\x03\0\0\0\0\x07example\x03org\0\0\x0f\0\x01\
    \xc0\x0c\0\x0f\0\x01\0\0\x0e\x10\0\x09\0\x0a\x04mail\xc0\x0c\
    \xc0\x0c\0\x21\0\x01\0\0\0\x07\0\x09\0\x01\0\x02\0\x03\x01x\0\
    \xc0\x0c\0\x0e\0\x01\0\0\0\x07\0\x06\x01a\xc0\x0c\xc0\x2b";

fn items(message: &[u8]) -> Vec<Item<'_>> {
    Message::new(message).unwrap().items().collect::<Result<_, _>>().unwrap()
}

#[test]
fn data_is_uncompressed() {
    let read = items(RESPONSE);
    let mail = name_from_text("mail.example.org").unwrap();
    assert_eq!(read[1].data_octets().unwrap(), [&[0, 10][..], &mail].concat());
    assert_eq!(read[3].data_octets().unwrap(), [&name_from_text("a.example.org").unwrap()[..], &mail].concat());
    assert_eq!(read[3].data_name(1).unwrap().to_string(), "mail.example.org.");
    assert_eq!(read[3].data_name(2).err(), Some(Error::NoName));
    assert_eq!((read[1].check_data(), read[0].check_data()), (Ok(()), Err(Error::BadSection)));
}

/// IPSECKEY has a gateway (RFC 4025), AMTRELAY a relay (RFC 8777), and HIP two servers (RFC 8005).
#[test]
fn names_are_read_from_fields_of_octets() {
    let octets = b"\0\0\x80\0\0\0\0\x03\0\0\0\0\
        \0\0\x2d\0\x01\0\0\0\0\0\x07\x0a\x03\x02\x01a\0\x01\
        \0\x01\x04\0\x01\0\0\0\0\0\x05\x0a\x03\x01b\0\
        \0\0\x37\0\x01\0\0\0\0\0\x0f\x02\x05\0\x03\x20\x01key\x01c\0\x01d\0";
    let read = items(octets);
    let names = [(0, 0), (1, 0), (2, 0), (2, 1)].map(|(item, index)| read[item].data_name(index).unwrap().to_string());
    assert_eq!(names, ["a.", "b.", "c.", "d."]);
    assert_eq!([(0, 1), (1, 1), (2, 2)].map(|(item, index)| read[item].data_name(index).err()), [Some(Error::NoName); 3]);
}

#[test]
fn fields_are_read() {
    let read = items(RESPONSE);
    let fields = read[2].fields().collect::<Result<Vec<_>, _>>().unwrap();
    assert!(
        matches!(fields[..], [Field::Number(1), Field::Number(2), Field::Number(3), Field::Name(name)] if name.to_string() == "x.")
    );
    assert_eq!(read[0].fields().next().unwrap().err(), Some(Error::BadSection));
}

/// RFC 1035 section 3.4.1, RFC 3596 section 2.2, RFC 8659 section 4.1, RFC 4034 section 3.1.
#[test]
fn fields_of_octets_are_read() {
    let (address, rrsig) = (*b"0123456789abcdef", [&b"\0\x0f"[..], &[0; 17], b"sig"].concat());
    let record = |rtype, data| NewItem::record(Section::Answer, ".", rtype, 0, data);
    let records = [
        record(Rtype::A, &address[..4]),
        record(Rtype::AAAA, &address),
        record(Rtype::CAA, b"\0\x05issuea"),
        record(Rtype::RRSIG, &rrsig),
    ];
    let octets = build(1, QR, &records).unwrap();
    let fields: Vec<Vec<_>> = items(&octets).iter().map(|it| it.fields().map(Result::unwrap).collect()).collect();
    assert!(matches!(fields[0][..], [Field::Address(it)] if it == &address[..4]));
    assert!(matches!(fields[1][..], [Field::Address(it)] if it == address));
    assert!(matches!(fields[2][..], [Field::Number(0), Field::Octets(b"issue"), Field::Octets(b"a")]));
    assert!(matches!(fields[3][..], [Field::Rtype(Rtype::MX), .., Field::Name(_), Field::Octets(b"sig")]));
}

#[test]
fn malformed_data_has_no_fields() {
    let octets = b"\0\0\x80\0\0\0\0\x01\0\0\0\0\0\0\x01\0\x01\0\0\0\x07\0\x03\x01\x02\x03";
    let read = items(octets);
    assert_eq!(read[0].check_data(), Err(Error::BadData));
    assert_eq!(read[0].data_octets(), Err(Error::BadData));
    assert_eq!(read[0].fields().map(|it| it.err()).collect::<Vec<_>>(), [Some(Error::BadData)]);
}

#[test]
fn names_are_compared() {
    let octets = query(1, true, "Mail.Example.ORG", Rtype::A, Class::IN).unwrap();
    let (asked, read) = (items(&octets)[0].name(), items(RESPONSE));
    assert!(asked == read[1].data_name(0).unwrap() && asked != read[0].name());
    assert!(asked.is_below(&read[0].name()) && !read[0].name().is_below(&asked));
    assert_eq!(asked.key(), b"org\0example\0mail\0");
    assert_eq!((asked.cmp(&read[0].name()), read[0].name().cmp(&asked)), (Ordering::Greater, Ordering::Less));
    assert_eq!(asked.cmp(&read[1].data_name(0).unwrap()), Ordering::Equal);
}

#[test]
fn names_are_read_from_octets() {
    let octets = b"\0\x03www\x07EXAMPLE\x03ORG\0\x01a\xc0\x05";
    let (name, other) = (Name::read(octets, 1).unwrap(), Name::read(octets, 18).unwrap());
    assert_eq!((name.to_string(), name.offset(), name.end()), ("www.EXAMPLE.ORG.".to_string(), 1, 18));
    assert_eq!((other.to_string(), other.offset(), other.end()), ("a.EXAMPLE.ORG.".to_string(), 18, 22));
    assert_eq!(other.to_octets(), b"\x01a\x07EXAMPLE\x03ORG\0");
    let owner = items(RESPONSE)[0].name();
    assert!(other.is_below(&owner) && other != owner && other < name && owner < other);
    assert_eq!(owner, Name::read(octets, 5).unwrap());
    let errors = [19, 22, usize::MAX].map(|offset| Name::read(octets, offset).err());
    assert_eq!(errors, [Some(Error::BadLabel), Some(Error::ShortInput), Some(Error::ShortInput)]);
}

/// The name of RFC 4034 section 6.1 with the octet 1 in a label, whose key has 1 2 for it.
#[test]
fn equal_names_have_equal_hashes() {
    let octets = query(1, true, "Mail.Example.ORG", Rtype::A, Class::IN).unwrap();
    let (asked, read) = (items(&octets)[0].name(), items(RESPONSE));
    let names: HashSet<_> = [asked, read[0].name(), read[1].data_name(0).unwrap()].into_iter().collect();
    assert_eq!(names.len(), 2);
    let seed = [7; 16];
    assert_eq!(asked.seeded_hash(&seed), read[1].data_name(0).unwrap().seeded_hash(&seed));
    assert_ne!(asked.seeded_hash(&seed), asked.seeded_hash(&[8; 16]));
    assert_ne!(asked.seeded_hash(&seed), read[0].name().seeded_hash(&seed));
    let octets = query(1, true, "\\001.z.Example", Rtype::A, Class::IN).unwrap();
    assert_eq!(items(&octets)[0].name().key(), b"example\0z\0\x01\x02\0");
}

#[test]
fn names_have_an_end() {
    let read = items(RESPONSE);
    assert_eq!((read[0].name().end(), read[1].name().end(), read[1].data_name(0).unwrap().end()), (25, 31, 48 + 2));
}

#[test]
fn octets_after_the_last_item_trail() {
    let octets = [RESPONSE, b"more"].concat();
    let message = Message::new(&octets).unwrap();
    assert_eq!((message.trailing(), Message::new(RESPONSE).unwrap().trailing()), (Ok(&b"more"[..]), Ok(&b""[..])));
    assert_eq!(Message::new(&RESPONSE[..RESPONSE.len() - 1]).unwrap().trailing(), Err(Error::ShortInput));
    let mut items = message.items();
    let offsets: Vec<_> = std::iter::from_fn(|| Some((items.offset(), items.next()?.unwrap().name().offset()))).collect();
    assert!(offsets.len() == 4 && offsets.iter().all(|(before, name)| before == name));
    assert_eq!(items.offset(), RESPONSE.len());
}

/// SRV isn't of RFC 1035, and MX is.
#[test]
fn data_may_be_unchecked() {
    let mut out = [0; 512];
    let mut builder = Builder::new(&mut out, 1, 0).unwrap();
    let record = |rtype| NewItem::record(Section::Answer, "a", rtype, 0, b"\0");
    assert_eq!(builder.put(&record(Rtype::SRV)), Err(Error::BadData));
    builder.set_unchecked(true);
    assert_eq!((builder.put(&record(Rtype::SRV)), builder.put(&record(Rtype::MX))), (Ok(()), Err(Error::BadData)));
    builder.set_unchecked(false);
    assert_eq!(builder.put(&record(Rtype::SRV)), Err(Error::BadData));
    builder.set_id(0x1234);
    assert_eq!(builder.finish().unwrap()[..8], *b"\x12\x34\0\0\0\0\0\x01");
}

#[test]
fn a_response_answers_its_query() {
    let response = Message::new(RESPONSE).unwrap();
    let asked = query(0x1234, true, "EXAMPLE.org", Rtype::MX, Class::IN).unwrap();
    assert_eq!(response.check_answers(&asked), Ok(()));
    assert_eq!(response.check_answers(&query(1, true, "example.org", Rtype::MX, Class::IN).unwrap()), Err(Error::OtherQuery));
    assert_eq!(Message::new(&asked).unwrap().check_answers(&asked), Err(Error::NoResponse));
}

#[test]
fn records_are_put_into_another_message() {
    let (mut out, asked) = ([0; 512], query(7, true, "example.org", Rtype::MX, Class::IN).unwrap());
    let mut builder = Builder::response(&mut out, &asked, 0).unwrap();
    for item in &items(RESPONSE)[1..] {
        builder.put_from(item, Section::Additional, 5).unwrap();
    }
    let made = builder.finish().unwrap();
    let read = items(made);
    assert_eq!(Message::new(made).unwrap().header().flags, 0x8100);
    for (copy, item) in read[1..].iter().zip(&items(RESPONSE)[1..]) {
        assert_eq!((copy.data_octets(), copy.ttl(), copy.section()), (item.data_octets(), 5, Section::Additional));
    }
    assert_eq!(Builder::response(&mut out, RESPONSE, 0).err(), Some(Error::IsResponse));
    assert_eq!(Builder::response(&mut out, &build(1, 0, &[]).unwrap(), 0).err(), Some(Error::NoQuestion));
    assert_eq!(Builder::response(&mut out, &asked, 5).unwrap().flags(), QR | RD | 5);
}

/// RFC 6891 sections 6.1.1, 6.1.3 and 6.2.3: the rcode, the payload size and the upper bits of the rcode.
#[test]
fn any_query_gets_a_response() {
    let opt = |size: u16, version| [&[0, 0, 41][..], &size.to_be_bytes(), &[0, version, 0x80, 0, 0, 0]].concat();
    let asked = query(7, true, "example.org", Rtype::MX, Class::IN).unwrap();
    for (opts, wanted, rcode, answered) in [
        (vec![], 0x1003, 3, None),
        (vec![opt(0, 0)], 5, 5, Some((512, 0))),
        (vec![opt(4096, 0)], 23, 23, Some((4096, 1))),
        (vec![opt(4096, 1)], 5, 16, Some((4096, 1))),
        (vec![opt(4096, 0), opt(512, 0)], 5, 1, Some((4096, 0))),
    ] {
        let mut octets = [&asked[..], &opts.concat()].concat();
        octets[11] = opts.len() as u8;
        let mut out = [0; 512];
        let (mut builder, said, opt) = Builder::respond(&mut out, &octets, wanted).unwrap();
        assert_eq!((said, builder.flags(), builder.len()), (rcode, QR | RD | rcode & 15, 29));
        assert_eq!(opt.map(|it| (it.udp_size(), it.dnssec_ok())), answered.map(|it| (it.0, true)));
        builder.set_limit(39);
        if let Some(opt) = opt {
            let record = opt.record(1232, &[]).unwrap();
            assert_eq!(builder.put(&record.item()), Err(Error::NoRoom));
            builder.set_limit(40);
            builder.set_reserved(0);
            builder.put(&record.item()).unwrap();
            let read = Message::new(builder.finish().unwrap()).unwrap().find_opt().unwrap().unwrap();
            assert_eq!((read.0.udp_size(), read.0.dnssec_ok(), read.1), (1232, true, rcode));
        }
    }
    let mut out = [0; 512];
    assert_eq!(Builder::respond(&mut out, &asked[..28], 5).map(|it| (it.1, it.0.len())), Ok((1, 12)));
    assert_eq!(Builder::respond(&mut out, RESPONSE, 0).err(), Some(Error::IsResponse));
}

/// RFC 2181 sections 5 and 9.
#[test]
fn sets_are_put_whole() {
    let mut out = [0; 512];
    let mut builder = Builder::new(&mut out, 7, QR).unwrap();
    let record = |data| NewItem::record(Section::Answer, "example.org", Rtype::A, 300, data);
    let set = [record(&[192, 0, 2, 1]), record(&[192, 0, 2, 2])];
    builder.set_limit(12 + 27 + 16 - 1);
    assert_eq!((builder.put_set(&set, false), builder.flags(), builder.len()), (Ok(false), QR, 12));
    assert_eq!((builder.put_set(&[record(&[1])], false), builder.flags()), (Err(Error::BadData), QR));
    assert_eq!((builder.put_set(&set, true), builder.flags(), builder.len()), (Ok(false), QR | TC, 12));
    assert_eq!(builder.put_set(&set[..1], false), Ok(false));
    builder.set_limit(12 + 27 + 16);
    builder.set_flags(QR);
    assert_eq!((builder.put_set(&set, true), builder.flags(), builder.len()), (Ok(true), QR, 55));
    let read = items(builder.finish().unwrap());
    assert_eq!(read.iter().map(|it| it.data_octets().unwrap()[3]).collect::<Vec<_>>(), [1, 2]);
}

#[test]
fn data_is_read_from_text() {
    let data = data_from_text(Rtype::MX, "10 mail.example.org.").unwrap();
    assert_eq!(data, items(RESPONSE)[1].data_octets().unwrap());
    assert!(build(1, 0, &[NewItem::record(Section::Answer, "example.org", Rtype::MX, 300, &data)]).is_ok());
    assert_eq!(data_from_text(Rtype::MX, "10"), Err(Error::BadText));
}

#[test]
fn records_are_read_from_text() {
    let record = record_from_text("a.org. 7 IN MX 10 b.org.").unwrap();
    assert_eq!((record.item().section(), record.item().to_string()), (Section::Answer, "a.org. 7 IN MX 10 b.org.".to_string()));
    let mut out = [0; 512];
    let mut builder = Builder::new(&mut out, 1, 0x8000).unwrap();
    builder.put_from(&record.item(), Section::Answer, 7).unwrap();
    assert_eq!(items(builder.finish().unwrap())[0].to_string(), record.item().to_string());
    assert_eq!(record_from_text("a.org. 7 IN MX 10").err(), Some(Error::BadText));
}

/// RFC 6891 section 9: rcode 16 is BADVERS.
#[test]
fn the_opt_record_is_found() {
    let opt = b"\0\0\x29\x04\xd0\x01\0\0\0\0\0";
    let message = |count: u8, records: &[&[u8]]| [&[0, 7, 0x80, 0, 0, 0, 0, 0, 0, 0, 0, count][..], &records.concat()].concat();
    let one = message(1, &[opt]);
    let (found, rcode) = Message::new(&one).unwrap().find_opt().unwrap().unwrap();
    assert_eq!((rcode, found.udp_size(), found.options().count()), (16, 1232, 0));
    assert!(Message::new(RESPONSE).unwrap().find_opt().unwrap().is_none());
    let wrong = [message(2, &[opt, opt]), message(1, &[b"\x01a", opt]), one[..one.len() - 1].to_vec()];
    let errors = wrong.map(|octets| Message::new(&octets).unwrap().find_opt().err());
    assert_eq!(errors, [Some(Error::TwoOpts), Some(Error::BadOwner), Some(Error::ShortInput)]);
}

#[test]
fn numbers_have_texts() {
    assert_eq!((Opcode::UPDATE.to_string(), Opcode(3).to_string()), ("Update".to_string(), "OPCODE3".to_string()));
    assert_eq!((Rcode::NXDOMAIN.to_string(), Rcode(4095).to_string()), ("NXDomain".to_string(), "RCODE4095".to_string()));
    assert_eq!((OptionCode(3).to_string(), OptionCode(4).to_string()), ("NSID".to_string(), "OPTION4".to_string()));
    assert_eq!(library_version().0, 2);
}

/// RFC 2308 sections 2.1, 2.2 and 5: the lesser of the SOA record's TTL and its MINIMUM, 600. RFC 6672 section 2.2.
#[test]
fn replies_say_one_thing() {
    let (zone, soa) = (name_from_text("example").unwrap(), [&b"\x02ns\0\x01h\0"[..], &[0; 18], &[2, 88]].concat());
    let asked = query(9, true, "a.example", Rtype::A, Class::IN).unwrap();
    let replied = |flags, section, owner, rtype, ttl, data: &[u8]| {
        let question = NewItem::question("a.example", Rtype::A, Class::IN);
        build(9, QR | flags, &[question, NewItem::record(section, owner, rtype, ttl, data)]).unwrap()
    };
    let said = |octets: &[u8]| {
        let reply = Message::new(octets).unwrap().reply_to(&asked, &zone).unwrap();
        let text = |name: Option<Name<'_>>| name.map_or(String::new(), |name| name.to_string());
        let names = [reply.name(), reply.owner(), reply.target()].map(text).join(" ");
        (reply.kind(), reply.ttl(), reply.rcode().0, names)
    };
    let (answer, authority, other) = (Section::Answer, Section::Authority, name_from_text("b.other").unwrap());
    let found = replied(0, answer, "a.example", Rtype::A, 300, &[192, 0, 2, 1]);
    assert_eq!(said(&found), (ReplyKind::Answer, 300, 0, "a.example.  ".to_string()));
    let none = replied(0, authority, "example", Rtype::SOA, 900, &soa);
    assert_eq!(said(&none), (ReplyKind::NoData, 600, 0, "a.example. example. ".to_string()));
    let none = replied(3, authority, "example", Rtype::SOA, 100, &soa);
    assert_eq!(said(&none), (ReplyKind::NoName, 100, 0, "a.example. example. ".to_string()));
    let redirected = replied(0, answer, "example", Rtype::DNAME, 50, &other);
    assert_eq!(said(&redirected), (ReplyKind::Dname, 50, 0, "a.example. example. b.other.".to_string()));
    let failed = replied(2, answer, "a.example", Rtype::A, 300, &[192, 0, 2, 1]);
    assert_eq!(said(&failed), (ReplyKind::Failed, 0, 2, "  ".to_string()));
    let alias = NewItem::record(answer, "a.example", Rtype::CNAME, 60, b"\x01b\x07example\0");
    let (question, start) =
        (NewItem::question("a.example", Rtype::A, Class::IN), NewItem::record(authority, "example", Rtype::SOA, 900, &soa));
    let aliased = build(9, QR, &[question, alias, start]).unwrap();
    assert_eq!(said(&aliased), (ReplyKind::NoData, 600, 0, "b.example. example. ".to_string()));
    let alias_ttl = |octets: &[u8]| Message::new(octets).unwrap().reply_to(&asked, &zone).unwrap().alias_ttl();
    assert_eq!((alias_ttl(&aliased), alias_ttl(&none)), (60, 0));
    assert_eq!(said(&found[..found.len() - 1]), (ReplyKind::Unreadable, 0, 0, "  ".to_string()));
    let refused = |received: &[u8], query: &[u8], zone: &[u8]| Message::new(received).unwrap().reply_to(query, zone).err();
    assert_eq!(refused(&found, &asked, b""), Some(Error::BadText));
    assert_eq!(refused(&asked, &asked, &zone), Some(Error::NoResponse));
    assert_eq!(refused(RESPONSE, &asked, &zone), Some(Error::OtherQuery));
    assert_eq!(refused(RESPONSE, &asked[..11], &zone), Some(Error::ShortInput));
}

#[test]
fn a_cache_asks_of_all_records() {
    let message = Message::new(RESPONSE).unwrap();
    assert_eq!((message.is_regular(), message.min_ttl(), message.records_end()), (true, Ok(Some(7)), Ok(RESPONSE.len())));
    let longer = [RESPONSE, b"x"].concat();
    assert_eq!(Message::new(&longer).unwrap().records_end(), Ok(RESPONSE.len()));
    let cut = Message::new(&RESPONSE[..RESPONSE.len() - 1]).unwrap();
    assert_eq!((cut.is_regular(), cut.min_ttl(), cut.records_end()), (false, Err(Error::ShortInput), Err(Error::ShortInput)));
    assert_eq!(Message::new(&build(1, 0, &[]).unwrap()).unwrap().min_ttl(), Ok(None));
}

#[test]
fn ttls_are_lowered() {
    let (mut octets, mut wanted) = (RESPONSE.to_vec(), RESPONSE.to_vec());
    wanted[35..39].copy_from_slice(&3000_u32.to_be_bytes());
    (wanted[59], wanted[80]) = (0, 0);
    assert_eq!((age_ttls(&mut octets, 600), &octets), (Ok(()), &wanted));
    assert_eq!(items(&octets).iter().map(Item::ttl).collect::<Vec<_>>(), [0, 3000, 0, 0]);
    let last = octets.len() - 1;
    assert_eq!((age_ttls(&mut octets[..last], 600), &octets), (Err(Error::ShortInput), &wanted));
    (octets[51], wanted[51]) = (35, 35);
    assert_eq!((age_ttls(&mut octets, 600), octets), (Err(Error::BadPointer), wanted));
    assert_eq!(age_ttls(&mut [], 600), Err(Error::ShortInput));
}

/// RFC 1035 section 4.2.2.
#[test]
fn streams_are_cut_into_messages() {
    let stream = [b"\0\x0c".as_slice(), &[7; 12], b"\0"].concat();
    assert_eq!((first_message(&stream), missing_octets(&stream)), (Ok(Some((&[7; 12][..], &[0][..]))), 0));
    assert_eq!((first_message(&stream[..13]), missing_octets(&stream[..13])), (Ok(None), 1));
    assert_eq!((first_message(&stream[14..]), missing_octets(&[])), (Ok(None), 2));
    assert_eq!(first_message(b"\0\x0b"), Err(Error::ShortInput));
}

/// A message of a transfer of the root: its question, if it has a type, and SOA records with these serials, or an NS record for 0.
fn transferred(id: u16, flags: u16, qtype: Option<Rtype>, serials: &[u32]) -> Vec<u8> {
    let data: Vec<_> = serials.iter().map(|serial| [&[0, 0][..], &serial.to_be_bytes(), &[0; 16]].concat()).collect();
    let question = qtype.map(|qtype| NewItem::question(".", qtype, Class::IN));
    let records = serials.iter().zip(&data).map(|(&serial, data)| match serial {
        0 => NewItem::record(Section::Answer, ".", Rtype::NS, 300, &[0]),
        _ => NewItem::record(Section::Answer, ".", Rtype::SOA, 0, data),
    });
    build(id, flags, &question.into_iter().chain(records).collect::<Vec<_>>()).unwrap()
}

/// The steps of a message, a letter for each, with serials, and the error that ends them.
fn steps(transfer: &mut Transfer, message: &[u8]) -> (String, Option<Error>) {
    let (mut said, mut error) = (String::new(), None);
    match transfer.take(message) {
        Ok(steps) => {
            for step in steps {
                said += &match step {
                    Ok(Step::Begin(serial, soa)) => format!("b{serial}{} ", soa.rtype()),
                    Ok(Step::UpToDate(serial)) => format!("u{serial} "),
                    Ok(Step::Whole) => "w ".to_string(),
                    Ok(Step::Remove(record)) => format!("-{} ", record.rtype()),
                    Ok(Step::Add(record)) => format!("+{} ", record.rtype()),
                    Ok(Step::End(serial)) => format!("e{serial} "),
                    Ok(_) => "? ".to_string(),
                    Err(found) => {
                        error = Some(found);
                        String::new()
                    }
                }
            }
        }
        Err(found) => error = Some(found),
    }
    (said, error)
}

/// RFC 5936 section 2.2, RFC 1995 sections 2 and 4.
#[test]
fn transfers_are_read() {
    let mut whole = Transfer::axfr(7, b"\0", Class::IN).unwrap();
    assert_eq!(steps(&mut whole, &transferred(7, QR, Some(Rtype::AXFR), &[3, 0])), ("b3SOA +NS ".to_string(), None));
    assert_eq!((whole.has_ended(), whole.end()), (false, Err(Error::Incomplete)));
    assert_eq!(steps(&mut whole, &transferred(7, QR, None, &[3])), ("e3 ".to_string(), None));
    assert_eq!((whole.has_ended(), whole.end()), (true, Ok(())));
    let changes = |serials: &[u32]| {
        let mut transfer = Transfer::ixfr(7, b"\0", Class::IN, 1).unwrap();
        let found = steps(&mut transfer, &transferred(7, QR, Some(Rtype::IXFR), serials));
        assert!(transfer.has_ended());
        found.0
    };
    assert_eq!(changes(&[3, 1, 0, 3, 0, 3]), "b3SOA -SOA -NS +SOA +NS e3 ");
    assert_eq!(changes(&[3, 0, 3]), "b3SOA w +NS e3 ");
    assert_eq!(changes(&[1]), "u1 ");
}

/// Steps that are left out end a transfer.
#[test]
fn all_steps_have_to_be_taken() {
    let message = transferred(7, QR, Some(Rtype::AXFR), &[3, 0, 3]);
    for (taken, outcome) in [(0, Err(Error::Incomplete)), (2, Err(Error::Incomplete)), (3, Ok(())), (4, Ok(()))] {
        let mut transfer = Transfer::axfr(7, b"\0", Class::IN).unwrap();
        assert_eq!(transfer.take(&message).unwrap().take(taken).count(), taken.min(3));
        assert_eq!(transfer.end(), outcome);
        assert_eq!(transfer.take(&message).err(), Some(if taken < 3 { Error::Incomplete } else { Error::AfterEnd }));
    }
}

#[test]
fn other_messages_end_a_transfer() {
    let axfr = Some(Rtype::AXFR);
    for (message, said, error) in [
        (transferred(8, QR, axfr, &[3]), "", Error::OtherQuery),
        (transferred(7, QR, Some(Rtype::IXFR), &[3]), "", Error::OtherQuery),
        (transferred(7, 0, axfr, &[3]), "", Error::NoResponse),
        (transferred(7, QR | 5, axfr, &[3]), "", Error::BadRcode),
        (transferred(7, QR | TC, axfr, &[3]), "", Error::Truncated),
        (transferred(7, QR, axfr, &[0]), "", Error::NoSoa),
        (transferred(7, QR, axfr, &[3, 0, 4]), "b3SOA +NS ", Error::WrongSoa),
        (transferred(7, QR, axfr, &[3, 3, 0]), "b3SOA e3 ", Error::AfterEnd),
        (vec![0; 11], "", Error::ShortInput),
    ] {
        let mut transfer = Transfer::axfr(7, b"\0", Class::IN).unwrap();
        assert_eq!(steps(&mut transfer, &message), (said.to_string(), Some(error)));
        assert_eq!(steps(&mut transfer, &transferred(7, QR, axfr, &[3, 3])), (String::new(), Some(error)));
        assert_eq!((transfer.has_ended(), transfer.end()), (false, Err(error)));
    }
    let mut other = Transfer::axfr(7, b"\0", Class::CH).unwrap();
    assert_eq!(steps(&mut other, &transferred(7, QR, axfr, &[3])).1, Some(Error::OtherQuery));
    assert_eq!(Transfer::axfr(7, b"\0\0", Class::IN).err(), Some(Error::BadText));
}
