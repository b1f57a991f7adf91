//! Messages whose octets and lengths are worked out by hand (RFC 1035 section 4.1, RFC 6891 section 6.1). RDATA of any octets is of
//! type 65280. `build` writes the shortest message that pointers can make, and `Builder` a pointer where it has seen the same name.
use dnsm::{
    build, name_from_text, Builder, Class, EdnsOption, Error, Message, NewItem, NewOpt, Opcode, Rcode, Rtype, Section, AA, AD,
    QR, RA, RD, TC,
};
use std::iter::once;

/// A response to example.com. IN A with the address 203.0.113.1.
const POSITIVE: &[u8] =
    b"\0\0\x81\xa0\0\x01\0\x01\0\0\0\0\x07example\x03com\0\0\x01\0\x01\xc0\x0c\0\x01\0\x01\0\0\x0e\x10\0\x04\xcb\0\x71\x01";
const POSITIVE_FLAGS: u16 = QR | RD | RA | AD;
/// A response to example. IN NS: NXDOMAIN, with the SOA record of the root.
const NEGATIVE: &[u8] = b"\0\0\x81\x83\0\x01\0\0\0\x01\0\0\x07example\0\0\x02\0\x01\0\0\x06\0\x01\0\x01\x51\x76\0\x40\
    \x01a\x0croot-servers\x03net\0\x05nstld\x0cverisign-grs\x03com\0\
    \x78\x68\x00\x25\0\0\x07\x08\0\0\x03\x84\0\x09\x3a\x80\0\x01\x51\x80";
const OPAQUE: Rtype = Rtype(65280);
const ZEROS: &[u8] = &[0; 65535];

fn question(name: &str) -> NewItem<'_> {
    NewItem::question(name, Rtype::A, Class::IN)
}

fn address(name: &str) -> NewItem<'_> {
    NewItem::record(Section::Answer, name, Rtype::A, 3600, &[203, 0, 113, 1])
}

/// A record with this number of zero octets as RDATA.
fn opaque(name: &str, octets: usize) -> NewItem<'_> {
    NewItem::record(Section::Answer, name, OPAQUE, 3600, &ZEROS[..octets])
}

/// A message of these counts and octets. All else of the header is zero.
fn counted(counts: [u16; 4], octets: &[u8]) -> Vec<u8> {
    [&[0; 4], &counts.map(u16::to_be_bytes).concat()[..], octets].concat()
}

/// The texts of the items of a message, and the error that ends them.
fn read(octets: &[u8]) -> (Vec<String>, Option<Error>) {
    let mut texts = Vec::new();
    for item in Message::new(octets).unwrap().items() {
        match item {
            Ok(item) => texts.push(item.to_string()),
            Err(error) => return (texts, Some(error)),
        }
    }
    (texts, None)
}

/// The lengths of a message that `build` writes, with one item, with two, and so on.
fn built(items: &[NewItem<'_>]) -> Vec<usize> {
    (1..=items.len()).map(|count| build(0, 0, &items[..count]).unwrap().len()).collect()
}

/// The same of a message that a builder writes.
fn put(items: &[NewItem<'_>]) -> Vec<usize> {
    let mut out = [0; 512];
    let mut builder = Builder::new(&mut out, 0, 0).unwrap();
    items.iter().map(|item| builder.put(item).map(|()| builder.len()).unwrap()).collect()
}

#[test]
fn texts_of_names_have_escapes() {
    let name = name_from_text("a\\.\\200b.").unwrap();
    assert_eq!(name, b"\x04\x61\x2e\xc8\x62\0");
    let octets = build(0, 0, &[NewItem::question(&name, Rtype::A, Class::IN)]).unwrap();
    assert_eq!(read(&octets), (vec!["a\\.\\200b. IN A".into()], None));
    for text in ["a..b", "a\\256", ""] {
        assert_eq!(name_from_text(text), Err(Error::BadText), "{text}");
    }
}

#[test]
fn headers_are_read() {
    let header = Message::new(b"\x01\x02\0\0\x12\x34\x56\x78\x9a\xbc\xde\xf0").unwrap().header();
    assert_eq!((header.id, header.flags, header.counts), (0x0102, 0, [0x1234, 0x5678, 0x9abc, 0xdef0]));
    let header = Message::new(b"\0\0\x78\0\0\0\0\0\0\0\0\0").unwrap().header();
    assert_eq!((header.opcode, header.rcode), (15, 0));
    assert_eq!(Message::new(&[0; 11]).err(), Some(Error::ShortInput));
    assert_eq!(read(&[0; 12]), (Vec::new(), None));
}

#[test]
fn malformed_items_end_the_iteration() {
    let cases: [([u16; 4], &[u8], Error); 14] = [
        ([1, 0, 0, 0], b"\xc0\x0c\0\x01\0\x01", Error::BadPointer),
        ([1, 0, 0, 0], b"\x01a\xc0\x0e\0\x01\0\x01", Error::BadPointer),
        // Each pointer leads back, and the labels never end.
        ([1, 0, 0, 0], b"\x01a\xc0\x0c\0\x01\0\x01", Error::LongName),
        ([1, 0, 0, 0], b"", Error::ShortInput),
        ([0, 1, 0, 0], b"", Error::ShortInput),
        ([0, 0, 0, 1], b"", Error::ShortInput),
        ([65535, 0, 0, 0], b"", Error::ShortInput),
        ([0, 1, 0, 0], b"\xc0\x0c\0\x01\0\x01\0\0\0\0\0\0", Error::BadPointer),
        ([0, 0, 0, 1], b"\xc0\x0c\0\x01\0\x01\0\0\0\0\0\0", Error::BadPointer),
        ([1, 0, 0, 0], b"\x40\0\0\x01\0\x01", Error::BadLabel),
        ([1, 0, 0, 0], b"\x80\0\0\x01\0\x01", Error::BadLabel),
        ([0, 1, 0, 0], b"\0\0\x01\0\x01\0\0\0\0\0\x05\x01\x02\x03\x04", Error::ShortInput),
        ([2, 0, 0, 0], b"\0\0\x01\0", Error::ShortInput),
        ([0, 1, 1, 0], b"\0\0\x01\0\x01\0\0\0\0\0", Error::ShortInput),
    ];
    for (counts, octets, error) in cases {
        assert_eq!(read(&counted(counts, octets)), (Vec::new(), Some(error)), "{octets:?}");
    }
}

/// Octet 4 is zero.
#[test]
fn a_pointer_may_lead_into_the_header() {
    assert_eq!(read(&counted([1, 0, 0, 0], b"\xc0\x04\0\x01\0\x01")), (vec![". IN A".into()], None));
}

#[test]
fn a_name_has_at_most_255_octets() {
    for (last, error) in [(61, None), (62, Some(Error::LongName))] {
        let labels = [63, 63, 63, last].map(|size| once(size).chain((0..size).map(|_| b'a')).collect::<Vec<_>>()).concat();
        let (items, found) = read(&counted([1, 0, 0, 0], &[&labels, &b"\0\0\x01\0\x01"[..]].concat()));
        assert_eq!((items.len(), found), (usize::from(error.is_none()), error));
    }
}

#[test]
fn malformed_data_is_octets() {
    let long = b"\0\0\x01\0\x01\0\0\0\0\0\x05\x01\x02\x03\x04\x05";
    let chaos = b"\0\0\x01\0\x03\0\0\0\0\0\x05\x01\x02\x03\x04\x05";
    let past_its_end = b"\0\0\x05\0\x01\0\0\0\0\0\x01\xc0\x0c";
    let texts = [". 0 IN A \\# 5 0102030405", ". 0 CH A \\# 5 0102030405", ". 0 IN CNAME \\# 1 c0"];
    for (record, text) in [&long[..], chaos, past_its_end].into_iter().zip(texts) {
        let octets = counted([0, 1, 0, 0], record);
        assert_eq!(read(&octets), (vec![text.into()], None));
        let item = Message::new(&octets).unwrap().items().next().unwrap().unwrap();
        assert_eq!((item.check_data(), item.data_octets()), (Err(Error::BadData), Err(Error::BadData)));
    }
}

#[test]
fn a_message_that_is_cut_off_is_read_up_to_there() {
    let texts = ["example.com. IN A", "example.com. 3600 IN A 203.0.113.1"].map(String::from);
    for len in 0..12 {
        assert_eq!(Message::new(&POSITIVE[..len]).err(), Some(Error::ShortInput));
    }
    for len in 12..45 {
        let before = usize::from(len >= 29);
        assert_eq!(read(&POSITIVE[..len]), (texts[..before].to_vec(), Some(Error::ShortInput)), "{len} octets");
    }
    assert_eq!(read(POSITIVE), (texts.to_vec(), None));
}

#[test]
fn a_question_that_is_missing_is_told() {
    let octets = counted([2, 0, 0, 0], &POSITIVE[12..29]);
    assert_eq!(Message::new(&octets).unwrap().header().counts, [2, 0, 0, 0]);
    assert_eq!(read(&octets), (vec!["example.com. IN A".into()], Some(Error::ShortInput)));
}

#[test]
fn a_response_repeats_what_was_asked() {
    let broken = counted([1, 0, 0, 0], b"\xc0\x0c\0\x01\0\x01");
    let response = [&[0, 0, 0x80], &broken[3..]].concat();
    assert_eq!(Message::new(&response).unwrap().check_answers(&broken), Err(Error::OtherQuery));
    let mut out = [0; 512];
    let asked = build(0x1234, RD, &[question("example.com")]).unwrap();
    let refused = Builder::response(&mut out, &asked, Rcode(5).0).unwrap().finish().unwrap();
    assert_eq!((refused.len(), &refused[..6]), (29, &b"\x12\x34\x81\x05\0\x01"[..]));
    for questions in [counted([0; 4], b""), counted([2, 0, 0, 0], b"\0\0\x01\0\x01\0\0\x01\0\x01")] {
        assert_eq!(Builder::response(&mut out, &questions, 0).err(), Some(Error::NoQuestion));
    }
}

/// RFC 6891 section 6.1.3: an extended rcode of 16 has 1 in the OPT record and 0 in the header.
#[test]
fn an_opt_record_has_the_upper_bits_of_the_rcode() {
    let octets = counted([0, 0, 0, 1], b"\0\0\x29\x10\0\x01\0\0\0\0\0");
    let (opt, rcode) = Message::new(&octets).unwrap().find_opt().unwrap().unwrap();
    assert_eq!((opt.udp_size(), rcode), (4096, 16));
    let octets = counted([0, 0, 0, 1], b"\0\0\x29\x10\0\x01\0\0\0\0\x01\0");
    let (opt, _) = Message::new(&octets).unwrap().find_opt().unwrap().unwrap();
    assert_eq!(opt.options().map(Result::err).collect::<Vec<_>>(), [Some(Error::BadOption)]);
}

#[test]
fn an_opt_record_with_an_option_has_34_octets() {
    let opt = NewOpt::new(4096, false, 0, &[EdnsOption { code: 3, data: b"example" }]).unwrap();
    let octets = build(0, 0, &[opt.item()]).unwrap();
    assert_eq!((octets.len(), opt.octets()), (34, 22));
    assert_eq!(&octets[12..], b"\0\0\x29\x10\0\0\0\0\0\0\x0b\0\x03\0\x07example");
}

/// NSID, two algorithms of DAU, EXPIRE, and a timeout of 300 tenths of a second (RFCs 5001, 6975, 7314 and 7828).
#[test]
fn an_opt_record_with_four_options_has_43_octets() {
    let options: [(u16, &[u8]); 4] = [(3, b""), (5, &[8, 13]), (9, b""), (11, &[1, 44])];
    let opt = NewOpt::new(1232, false, 0, &options.map(|(code, data)| EdnsOption { code, data })).unwrap();
    let octets = build(0, 0, &[opt.item()]).unwrap();
    let wanted = b"\0\x03\0\0\0\x05\0\x02\x08\x0d\0\x09\0\0\0\x0b\0\x02\x01\x2c";
    assert_eq!((octets.len(), &octets[23..]), (43, &wanted[..]));
}

#[test]
fn an_opt_record_has_at_most_65535_octets_of_options() {
    let long = EdnsOption { code: 1, data: &ZEROS[..65531] };
    let opt = NewOpt::new(1232, false, 0, &[long]).unwrap();
    assert_eq!(build(0, 0, &[opt.item()]).unwrap().len(), 65558);
    let more = NewOpt::new(1232, false, 0, &[long, EdnsOption { code: 1, data: b"" }]).unwrap();
    assert_eq!(build(0, 0, &[more.item()]), Err(Error::LongData));
}

/// Rcode 19, which is BADMODE, with DO: 3 in the header, and 1 in the record.
#[test]
fn an_opt_record_may_fill_the_message() {
    let opt = NewOpt::new(1232, true, 1, &[]).unwrap();
    for (limit, put) in [(23, Ok(())), (22, Err(Error::NoRoom))] {
        let mut out = [0; 512];
        let mut builder = Builder::new(&mut out, 0, 3).unwrap();
        builder.set_limit(limit);
        assert_eq!(builder.put(&opt.item()), put);
        let wanted = counted([0, 0, 0, 1], b"\0\0\x29\x04\xd0\x01\0\x80\0\0\0");
        let octets = builder.finish().unwrap();
        match put {
            Ok(()) => assert_eq!((&octets[..4], &octets[4..]), (&[0, 0, 0, 3][..], &wanted[4..])),
            Err(_) => assert_eq!(octets, b"\0\0\0\x03\0\0\0\0\0\0\0\0"),
        }
    }
}

#[test]
fn headers_are_written() {
    let flags = QR | AA | u16::from(Opcode::NOTIFY.0) << 11 | Rcode::NXDOMAIN.0;
    assert_eq!(build(4660, flags, &[]).unwrap(), b"\x12\x34\xa4\x03\0\0\0\0\0\0\0\0");
    assert_eq!(build(0, 0, &[question(".")]).unwrap(), counted([1, 0, 0, 0], b"\0\0\x01\0\x01"));
    assert_eq!(build(0, 0, &[question("example.com.")]).unwrap(), counted([1, 0, 0, 0], &POSITIVE[12..29]));
    let answer = counted([0, 1, 0, 0], &[&POSITIVE[12..25], &POSITIVE[31..]].concat());
    assert_eq!((answer.len(), build(0, 0, &[address("example.com.")]).unwrap()), (39, answer));
}

#[test]
fn a_positive_response_is_written() {
    let items = [question("example.com."), address("example.com.")];
    assert_eq!(build(0, POSITIVE_FLAGS, &items).unwrap(), POSITIVE);
    for room in 0..12 {
        assert_eq!(Builder::new(&mut vec![0; room], 0, 0).err(), Some(Error::NoRoom));
    }
    for room in 12..=45 {
        let mut out = vec![0; room];
        let mut builder = Builder::new(&mut out, 0, POSITIVE_FLAGS).unwrap();
        let found = (builder.put(&items[0]), builder.put(&items[1]), builder.len());
        let short = Err(Error::NoRoom);
        let wanted = match room {
            12..=28 => (short, short, 12),
            29..=44 => (Ok(()), short, 29),
            _ => (Ok(()), Ok(()), 45),
        };
        assert_eq!(found, wanted, "{room} octets");
        if room == 45 {
            assert_eq!(builder.finish().unwrap(), POSITIVE);
        }
    }
}

#[test]
fn a_negative_response_is_written() {
    let names = ["a.root-servers.net", "nstld.verisign-grs.com"].map(|text| name_from_text(text).unwrap());
    let numbers = [2020081701u32, 1800, 900, 604800, 86400].map(u32::to_be_bytes).concat();
    let data = [&names[0][..], &names[1], &numbers].concat();
    let soa = NewItem::record(Section::Authority, ".", Rtype::SOA, 86390, &data);
    let items = [NewItem::question("example.", Rtype::NS, Class::IN), soa];
    let flags = QR | RD | RA | Rcode::NXDOMAIN.0;
    let mut out = [0; 512];
    let mut builder = Builder::new(&mut out, 0, flags).unwrap();
    items.iter().for_each(|item| builder.put(item).unwrap());
    assert_eq!((NEGATIVE.len(), build(0, flags, &items).unwrap().as_slice()), (100, NEGATIVE));
    assert_eq!(builder.finish().unwrap(), NEGATIVE);
}

#[test]
fn a_name_in_data_is_compressed() {
    let target = name_from_text("ns.example.com").unwrap();
    let record = NewItem::record(Section::Answer, "example.com", Rtype::NS, 60, &target);
    let items = [NewItem::question("example.com", Rtype::NS, Class::IN), record];
    assert_eq!((built(&items), put(&items)), (vec![29, 46], vec![29, 46]));
    assert!(build(0, 0, &items).unwrap().ends_with(b"\xc0\x0c\0\x02\0\x01\0\0\0\x3c\0\x05\x02ns\xc0\x0c"));
}

#[test]
fn suffixes_are_compressed() {
    let items = ["a.b.c.", "b.c.", "x.b.c.", "c."].map(question);
    assert_eq!((built(&items), put(&items)), (vec![23, 29, 37, 43], vec![23, 29, 37, 43]));
}

/// A pointer leads to labels in the same case only, so that names are read as they were written.
#[test]
fn the_case_of_letters_is_kept() {
    for (asked, len, owner) in [("Example.COM", 56, &b"\x07example\x03com\0"[..]), ("Example.com", 53, b"\x07example\xc0\x14")] {
        let items = [question(asked), address("example.com")];
        let octets = build(0, 0, &items).unwrap();
        assert_eq!((octets.len(), &octets[29..][..owner.len()], put(&items)[1]), (len, owner, len));
        assert_eq!(Message::new(&octets).unwrap().items().last().unwrap().unwrap().name().to_string(), "example.com.");
    }
}

#[test]
fn the_25th_suffix_is_found() {
    let names: Vec<String> = ('a'..='y').map(String::from).chain(once("y".into())).collect();
    let items: Vec<_> = names.iter().map(|name| question(name)).collect();
    assert_eq!(built(&items)[23..], [180, 187, 193]);
    assert!(build(0, 0, &items).unwrap().ends_with(b"\xc0\xb4\0\x01\0\x01"));
}

/// A pointer has 14 bits (RFC 1035 section 4.1.4).
#[test]
fn pointers_lead_to_offsets_below_16384() {
    let cases: [(&[NewItem<'_>], &[usize], &[u8]); 5] = [
        (&[opaque(".", 16359), address("a.b."), address("a.b.")], &[16382, 16401, 16417], b"\xff\xfe"),
        (&[question("c."), opaque(".", 16354), address("a.b.c.")], &[19, 16384, 16405], b"\x01a\x01b\x01c\0"),
        (&[opaque(".", 16360), address("a."), address("a.")], &[16383, 16400, 16416], b"\xff\xff"),
        (&[opaque(".", 16361), address("a."), address("a.")], &[16384, 16401, 16418], b"\x01a\0"),
        (
            &[opaque("pad.example.com.", 16400), address("a.b.c."), address("a.b.c.")],
            &[16439, 16460, 16481],
            b"\x01a\x01b\x01c\0",
        ),
    ];
    for (items, lengths, owner) in cases {
        let octets = build(0, 0, items).unwrap();
        assert_eq!(built(items), lengths);
        assert_eq!(&octets[octets.len() - 14 - owner.len()..][..owner.len()], owner);
        assert_eq!(read(&octets), read(&put_long(items)));
    }
}

/// The message that a builder with much room writes.
fn put_long(items: &[NewItem<'_>]) -> Vec<u8> {
    let mut out = vec![0; 65535];
    let mut builder = Builder::new(&mut out, 0, 0).unwrap();
    items.iter().for_each(|item| builder.put(item).unwrap());
    builder.finish().unwrap().to_vec()
}

#[test]
fn a_limit_is_inclusive() {
    let mut out = [0; 512];
    let mut builder = Builder::new(&mut out, 0, 0).unwrap();
    for (limit, put, len) in [(16, Err(Error::NoRoom), 12), (17, Ok(()), 17)] {
        builder.set_limit(limit);
        assert_eq!((builder.put(&question(".")), builder.len()), (put, len));
    }
    let mut builder = Builder::new(&mut out, 0, 0).unwrap();
    builder.set_limit(18);
    assert_eq!((builder.put(&question(".")), builder.len()), (Ok(()), 17));
}

#[test]
fn a_buffer_is_filled_to_its_end() {
    let mut out = [0; 512];
    for limit in [usize::MAX, 512] {
        let mut builder = Builder::new(&mut out, 0, 0).unwrap();
        builder.set_limit(limit);
        let puts: Vec<_> = (0..101).map(|_| (builder.put(&question(".")), builder.len())).collect();
        assert_eq!(puts[98..], [(Ok(()), 507), (Ok(()), 512), (Err(Error::NoRoom), 512)]);
        assert_eq!(builder.finish().unwrap()[4..6], [0, 100]);
    }
}

#[test]
fn a_question_section_has_at_most_65535_questions() {
    let mut out = vec![0; 400_000];
    let mut builder = Builder::new(&mut out, 0, 0).unwrap();
    for _ in 0..65535 {
        builder.put(&question(".")).unwrap();
    }
    for limit in [327_687, 327_692, usize::MAX] {
        builder.set_limit(limit);
        assert_eq!((builder.put(&question(".")), builder.len()), (Err(Error::TooMany), 327_687));
    }
    assert_eq!(&builder.finish().unwrap()[..12], b"\0\0\0\0\xff\xff\0\0\0\0\0\0");
    assert_eq!(build(0, 0, &vec![question("."); 65535]).unwrap().len(), 327_687);
}

#[test]
fn a_rewind_forgets_names() {
    let mut out = [0; 512];
    let mut builder = Builder::new(&mut out, 0, 0).unwrap();
    let (mark, record) = (builder.mark(), address("example.com."));
    let mut lengths = Vec::new();
    for rewinds in [false, true, false] {
        if rewinds {
            builder.rewind(&mark);
            lengths.push(builder.len());
        }
        builder.put(&record).unwrap();
        lengths.push(builder.len());
    }
    assert_eq!(lengths, [39, 12, 39, 55]);
    let octets = builder.finish().unwrap();
    assert_eq!((&octets[12..25], &octets[39..41]), (&POSITIVE[12..25], &b"\xc0\x0c"[..]));
}

/// The name after the rewind begins where the longer one did, at the last offset that a pointer has.
#[test]
fn a_rewind_leaves_the_last_offset_free() {
    let record = |name| NewItem::record(Section::Authority, name, Rtype::A, 3600, &[203, 0, 113, 1]);
    let mut out = vec![0; 17000];
    let mut builder = Builder::new(&mut out, 0, 0).unwrap();
    builder.put(&opaque(".", 16359)).unwrap();
    let mark = builder.mark();
    let mut lengths = vec![builder.len()];
    builder.put(&record("a.b.")).unwrap();
    lengths.push(builder.len());
    builder.rewind(&mark);
    lengths.push(builder.len());
    for _ in 0..2 {
        builder.put(&record("a.")).unwrap();
        lengths.push(builder.len());
    }
    assert_eq!(lengths, [16382, 16401, 16382, 16399, 16415]);
    assert_eq!(builder.finish().unwrap()[16399..16401], *b"\xff\xfe");
}

/// A mark for each section leads back to its beginning. TXT without octets is put without a check.
#[test]
fn marks_lead_back_to_each_section() {
    let target = name_from_text("ns.example.com.").unwrap();
    let mut out = [0; 512];
    let mut builder = Builder::new(&mut out, 0, 0).unwrap();
    let mut lengths = vec![builder.len()];
    let mut marks = Vec::new();
    let authority = NewItem::record(Section::Authority, ".", Rtype::NS, 60, &target);
    for item in [question("example.com."), address("example.com."), authority] {
        marks.push(builder.mark());
        builder.put(&item).unwrap();
        lengths.push(builder.len());
    }
    builder.rewind(&marks[2]);
    lengths.push(builder.len());
    builder.set_unchecked(true);
    builder.put(&NewItem::record(Section::Additional, ".", Rtype::TXT, 0, b"")).unwrap();
    lengths.push(builder.len());
    for mark in marks.iter().rev() {
        builder.rewind(mark);
        builder.set_flags(TC);
        lengths.push(builder.len());
    }
    assert_eq!(lengths, [12, 29, 45, 61, 45, 56, 45, 29, 12]);
    assert_eq!(builder.finish().unwrap(), b"\0\0\x02\0\0\0\0\0\0\0\0\0");
}

#[test]
fn a_refused_record_forgets_only_itself() {
    let mut out = [0; 60];
    let mut builder = Builder::new(&mut out, 0, 0).unwrap();
    let puts: [(NewItem<'_>, Result<(), Error>, usize); 4] = [
        (question("example.com"), Ok(()), 29),
        (opaque("www.example.com.", 30), Err(Error::NoRoom), 29),
        (opaque(".", 0), Ok(()), 40),
        (opaque("www.example.com.", 0), Ok(()), 56),
    ];
    for (item, put, len) in puts {
        assert_eq!((builder.put(&item), builder.len()), (put, len));
    }
    assert_eq!(&builder.finish().unwrap()[40..46], b"\x03www\xc0\x0c");
}

#[test]
fn two_thousand_questions_are_written_again_after_a_rewind() {
    let names: Vec<String> = (0..2000).map(|number| format!("h{number}.example.com.")).collect();
    let mut out = vec![0; 65535];
    let mut builder = Builder::new(&mut out, 0, 0).unwrap();
    let mark = builder.mark();
    names.iter().for_each(|name| builder.put(&question(name)).unwrap());
    let len = builder.len();
    builder.rewind(&mark);
    names.iter().for_each(|name| builder.put(&question(name)).unwrap());
    assert_eq!(builder.len(), len);
    let again = builder.finish().unwrap();
    let items: Vec<_> = names.iter().map(|name| question(name)).collect();
    assert_eq!(again, put_long(&items));
    assert!(read(again).0.iter().zip(&names).all(|(text, name)| *text == format!("{name} IN A")));
}
