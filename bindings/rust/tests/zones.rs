//! Each call, each error, threads and memory, over a small source.

use sefunjaro::{
    Change, Choice, Clock, Error, EverCause, FileCause, Gap, Instant, JoinCause, LineCause, LocalTime, PlainCause, ScheduleCause, Source,
    TailCause, TzifCause, Zone,
};
use std::time::{Duration, SystemTime, UNIX_EPOCH};
use std::{fs, thread};

const SOURCE: &str = concat!(
    "Rule Mid 1900 only - Jan 1 0:00 0 -\n",
    "Rule Mid 1981 max - Mar lastSun 1:00u 1:00 S\n",
    "Rule Mid 1996 max - Oct lastSun 1:00u 0 -\n",
    "Zone Here/Middle 1:00 Mid CE%sT\n",
    "Zone Here/Far 25:00 - FAR\n",
    "Zone Here/Long 1:00 - AbbreviationOfTwentySix\n",
    "Zone Here/Twice 0:00 - A 2000 Jan 1 2:00\n",
    "  -1:00 - B 2000 Jan 1 1:30\n",
    "  -2:00 - C\n",
    "Link Here/Middle There/Middle\n",
);
/// 2024-03-31 and 2024-10-27, 01:00 UTC.
const SPRING: i64 = 1711846800;
const AUTUMN: i64 = 1729990800;

/// A file that `zic -b slim` wrote of the rules of Europe from 1996 on, after local mean time, and the string at its end.
const FILE: &[u8] = b"\
TZif2\0\0\0\0\0\0\0\0\0\0\0\0\0\0\0\0\0\0\0\0\0\0\0\0\0\0\0\0\0\0\0\0\0\0\x01\0\0\0\x01\0\0\0\0\0\0\
\0TZif2\0\0\0\0\0\0\0\0\0\0\0\0\0\0\0\0\0\0\0\0\0\0\0\0\0\0\0\0\0\0\x02\0\0\0\x03\0\0\0\x0d\xff\xff\
\xff\xff\x91`PO\0\0\0\01]\xd9\x10\x02\x01\0\0\x021\0\0\0\0\x1c \x01\x04\0\0\x0e\x10\0\x09LMT\0CEST\0\
CET\0\nCET-1CEST,M3.5.0,M10.5.0/3\n";
const STRING: &str = "CET-1CEST,M3.5.0,M10.5.0/3";

fn zone(name: &str) -> Zone {
    Source::open(SOURCE.as_bytes()).unwrap().zone(name).unwrap()
}

fn local(text: &str) -> Clock {
    text.parse().unwrap()
}

#[test]
fn names() {
    let source = Source::open(SOURCE.as_bytes()).unwrap();
    let names = source.names().unwrap();
    assert_eq!(names.len(), 5);
    assert_eq!(names.collect::<Vec<_>>(), ["Here/Far", "Here/Long", "Here/Middle", "Here/Twice", "There/Middle"]);
    assert_eq!(Source::open(b"").unwrap().names().unwrap().count(), 0);
    let long = "A".repeat(1000);
    let source = Source::open(format!("Zone {long} 1:00 - A\n").as_bytes()).unwrap();
    assert_eq!(source.names().unwrap().collect::<Vec<_>>(), [long.as_str()]);
    let mut found = Vec::new();
    let source = Source::open(format!("Zone {long} 1:00 - A\nLink {long} B\nLink {long} A/C\n").as_bytes()).unwrap();
    source.each_name(|name| found.push(name.to_owned())).unwrap();
    assert_eq!(found, ["A/C", long.as_str(), "B"]);
    Source::open(b"").unwrap().each_name(|name| panic!("{name}")).unwrap();
    assert_eq!(zone("There/Middle").name(), Some("There/Middle"));
    assert_eq!((Zone::from_posix(STRING).unwrap().name(), Zone::from_tzif(FILE).unwrap().name()), (None, None));
}

/// One instant of a local time, or why there is none.
#[test]
fn choices() {
    let seconds = |zone: &Zone, text: &str| {
        [Choice::Earlier, Choice::Later, Choice::Only].map(|choice| zone.instant(&local(text), choice).map(|instant| instant.second))
    };
    let middle = zone("Here/Middle");
    assert_eq!(seconds(&middle, "2024-07-01 12:00:00.000000000"), [Ok(1719828000); 3]);
    let (first, last) = (AUTUMN - 1800, AUTUMN + 1800);
    assert_eq!(seconds(&middle, "2024-10-27 02:30:00.000000000"), [Ok(first), Ok(last), Err(Error::Repeated { first, last })]);
    let skipped = Error::Skipped { gap: Gap { second: SPRING, before: 3600, after: 7200 } };
    assert_eq!(seconds(&middle, "2024-03-31 02:30:00.000000000"), [Err(skipped); 3]);
    assert_eq!(skipped.to_string(), "clocks skip the local time: from 3600 to 7200 at 1711846800");
    let thrice = seconds(&zone("Here/Twice"), "2000-01-01 01:15:00.000000000");
    let [Ok(first), Ok(last), Err(refused)] = thrice else { panic!("{thrice:?}") };
    assert_eq!((last - first, refused), (7200, Error::Repeated { first, last }));
    let instant = middle.instant(&local("2024-07-01 12:00:00.000000007"), Choice::Only).unwrap();
    assert_eq!((instant.nanosecond, instant.offset), (7, 7200));
    assert_eq!(middle.instant(&Clock { month: 13, ..local("2024-07-01 12:00:00.000000000") }, Choice::Later), Err(Error::OutOfRange));
}

/// What is written is what the library writes, and what is read again; all over the years, at each offset.
#[test]
fn texts() {
    let names = ["-25:59:59", "-12", "-0:00:01", "0", "5:45", "25:59:59"];
    let text: String = names.iter().enumerate().map(|(place, offset)| format!("Zone Z{place} {offset} - Z\n")).collect();
    let source = Source::open(text.as_bytes()).unwrap();
    let (least, most) = (-377_705_116_800, 253_402_300_799_i64);
    for place in 0..names.len() {
        let zone = source.zone(&format!("Z{place}")).unwrap();
        let edges = [least, least + 1, most, most - 1].map(|second| second - i64::from(zone.offset_at(0, 0).unwrap()));
        let days = (least + 100_000..most - 100_000).step_by(86_400 * 97 + 12_345);
        for (turn, second) in edges.into_iter().chain(days).enumerate() {
            let nanosecond = turn as u32 * 7919 % 1_000_000_000;
            let (clock, offset) = zone.clock_at(second, nanosecond).unwrap();
            let instant = Instant { second, nanosecond, offset };
            let text = zone.text_at(second, nanosecond).unwrap();
            assert_eq!((instant.to_string(), text.parse()), (text.clone(), Ok(instant)));
            assert_eq!((clock.to_string().as_str(), clock.to_string().parse()), (&text[..text.len() - 10], Ok(clock)));
        }
    }
    let far = Instant { second: i64::MAX, nanosecond: 999_999_999, offset: 93_599 };
    assert_eq!(far.to_string(), "292277026596-12-05 17:30:06.999999999 +25:59:59");
    let far = Instant { second: i64::MIN, nanosecond: 0, offset: i32::MIN };
    assert!(far.to_string().starts_with("-292277022"));
}

#[test]
fn system_times() {
    let far = [(-62_135_596_800, 500_000_000), (i64::MAX, 999_999_999), (i64::MIN, 0)];
    let rows = [(0, 0), (0, 1), (-1, 999_999_999), (-1, 0), (1711846800, 5)].into_iter().chain(far);
    for (second, nanosecond) in rows {
        let instant = Instant { second, nanosecond, offset: 0 };
        let time = SystemTime::try_from(instant).unwrap();
        assert_eq!((Instant::try_from(time), SystemTime::try_from(Instant { offset: 3600, ..instant })), (Ok(instant), Ok(time)));
    }
    assert_eq!(SystemTime::try_from(Instant { second: 0, nanosecond: 1_000_000_000, offset: 0 }), Err(Error::OutOfRange));
    let zone = zone("Here/Middle");
    let spring = UNIX_EPOCH + Duration::new(SPRING as u64, 0);
    assert_eq!(zone.instant_at(spring), Ok(Instant { second: SPRING, nanosecond: 0, offset: 7200 }));
    let before = Instant { second: SPRING - 1, nanosecond: 999_999_999, offset: 3600 };
    assert_eq!(zone.instant_at(spring - Duration::from_nanos(1)), Ok(before));
    let far = SystemTime::try_from(Instant { second: i64::MAX, nanosecond: 0, offset: 0 }).unwrap();
    assert_eq!(zone.instant_at(far), Err(Error::OutOfRange));
}

/// Each public call has an example, and every value may go to another thread.
#[test]
fn public() {
    fn goes<T: Send + Sync>() {}
    goes::<(Source, Zone, Error, sefunjaro::NamedError, LocalTime, sefunjaro::Names<'_>, sefunjaro::Changes<'_>)>();
    let folder = concat!(env!("CARGO_MANIFEST_DIR"), "/src");
    for entry in fs::read_dir(folder).unwrap() {
        let path = entry.unwrap().path();
        let text = fs::read_to_string(&path).unwrap();
        for (place, _) in text.match_indices("pub fn ").filter(|_| !path.ends_with("raw.rs")) {
            let above = text[..place].rsplit("\n\n").next().unwrap();
            assert!(above.contains("/// ```\n"), "{}: {}", path.display(), text[place..].lines().next().unwrap());
        }
    }
}

#[test]
fn releases() {
    let version = |text: &str| Source::open(text.as_bytes()).unwrap().version();
    let long = "é".repeat(100);
    assert_eq!(version(&format!("# version 2026b\n{SOURCE}")), Ok(Some("2026b".to_owned())));
    assert_eq!(version(&format!("# version {long}\n{SOURCE}")), Ok(Some(long)));
    assert_eq!(version(&format!("{SOURCE}# version 2026b\n")), Ok(None));
    let plain = Source::open_plain(b"# version 2026b\nZone A 1:00 - A\n").unwrap();
    assert_eq!(plain.version(), Ok(Some("2026b".to_owned())));
}

#[test]
fn look_ups() {
    let zone = zone("There/Middle");
    assert_eq!(zone.offset_at(SPRING - 1, 999_999_999), Ok(3600));
    assert_eq!(zone.offset_at(SPRING, 0), Ok(7200));
    let mut offsets = [9; 4];
    assert_eq!(zone.offsets_at(&[SPRING, SPRING - 1, 5_695_963_200], &mut offsets), Ok(()));
    assert_eq!(offsets, [7200, 3600, 7200, 9]);
    assert_eq!(zone.offsets_at(&[0, 253_402_300_800], &mut offsets), Err(Error::OutOfRange));
    assert_eq!(offsets, [7200, 3600, 7200, 9]);
    let mut clocks = [Clock::default(); 2];
    assert_eq!(zone.clocks_at(&[SPRING - 1, SPRING, 0], &mut clocks), Ok(()));
    assert_eq!(clocks.map(|clock| (clock.year, clock.hour, clock.second)), [(2024, 1, 59), (2024, 3, 0)]);
    assert_eq!(zone.clocks_at(&[253_402_300_799], &mut clocks), Err(Error::OutOfRange));
    assert_eq!(zone.texts_at(&[SPRING, 253_402_300_799]), Err(Error::OutOfRange));
    assert_eq!(zone.texts_at(&[SPRING]).unwrap(), "2024-03-31 03:00:00.000000000 +02:00:00\n");
    assert_eq!(zone.texts_at(&[]).unwrap(), "");
    let answer = zone.answer_at(SPRING, 5).unwrap();
    assert_eq!((answer.offset, answer.is_saving, answer.saving, answer.name.as_str()), (7200, true, Some(3600), "CEST"));
    assert_eq!((answer.clock.hour, answer.clock.nanosecond, answer.seconds.start), (3, 5, SPRING));
    assert!(answer.seconds.contains(&(answer.seconds.end - 1)) && zone.offset_at(answer.seconds.end, 0) == Ok(3600));
    assert_eq!(zone.answer_at(253_402_300_799, 0), Err(Error::OutOfRange));
    assert_eq!(self::zone("Here/Long").answer_at(0, 0).unwrap().name, "AbbreviationOfTwentySix");
    let found = zone.in_force(SPRING, 0).unwrap();
    assert_eq!((found.offset, found.is_saving, found.name.as_str()), (7200, true, "CEST"));
    let shown = Clock { year: 2024, month: 3, day: 31, hour: 3, minute: 0, second: 0, nanosecond: 5 };
    assert_eq!(zone.clock_at(SPRING, 5), Ok((shown, 7200)));
    assert_eq!(zone.text_at(SPRING, 5).unwrap(), "2024-03-31 03:00:00.000000005 +02:00:00");
    assert_eq!(self::zone("Here/Long").in_force(0, 0).unwrap().name, "AbbreviationOfTwentySix");
    assert_eq!(self::zone("Here/Far").offset_at(0, 0), Ok(90000));
}

#[test]
fn local_times() {
    let zone = zone("Here/Middle");
    let instants: Vec<_> = zone.instants(&local("2024-10-27 02:30:00.000000007")).unwrap().collect();
    let told: Vec<_> = instants.iter().map(|instant| (instant.second, instant.nanosecond, instant.offset)).collect();
    assert_eq!(told, [(AUTUMN - 1800, 7, 7200), (AUTUMN + 1800, 7, 3600)]);
    let skipped = local("2024-03-31 02:30:00.000000000");
    assert_eq!(zone.instants(&skipped).unwrap().next(), None);
    let LocalTime::Skipped(gap) = zone.local_time(&skipped).unwrap() else { panic!("shown") };
    assert_eq!(gap, Gap { second: SPRING, before: 3600, after: 7200 });
    let LocalTime::Shown(instants) = zone.local_time(&local("2024-07-01 12:00:00.000000000")).unwrap() else { panic!("skipped") };
    assert_eq!(instants.map(|instant| instant.offset).collect::<Vec<_>>(), [7200]);
    let LocalTime::Shown(instants) = zone.local_time(&local("2024-10-27 02:30:00.000000000")).unwrap() else { panic!("skipped") };
    assert_eq!(instants.len(), 2);
    let thrice = self::zone("Here/Twice").instants(&local("2000-01-01 01:15:00.000000000")).unwrap();
    assert_eq!(thrice.len(), 3);
    assert_eq!(thrice.map(|instant| instant.offset).collect::<Vec<_>>(), [0, -3600, -7200]);
}

#[test]
fn files_and_strings() {
    // 2400 has its changes on 26 March and 29 October, both at 01:00 UTC.
    for zone in [Zone::from_tzif(FILE).unwrap(), Zone::from_posix(STRING).unwrap()] {
        assert_eq!(zone.offset_at(13576813199, 0), Ok(3600));
        let found = zone.in_force(13576813200, 0).unwrap();
        assert_eq!((found.offset, found.is_saving, found.name.as_str()), (7200, true, "CEST"));
        assert_eq!(zone.text_at(13576813200, 5).unwrap(), "2400-03-26 03:00:00.000000005 +02:00:00");
        let twice: Vec<_> = zone.instants(&local("2400-10-29 02:30:00.000000000")).unwrap().map(|instant| instant.second).collect();
        assert_eq!(twice, [13595560200, 13595563800]);
        let LocalTime::Skipped(gap) = zone.local_time(&local("2400-03-26 02:30:00.000000000")).unwrap() else { panic!("shown") };
        assert_eq!(gap, Gap { second: 13576813200, before: 3600, after: 7200 });
        assert_eq!(zone.ring(&local("2400-03-26 02:30:00.000000000")), Ok(None));
        assert_eq!((zone.saving_at(0, 0), zone.keeps_saving(), zone.last_year()), (Err(Error::NotKept), false, Ok(9999)));
        let spring = zone.next_change(13576813199).unwrap();
        assert_eq!((spring.second, spring.offset, spring.saving), (13576813200, 7200, 3600));
        assert_eq!(zone.share().unwrap().offset_at(13576813200, 0), Ok(7200));
    }
    assert_eq!(Zone::from_tzif(FILE).unwrap().offset_at(-1855958962, 0), Ok(561));
    assert_eq!(Zone::from_tzif(&FILE[1..]).err(), Some(Error::File { cause: FileCause::Refused }));
    let broken = [&FILE[..FILE.len() - 1], b"X\n"].concat();
    assert_eq!(Zone::from_tzif(&broken).err(), Some(Error::File { cause: FileCause::Footer }));
    assert_eq!(Zone::from_posix("CET-1CEST").err(), Some(Error::NotRead));
}

#[test]
fn changes() {
    let zone = zone("Here/Middle");
    assert_eq!((zone.saving_at(SPRING - 1, 999_999_999), zone.saving_at(SPRING, 0)), (Ok(0), Ok(3600)));
    let spring = Change { second: SPRING, offset: 7200, saving: 3600, name_length: 4, differs: true };
    let autumn = Change { second: AUTUMN, offset: 3600, saving: 0, name_length: 3, differs: true };
    assert_eq!((zone.next_change(SPRING - 1), zone.next_change(SPRING)), (Some(spring), Some(autumn)));
    assert_eq!(zone.next_change(i64::MAX), None);
    assert_eq!(zone.changes(SPRING, AUTUMN).collect::<Vec<_>>(), [spring]);
    assert_eq!(zone.changes(SPRING, AUTUMN + 1).collect::<Vec<_>>(), [spring, autumn]);
    assert_eq!(zone.changes(AUTUMN, SPRING).next(), None);
    let seconds: Vec<_> = zone.changes(i64::MIN, i64::MAX).map(|change| change.second).collect();
    assert!(seconds.len() > 200 && seconds.windows(2).all(|two| two[0] < two[1]));
}

/// In the spring of 1997 a line of Georgia says again what holds, and in 1998 the abbreviation alone is another.
#[test]
fn changes_of_nothing() {
    let text = concat!(
        "Rule E 1981 max - Mar lastSun 0:00 1:00 -\n",
        "Rule E 1996 max - Oct lastSun 0:00 0 -\n",
        "Zone Asia/Tbilisi 4:00 E +04/+05 1996 Oct lastSun\n",
        " 4:00 1:00 +05 1997 Mar lastSun\n",
        " 4:00 E +04/+05 1998 Jan 1\n",
        " 4:00 - GET\n",
    );
    let zone = Source::open(text.as_bytes()).unwrap().zone("Asia/Tbilisi").unwrap();
    let nothing = Change { second: 859662000, offset: 18000, saving: 3600, name_length: 3, differs: false };
    let autumn = Change { second: 877806000, offset: 14400, saving: 0, name_length: 3, differs: true };
    let name = Change { second: 883598400, ..autumn };
    assert_eq!(zone.next_change(849398400), Some(nothing));
    assert_eq!(zone.changes(849398400, i64::MAX).collect::<Vec<_>>(), [autumn, name]);
    assert_eq!(zone.every_change(849398400, i64::MAX).collect::<Vec<_>>(), [nothing, autumn, name]);
}

#[test]
fn edges() {
    let source = Source::open(b"Zone Behind -5 - EST\nZone Ahead 1 - CET\n").unwrap();
    for (name, text) in [("Behind", "9999-12-31 23:30:00.000000007"), ("Ahead", "-9999-01-01 00:30:00.000000007")] {
        let zone = source.zone(name).unwrap();
        let instant = zone.instants(&local(text)).unwrap().next().unwrap();
        assert_eq!(zone.clock_at(instant.second, instant.nanosecond), Ok((local(text), instant.offset)));
        assert!(zone.text_at(instant.second, instant.nanosecond).unwrap().starts_with(text));
        assert_eq!(zone.in_force(instant.second, instant.nanosecond).unwrap().offset, instant.offset);
        assert_eq!(zone.saving_at(instant.second, instant.nanosecond), Ok(0));
    }
}

#[test]
fn rings() {
    let zone = zone("Here/Middle");
    let ring = zone.ring(&local("2024-10-27 02:30:00.000000007")).unwrap().unwrap();
    assert_eq!((ring.second, ring.nanosecond, ring.offset), (AUTUMN - 1800, 7, 7200));
    assert_eq!(zone.ring(&local("2024-03-31 02:30:00.000000000")), Ok(None));
    assert_eq!(zone.ring(&Clock { month: 13, ..local("2024-03-31 02:30:00.000000000") }), Err(Error::OutOfRange));
}

#[test]
fn out_of_range() {
    let zone = zone("Here/Middle");
    for (second, nanosecond) in [(i64::MAX, 0), (i64::MIN, 0), (0, 1_000_000_000), (0, u32::MAX)] {
        assert_eq!(zone.offset_at(second, nanosecond), Err(Error::OutOfRange));
        assert_eq!(zone.in_force(second, nanosecond), Err(Error::OutOfRange));
        assert_eq!(zone.clock_at(second, nanosecond), Err(Error::OutOfRange));
        assert_eq!(zone.text_at(second, nanosecond), Err(Error::OutOfRange));
        assert_eq!(zone.saving_at(second, nanosecond), Err(Error::OutOfRange));
    }
    let day = local("2024-02-29 00:00:00.000000000");
    for wrong in [Clock { year: 2023, ..day }, Clock { month: 13, ..day }, Clock { hour: 24, ..day }, Clock { year: 10000, ..day }] {
        assert_eq!(zone.instants(&wrong).err(), Some(Error::OutOfRange));
    }
    for text in ["", "2024-02-29 00:00:00", "2023-02-29 00:00:00.000000000"] {
        assert_eq!(text.parse::<Clock>(), Err(Error::NotRead));
        assert_eq!(text.parse::<Instant>(), Err(Error::NotRead));
    }
}

#[test]
fn faults() {
    let rows: [(&[u8], Error, &str); 6] = [
        (b"\nRule R 2000 max - Nof Sun>=1 2:00 0 S\n", Error::BadLine { line: 2, cause: LineCause::FailedMonthParse }, "line 2: FailedMonthParse"),
        (b"nothing\n", Error::BadLine { line: 1, cause: LineCause::InvalidLineType }, "line 1: InvalidLineType"),
        (b"Zone A 1:00 - X\nZone A 1:00 - X\n", Error::BadJoin { line: 2, cause: JoinCause::DuplicateZone }, "line 2: DuplicateZone"),
        (b"Zone A 1:00 None X\n", Error::BadJoin { line: 1, cause: JoinCause::UnknownRuleset }, "line 1: UnknownRuleset"),
        (b"\n\n\xff\n", Error::NotText { line: 3 }, "line 3: not UTF-8"),
        (&[b'#'; (1 << 24) + 1], Error::TooLong, "the source is longer than 16,777,216 bytes"),
    ];
    for (text, error, words) in rows {
        let told: Box<dyn std::error::Error> = Box::new(Source::open_plain(text).unwrap_err());
        assert_eq!(told.to_string(), words);
        assert_eq!(told.downcast_ref(), Some(&error));
    }
    let text = b"Rule R min 1990 - Jan 1 0:00 0 -\nZone Rules 0:00 R A\nZone Open 0:00 - A\n 1:00 - B\nZone Wide 26:00 - X\n";
    let source = Source::open_plain(text).unwrap();
    for (name, error) in [
        ("None", Error::UnknownZone),
        ("", Error::UnknownZone),
        ("Open", Error::NoSchedule { cause: ScheduleCause::MissingUntil }),
        ("Rules", Error::NoSchedule { cause: ScheduleCause::RuleYears }),
        ("Wide", Error::OffsetRange),
    ] {
        assert_eq!(source.zone(name).err(), Some(error));
    }
}

#[test]
fn any_form() {
    let text = b"R EU 1981 ma - Mar lastSu 1u 1 S\nR EU 1996 ma - O lastSu 1u 0 -\nZ Here 1 EU CE%sT\nL There Here/Too\nL Here There\n";
    let source = Source::open(text).unwrap();
    assert_eq!(source.names().unwrap().collect::<Vec<_>>(), ["Here", "Here/Too", "There"]);
    let zone = source.zone("Here/Too").unwrap();
    assert_eq!((zone.offset_at(SPRING - 1, 0), zone.offset_at(SPRING, 0)), (Ok(3600), Ok(7200)));
    assert_eq!(Source::open_plain(text).err(), Some(Error::BadLine { line: 1, cause: LineCause::InvalidLineType }));
    let rows: [(&[u8], Error, &str); 3] = [
        (b"\nRule R 2000 max - Foo 1 2:00 0 S\n", Error::NoPlainForm { line: 2, cause: PlainCause::Month }, "line 2: no plain form, Month"),
        (b"Link A B\n", Error::NoPlainForm { line: 1, cause: PlainCause::Target }, "line 1: no plain form, Target"),
        (&[b'#'; (1 << 24) + 1], Error::TooLong, "the source is longer than 16,777,216 bytes"),
    ];
    for (text, error, words) in rows {
        let told = Source::open(text).unwrap_err();
        assert_eq!((told, told.to_string().as_str()), (error, words));
    }
}

#[test]
fn whole() {
    let zone = zone("Here/Middle");
    let tail = zone.posix_tail().unwrap();
    assert_eq!((tail.text.as_str(), tail.is_posix), ("CET-1CEST,M3.5.0,M10.5.0/3", true));
    let letters = Source::open(b"Zone Letters 2 - CD\n").unwrap().zone("Letters").unwrap().posix_tail().unwrap();
    assert_eq!((letters.text.as_str(), letters.is_posix), ("<CD>-2", false));
    let file = zone.to_tzif().unwrap();
    assert!(file.starts_with(b"TZif2") && file.ends_with(b"\nCET-1CEST,M3.5.0,M10.5.0/3\n"));
    let text = format!("Zone Shape 1:00 - A 2099 Jun 1\n 2:00 - B\nZone Wide 25:30 - X\nZone Name 1:00 - A<B\nZone Long 1:00 - {}\n", "A".repeat(256));
    let source = Source::open(text.as_bytes()).unwrap();
    for (name, cause) in [("Shape", TailCause::Shape), ("Wide", TailCause::OffsetRange), ("Name", TailCause::Name)] {
        assert_eq!(source.zone(name).unwrap().posix_tail(), Err(Error::NoTail { cause }));
    }
    assert_eq!(source.zone("Long").unwrap().to_tzif(), Err(Error::NoTzif { cause: TzifCause::Names }));
    let other = Zone::from_posix("UTC0").unwrap();
    assert_eq!((other.posix_tail(), other.to_tzif()), (Err(Error::NotKept), Err(Error::NotKept)));
    assert_eq!((other.tail_for_ever(), other.to_tzif_for_ever()), (Err(Error::NotKept), Err(Error::NotKept)));
}

/// The rules of Ireland, whose saving lies below 0, and rules that fire after midnight's 24:00.
const FOR_EVER: &[u8] = b"Rule E 1981 max - Mar lastSun 1:00u 0 -\nRule E 1996 max - Oct lastSun 1:00u -1:00 -\nZone Ireland 1:00 E IST/GMT\n\
Rule G 2013 max - Mar lastThu 26:00 1:00 D\nRule G 2013 max - Oct lastThu 26:00 0 S\nZone Late -3:00 G X%sT\n";

#[test]
fn for_ever() {
    let source = Source::open(FOR_EVER).unwrap();
    for (name, text, is_posix, begins) in [
        ("Ireland", "IST-1GMT0,M10.5.0,M3.5.0/1", true, b"TZif2"),
        ("Late", "XST3XDT,M3.5.4/26,M10.5.4/26", false, b"TZif3"),
    ] {
        let zone = source.zone(name).unwrap();
        let tail = zone.tail_for_ever().unwrap();
        assert_eq!((tail.text.as_str(), tail.is_posix), (text, is_posix));
        let file = zone.to_tzif_for_ever().unwrap();
        assert!(file.starts_with(begins) && file.ends_with(format!("\n{text}\n").as_bytes()), "{name}");
    }
    let ends = "Rule N 1981 2150 - Mar lastSun 1:00u 1:00 S\nRule N 1996 2150 - Oct lastSun 1:00u 0 -\nZone Ends 1:00 N CE%sT\n";
    let text = format!("{ends}Zone Wide 25:30 - X\nZone Name 1:00 - A<B\nZone Long 1:00 - {}\n", "A".repeat(256));
    let source = Source::open(text.as_bytes()).unwrap();
    for (name, cause) in [("Ends", EverCause::RulesEnd), ("Wide", EverCause::OffsetRange), ("Name", EverCause::Name)] {
        let zone = source.zone(name).unwrap();
        assert_eq!((zone.tail_for_ever(), zone.to_tzif_for_ever()), (Err(Error::NotForEver { cause }), Err(Error::NotForEver { cause })));
    }
    assert_eq!(source.zone("Long").unwrap().to_tzif_for_ever(), Err(Error::NotForEver { cause: EverCause::Names }));
}

#[test]
fn threads() {
    let source = Source::open(SOURCE.as_bytes()).unwrap();
    let zone = zone("Here/Middle");
    let asked = |zone: &Zone| (SPRING - 5000..SPRING + 5000).filter(|&second| zone.offset_at(second, 0) == Ok(7200)).count();
    thread::scope(|scope| {
        for turn in 0..8 {
            let (source, zone) = (&source, &zone);
            scope.spawn(move || {
                assert_eq!(asked(zone), 5000);
                let own = if turn % 2 == 0 { zone.share() } else { source.zone("There/Middle") };
                assert_eq!((asked(&own.unwrap()), source.names().unwrap().count()), (5000, 5));
            });
        }
    });
    let own = zone.share().unwrap();
    drop(zone);
    assert_eq!(thread::spawn(move || asked(&own)).join().unwrap(), 5000);
}

/// The kilobytes that the process holds, of Linux.
fn held() -> i64 {
    let status = fs::read_to_string("/proc/self/status").unwrap();
    let line = status.lines().find(|line| line.starts_with("VmHWM:")).unwrap();
    line.split_whitespace().nth(1).unwrap().parse().unwrap()
}

/// A million zones opened and closed, most of one line, with sources, shared zones and some that are refused.
#[test]
#[ignore = "it watches the memory of the process, so it runs alone"]
fn memory() {
    let source = Source::open(SOURCE.as_bytes()).unwrap();
    let rounds = |number: usize| {
        for turn in 0..number {
            if turn % 100 == 0 {
                source.zone("Here/Middle").unwrap().share().unwrap();
                Source::open(b"Zone A 1:00 - X\n").unwrap().zone("A").unwrap();
                assert!(Source::open(b"Zone A 1:00 None X\n").is_err() && source.zone("None").is_err());
            }
            source.zone("Here/Long").unwrap();
        }
    };
    rounds(20_000);
    let before = held();
    rounds(980_000);
    assert!(held() - before < 2048);
}
