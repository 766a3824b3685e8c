//! Zones of the machine's own source, which the environment names. They stand alone, since a process reads that source once.

use sefunjaro::{machine_source, Error, NamedError, PlainCause, Zone};
use std::sync::Barrier;
use std::{env, error::Error as _, thread};

const SUMMER: i64 = 1711846800;

fn use_file(path: &str) {
    env::set_var("SEFUNJARO_TZDATA", path);
}

fn without_source() {
    use_file("/nowhere/tzdata.zi");
    let error = Zone::named("Europe/Paris").unwrap_err();
    assert!(matches!(&error, NamedError::NoTzdata { is_named: true, .. }) && error.source().is_some());
    let words = error.to_string();
    assert!(words.starts_with("no source of the tz database: ") && words.ends_with(": /nowhere/tzdata.zi, which SEFUNJARO_TZDATA names"));
    use_file("build.rs");
    let error = machine_source().unwrap_err();
    assert!(matches!(error, NamedError::Source { error: Error::NoPlainForm { line: 1, cause: PlainCause::LineType }, .. }));
    assert_eq!(error.to_string(), "build.rs: line 1: no plain form, LineType");
    assert!(matches!(Zone::named("Europe\0Paris"), Err(NamedError::ZeroByte)));
    env::remove_var("SEFUNJARO_TZDATA");
    match Zone::named("Europe/Paris\0") {
        Err(NamedError::ZeroByte) => {}
        other => panic!("{other:?}"),
    }
}

#[test]
fn named() {
    without_source();
    use_file("tests/small.zi");
    let barrier = Barrier::new(8);
    let ask = || {
        barrier.wait();
        assert_eq!(Zone::named("Europe/Monaco").unwrap().offset_at(SUMMER, 0), Ok(7200));
        machine_source().unwrap() as *const _ as usize
    };
    let places = thread::scope(|scope| {
        let threads: Vec<_> = (0..8).map(|_| scope.spawn(ask)).collect();
        threads.into_iter().map(|thread| thread.join().unwrap()).collect::<Vec<_>>()
    });
    assert!(places.iter().all(|place| *place == places[0]));
    // It is not read again, also where the environment names another file.
    use_file("/nowhere");
    let zone = Zone::named("Europe/Paris").unwrap();
    assert_eq!((zone.name(), zone.share().unwrap().name()), (Some("Europe/Paris"), Some("Europe/Paris")));
    assert_eq!(format!("{zone:?}"), "Zone { name: Some(\"Europe/Paris\"), .. }");
    assert_eq!(machine_source().unwrap().version(), Ok(Some("2026b".to_owned())));
    for name in ["", "Europe/Nowhere", "../Europe/Paris"] {
        let error = Zone::named(name).unwrap_err();
        assert!(matches!(error, NamedError::Zone(Error::UnknownZone)));
        assert_eq!(error.to_string(), "unknown zone");
    }
}
