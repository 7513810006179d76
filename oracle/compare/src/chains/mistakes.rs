//! Mistakes that a program which retells a chain file could make.
use crate::chain::{HALF_TURN, HEAD, MOST, POLE, RECORD, Record, SAMPLE, Sample};
use crate::chains::bent::{RULES, Rules};

type Mistakes = Vec<(&'static str, Rules)>;

/// In reading the file, in asking its entries, in the rebuild.
pub fn rules() -> Mistakes {
    [file_mistakes(), entry_mistakes(), rebuild_mistakes()].concat()
}

fn file_mistakes() -> Mistakes {
    vec![
        ("a part of a record taken", Rules { sized: |size| whole(size / RECORD), ..RULES }),
        ("no bytes taken", Rules { sized: |size| size == 0 || (RULES.sized)(size), ..RULES }),
        ("683 records taken", Rules { sized: |size| sized(size, MOST + 1), ..RULES }),
        ("682 records refused", Rules { sized: |size| sized(size, MOST - 1), ..RULES }),
        ("next the record count taken", Rules { within: |next, count| next <= count, ..RULES }),
        ("the last record refused", Rules { within: |next, count| next + 1 < count, ..RULES }),
        ("a record met twice taken", Rules { twice_refused: false, ..RULES }),
        ("the numbers' upper bytes unread", Rules { record: low_bytes, ..RULES }),
        ("the flags read as one number", Rules { record: flags_as_a_number, ..RULES }),
        ("UTC by the place's flag", Rules { record: utc_by_the_place, ..RULES }),
        ("samples past count read", Rules { record: past_count, ..RULES }),
        ("latitude and longitude exchanged", Rules { record: exchanged, ..RULES }),
        ("UTC in its lower half", Rules { record: half_utc, ..RULES }),
    ]
}

fn whole(records: usize) -> bool {
    (1..=MOST).contains(&records)
}

fn sized(size: usize, most: usize) -> bool {
    size.is_multiple_of(RECORD) && (1..=most).contains(&(size / RECORD))
}

fn low_bytes(bytes: &[u8; RECORD]) -> Record {
    let mut bytes = *bytes;
    (bytes[2], bytes[3]) = (0, 0);
    Record::read(&bytes)
}

fn flags_as_a_number(bytes: &[u8; RECORD]) -> Record {
    let mut bytes = *bytes;
    for flags in bytes.iter_mut().skip(HEAD).step_by(SAMPLE).filter(|flags| **flags > 3) {
        *flags = 0;
    }
    Record::read(&bytes)
}

fn utc_by_the_place(bytes: &[u8; RECORD]) -> Record {
    let mut bytes = *bytes;
    for flags in bytes.iter_mut().skip(HEAD).step_by(SAMPLE) {
        *flags = (*flags & 1) * 3;
    }
    Record::read(&bytes)
}

/// Reads all four samples; those past count serve only the questions.
fn past_count(bytes: &[u8; RECORD]) -> Record {
    let mut all = *bytes;
    all[9] = all[9].max(4);
    Record { count: bytes[9].max(4), ..Record::read(&all) }
}

fn exchanged(bytes: &[u8; RECORD]) -> Record {
    each_sample(bytes, |s| Sample { place: s.place.map(|(lat, lon)| (lon, lat)), ..s })
}

fn half_utc(bytes: &[u8; RECORD]) -> Record {
    each_sample(bytes, |s| Sample { utc_ms: s.utc_ms.map(|utc| utc & 0xffff_ffff), ..s })
}

fn each_sample(bytes: &[u8; RECORD], change: fn(Sample) -> Sample) -> Record {
    let record = Record::read(bytes);
    Record { samples: record.samples.map(change), ..record }
}

type Asked = fn(&[Record], &[Record]) -> Result<(), u8>;

fn entry_mistakes() -> Mistakes {
    let asked = |name, asked: Asked| (name, Rules { asked, ..RULES });
    vec![
        asked("nothing asked of entries", |_, _| Ok(())),
        asked("records off the chain asked", |_, all| all[1..].iter().try_for_each(Record::asked)),
        asked("record 0 asked", |entries, all| {
            all[..1].iter().chain(entries).try_for_each(Record::asked)
        }),
        asked("kind 0 taken", |entries, _| each(entries, |e| kind_is(e, 0..=7))),
        asked("kind 8 taken", |entries, _| each(entries, |e| kind_is(e, 1..=8))),
        asked("kind 7 refused", |entries, _| each(entries, |e| kind_is(e, 1..=6))),
        asked("count not asked of Pause", |entries, _| {
            each(entries, |e| if e.kind == 3 { kind(e).and(places(e)) } else { e.asked() })
        }),
        asked("count only asked of Samples", |entries, _| {
            each(entries, |e| if e.kind == 2 { e.asked() } else { kind(e).and(places(e)) })
        }),
        asked("count 5 taken", |entries, _| {
            each(entries, |e| if e.count == 5 { kind(e).and(places(e)) } else { e.asked() })
        }),
        asked("places only asked of Samples", |entries, _| {
            each(entries, |e| if e.kind == 2 { e.asked() } else { kind(e).and(count(e)) })
        }),
        asked("the first place not asked", |entries, _| {
            each(entries, |e| {
                let mut rest = *e;
                rest.samples[0].place = None;
                rest.asked()
            })
        }),
        asked("the poles refused", |entries, _| {
            each(entries, |e| on_the_globe(e, POLE - 1, HALF_TURN))
        }),
        asked("the antimeridian refused", |entries, _| {
            each(entries, |e| on_the_globe(e, POLE, HALF_TURN - 1))
        }),
        asked("1 beyond a pole taken", |entries, _| {
            each(entries, |e| on_the_globe(e, POLE + 1, HALF_TURN))
        }),
        asked("1 beyond half a turn taken", |entries, _| {
            each(entries, |e| on_the_globe(e, POLE, HALF_TURN + 1))
        }),
        asked("count before kind", |entries, _| {
            each(entries, |e| count(e).and(kind(e)).and(places(e)))
        }),
        asked("places before kind", |entries, _| {
            each(entries, |e| places(e).and(kind(e)).and(count(e)))
        }),
        asked("places before count", |entries, _| {
            each(entries, |e| kind(e).and(places(e)).and(count(e)))
        }),
        asked("an entry's latitudes before its longitudes", |entries, _| {
            each(entries, |e| {
                let latitudes = on_the_globe(e, POLE, i32::MAX);
                if latitudes == Err(3) { Err(3) } else { latitudes.and(e.asked()) }
            })
        }),
        asked("longitude before latitude", |entries, _| {
            each(entries, |e| {
                let turned = Record {
                    samples: e.samples.map(|s| Sample { place: s.place.map(longitude_first), ..s }),
                    ..*e
                };
                turned.asked()
            })
        }),
        asked("all kinds, then all counts, then all places", |entries, _| {
            each(entries, kind).and(each(entries, count)).and(each(entries, places))
        }),
        asked("entries from the last", |entries, _| {
            entries.iter().rev().try_for_each(Record::asked)
        }),
    ]
}

fn each(entries: &[Record], asked: fn(&Record) -> Result<(), u8>) -> Result<(), u8> {
    entries.iter().try_for_each(asked)
}

fn kind(entry: &Record) -> Result<(), u8> {
    if (1..=7).contains(&entry.kind) { Ok(()) } else { Err(8) }
}

fn kind_is(entry: &Record, kinds: std::ops::RangeInclusive<u8>) -> Result<(), u8> {
    if kinds.contains(&entry.kind) { Record { kind: 2, ..*entry }.asked() } else { Err(8) }
}

fn count(entry: &Record) -> Result<(), u8> {
    if entry.count <= 4 { Ok(()) } else { Err(5) }
}

fn places(entry: &Record) -> Result<(), u8> {
    Record { kind: 2, count: entry.count.min(4), ..*entry }.asked()
}

fn on_the_globe(entry: &Record, pole: i32, half_turn: i32) -> Result<(), u8> {
    kind(entry)?;
    count(entry)?;
    let beyond = |x: i32, edge: i32| x.unsigned_abs() > edge as u32;
    entry.used().iter().filter_map(|sample| sample.place).try_for_each(|(lat, lon)| {
        match (beyond(lat, pole), beyond(lon, half_turn)) {
            (true, _) => Err(2),
            (_, true) => Err(3),
            _ => Ok(()),
        }
    })
}

/// A place beyond both edges is made one beyond the longitude's.
fn longitude_first((lat, lon): (i32, i32)) -> (i32, i32) {
    if lon.unsigned_abs() > HALF_TURN as u32 { (0, lon) } else { (lat, lon) }
}

type CarriesOn = fn(Option<u64>, Option<u64>) -> bool;

fn rebuild_mistakes() -> Mistakes {
    let carries_on = |name, carries_on: CarriesOn| (name, Rules { carries_on, ..RULES });
    vec![
        ("slots from the last", Rules { slots: |e| e.into_iter().rev().collect(), ..RULES }),
        ("caught up before the first slot", Rules { slots: |_| Vec::new(), ..RULES }),
        ("caught up before the last slot", Rules { slots: without_the_last, ..RULES }),
        ("the first slot passed by", Rules { slots: |e| e.into_iter().skip(1).collect(), ..RULES }),
        ("older rides visited", Rules { visited: |_, _| true, ..RULES }),
        ("only the recovered ride visited", Rules { visited: |ride, r| ride == r, ..RULES }),
        ("only later rides visited", Rules { visited: |ride, r| ride > r, ..RULES }),
        (
            "only the ride behind it visited",
            Rules { visited: |ride, r| ride == r || Some(ride) == r.checked_add(1), ..RULES },
        ),
        ("every kind told", Rules { told_by: |_| true, ..RULES }),
        ("Resume told as well", Rules { told_by: |e| e.kind == 2 || e.kind == 4, ..RULES }),
        ("the recovered ride taken as the later", Rules { own: |_, _| true, ..RULES }),
        ("the later ride taken as the recovered", Rules { own: |_, _| false, ..RULES }),
        (
            "clock only for located samples",
            Rules { tick: |s| u64::from(s.place.is_some()) * 1_000, ..RULES },
        ),
        ("clock by 999", Rules { tick: |_| 999, ..RULES }),
        ("UTC of an unlocated sample taken", Rules { last: |s, last| s.utc_ms.or(last), ..RULES }),
        (
            "a fix without UTC forgets the time",
            Rules { last: |s, last| s.place.map_or(last, |_| s.utc_ms), ..RULES },
        ),
        (
            "the recovered ride's first time taken",
            Rules { last: |s, last| last.or(s.place.and(s.utc_ms)), ..RULES },
        ),
        ("an unlocated sample decides", Rules { unlocated_decides: true, ..RULES }),
        carries_on("1,800,001 carries on", |a, b| apart(a, b, |ms| ms <= 1_800_001)),
        carries_on("1,800,000 resets", |a, b| apart(a, b, |ms| ms < 1_800_000)),
        carries_on("always reset", |_, _| false),
        carries_on("carried on without a time", |a, b| {
            a.zip(b).is_none_or(|(a, b)| a.abs_diff(b) <= 1_800_000)
        }),
        carries_on("an earlier first fix resets", |a, b| {
            a.zip(b).is_some_and(|(a, b)| b.checked_sub(a).is_some_and(|ms| ms <= 1_800_000))
        }),
        carries_on("an earlier first fix carries on", |a, b| {
            a.zip(b).is_some_and(|(a, b)| b.saturating_sub(a) <= 1_800_000)
        }),
        carries_on("times in their lower half", |a, b| apart(a, b, |ms| ms as u32 <= 1_800_000)),
        ("no reset", Rules { reset_is_made: false, ..RULES }),
        ("a reset clears the clock", Rules { reset_clears_clock: true, ..RULES }),
        ("the fix that decides is lost", Rules { first_replayed: false, ..RULES }),
        (
            "the recovered ride goes on behind the decision",
            Rules { recovered_goes_on: true, ..RULES },
        ),
        ("decided from the start", Rules { settles: true, ..RULES }),
        ("511 crumbs", Rules { crumbs: 511, ..RULES }),
        ("513 crumbs", Rules { crumbs: 513, ..RULES }),
        ("4,096 crumbs: nothing thinned", Rules { crumbs: 4_096, ..RULES }),
    ]
}

fn without_the_last(mut entries: Vec<Record>) -> Vec<Record> {
    entries.pop();
    entries
}

fn apart(last: Option<u64>, first: Option<u64>, such: fn(u64) -> bool) -> bool {
    last.zip(first).is_some_and(|(last, first)| such(last.abs_diff(first)))
}

/// A name, and what becomes of what is printed.
type Printing = (&'static str, fn(String) -> String);

pub const PRINTING: [Printing; 5] = [
    ("always refused", |_| "refused 6\n".into()),
    ("letters small", |text| text.replace('A', "a")),
    ("no line's end behind the last line", |text| text.trim_end().into()),
    ("more behind a refusal", |text| text.replace("refused 2", "refused 2\ncrumbs 0")),
    ("the last crumb not printed", |text| match text.trim_end().rsplit_once('\n') {
        Some((lines, _)) => format!("{lines}\n"),
        None => text,
    }),
];
