//! What is wrong with a damaged job and at which byte, as a file and over a link, however it is cut.
//! Numbers and places are the rules', worked out by hand; none is asked of the library.

use hejmirov::{
    Answered, Damage, JOB_HEAD_BYTES, JOB_STATE_BYTES, JOB2_STATE_BYTES, LINK_BYTES, Link,
    MAX_JOB_STATES, Refusal,
};

/// The states (2, 1) and (3, 1) at speed 0.5: 47 bytes, and the durations are 4 and 6.
fn worked() -> Vec<u8> {
    let mut bytes = b"SPJ\x01\0\x02\0".to_vec();
    for number in [0.5_f64, 2.0, 1.0, 3.0, 1.0] {
        bytes.extend(number.to_le_bytes());
    }
    bytes
}

/// The same in version 2, every shortest 1: 55 bytes.
fn worked_2() -> Vec<u8> {
    let mut bytes = b"SPJ\x02\0\x02\0".to_vec();
    bytes.extend(0.5_f64.to_le_bytes());
    for mean in [2.0_f64, 3.0] {
        bytes.extend(mean.to_le_bytes());
        bytes.extend(1.0_f64.to_le_bytes());
        bytes.extend(1_u32.to_le_bytes());
    }
    bytes
}

/// A head, and zeros behind it: so many bytes in all.
fn filled(head: &[u8], bytes: usize) -> Vec<u8> {
    let mut job = head.to_vec();
    job.resize(bytes, 0);
    job
}

type Answer = Result<Answered, Refusal>;

fn at(damage: Damage, place: u64) -> Answer {
    Err(Refusal::JobDamaged { damage, place })
}

/// The job in these parts over a link over which another has gone.
fn linked<'a>(link: &mut Link, parts: impl IntoIterator<Item = &'a [u8]>) -> Answer {
    link.begin();
    for part in parts {
        link.part(part).unwrap();
    }
    let (mut out, mut work) = ([7; MAX_JOB_STATES], [7; MAX_JOB_STATES]);
    let answer = link.end_into(&mut out, &mut work);
    if answer.is_err() {
        assert_eq!((out, work), ([7; MAX_JOB_STATES], [7; MAX_JOB_STATES]));
    }
    assert_eq!(link.end(), Err(Refusal::JobEnded));
    answer
}

/// Holds every way to answer a job to what is expected, which is no refusal but damage.
fn held(link: &mut Link, bytes: &[u8], expected: Answer) {
    let shown = &bytes[..bytes.len().min(20)];
    let owned = hejmirov::job(bytes).map(|fitted| fitted.durations.len());
    let states = expected.map(|answered| answered.states as usize);
    assert_eq!(owned, states, "{shown:?}");
    if expected.is_err() {
        let no_room = hejmirov::job_into(bytes, &mut [], &mut []);
        assert_eq!(no_room, expected, "{shown:?}, without room");
    }
    let (mut out, mut work) = ([7; MAX_JOB_STATES], [7; MAX_JOB_STATES]);
    let answer = hejmirov::job_into(bytes, &mut out, &mut work);
    assert_eq!(answer, expected, "{shown:?}");
    if answer.is_err() {
        assert_eq!((out, work), ([7; MAX_JOB_STATES], [7; MAX_JOB_STATES]));
    }
    assert_eq!(linked(link, [bytes]), expected, "{shown:?}, in one part");
    let single = bytes.chunks(1);
    assert_eq!(linked(link, single), expected, "{shown:?}, byte by byte");
}

#[test]
fn each_number_and_place() {
    use Damage::{Count, Length, Mark, Version};
    let mut link = Link::new();
    let cases: [(&[u8], Damage, u64); 44] = [
        // A file that ends before a field's last byte ends short, whatever it has of that field.
        (b"", Length, 0),
        (b"S", Length, 1),
        (b"SP", Length, 2),
        (b"SPJ", Length, 3),
        (b"SPJ\x01", Length, 4),
        (b"SPJ\x02", Length, 4),
        (b"SPJ\x01\0", Length, 5),
        (b"SPJ\x01\0\x02", Length, 6),
        (b"SPJ\x01\0\xff", Length, 6),
        (b"SPJ\x01\0\0\0", Length, 7),
        (b"SPJ\x01\0\x02\0", Length, 7),
        (b"SPJ\x01\0\0\x04", Length, 7),
        // The mark's first wrong byte, though what follows is wrong or missing.
        (b"X", Mark, 0),
        (b"XX", Mark, 0),
        (b"XPJ", Mark, 0),
        (b"sPJ", Mark, 0),
        (b"\0\0\0\0\0\0\0\0\0\0\0\0\0\0\0", Mark, 0),
        (b"SX", Mark, 1),
        (b"SXX", Mark, 1),
        (b"SJP", Mark, 1),
        (b"SPK", Mark, 2),
        (b"SPKX", Mark, 2),
        (b"SPj\x03\0\xff\xff", Mark, 2),
        // Both bytes of the version, though the file ends there or says too many states.
        (b"SPJ\x03\0", Version, 3),
        (b"SPJ\0\0", Version, 3),
        (b"SPJ\x01\x01", Version, 3),
        (b"SPJ\x02\x01", Version, 3),
        (b"SPJ\0\x01", Version, 3),
        (b"SPJ\0\x02", Version, 3),
        (b"SPJ\x03\0\x02", Version, 3),
        (b"SPJ\x03\0\xff\xff", Version, 3),
        (b"SPJ\xff\xff\x02\0", Version, 3),
        // 1,025 states, 2,048 and 65,535, though the file ends there; 1,024 are not too many.
        (b"SPJ\x01\0\x01\x04", Count, 5),
        (b"SPJ\x01\0\0\x08", Count, 5),
        (b"SPJ\x01\0\xff\xff", Count, 5),
        (b"SPJ\x01\0\x01\x04\0", Count, 5),
        (b"SPJ\x01\0\0\x04\0", Length, 8),
        (b"SPJ\x01\0\0\0\0\0\0\0\0\0\0\0!", Length, 15),
        // Version 2 has the same head.
        (b"SPJ\x02\0", Length, 5),
        (b"SPJ\x02\0\xff", Length, 6),
        (b"SPJ\x02\0\0\x04", Length, 7),
        (b"SPJ\x02\0\x01\x04", Count, 5),
        (b"SPJ\x02\0\xff\xff", Count, 5),
        (b"SPJ\x02\0\0\0\0\0\0\0\0\0\0\0!", Length, 15),
    ];
    for (bytes, damage, place) in cases {
        held(&mut link, bytes, at(damage, place));
    }
}

#[test]
fn a_file_that_ends_short_or_goes_on() {
    let mut link = Link::new();
    let answered = Answered {
        states: 2,
        frames: 10,
        changes: 1,
    };
    for (worked, bytes) in [(worked(), 47), (worked_2(), 55)] {
        held(&mut link, &worked, Ok(answered));
        for end in 0..worked.len() {
            let short = at(Damage::Length, end as u64);
            held(&mut link, &worked[..end], short);
        }
        for surplus in [1, 2, 8, 16, 17, 20, 21, 70_000] {
            let long = filled(&worked, worked.len() + surplus);
            held(&mut link, &long, at(Damage::Length, bytes));
        }
    }
}

#[test]
fn each_byte_changed_to_each_other() {
    let mut link = Link::new();
    let worked = worked();
    let mut told = [0; 4];
    for place in 0..7 {
        for byte in 0..=255 {
            let mut changed = worked.clone();
            changed[place] = byte;
            let states = u16::from_le_bytes([changed[5], changed[6]]);
            let (number, expected) = match place {
                _ if byte == worked[place] => continue,
                0..3 => (0, at(Damage::Mark, place as u64)),
                // Version 2 has 15 + 20 x 2 bytes, and it ends short.
                3 if byte == 2 => (3, at(Damage::Length, 47)),
                3..5 => (1, at(Damage::Version, 3)),
                _ if states > 1_024 => (2, at(Damage::Count, 5)),
                // With fewer states it goes on, and with more it ends short, at its 47 bytes.
                _ => (3, at(Damage::Length, 47.min(15 + 16 * u64::from(states)))),
            };
            held(&mut link, &changed, expected);
            told[number] += 1;
        }
    }
    // Of the count's low byte all 255 others are short or long, and of its high byte 1 to 3:
    // with the 2 states of the low byte, 4 is above 1,024. One more is short: that of version 2.
    assert_eq!(told, [3 * 255, 2 * 255 - 1, 252, 1 + 255 + 3]);
}

#[test]
fn more_bytes_than_a_link_keeps() {
    let mut link = Link::new();
    let largest = JOB_HEAD_BYTES + MAX_JOB_STATES * JOB2_STATE_BYTES;
    assert_eq!(largest, 20_495);
    for (head, damage, place) in [
        (&b"SPJ\x02\0\0\x04"[..], Damage::Length, 20_495),
        (b"SPJ\x02\0\xff\x03", Damage::Length, 20_475),
        (b"SPJ\x02\0\0\0", Damage::Length, 15),
        (b"SPJ\x02\0\x01\x04", Damage::Count, 5),
        (b"SPJ\x01\0\0\x04", Damage::Length, 16_399),
        (b"SPJ\x01\0\xff\x03", Damage::Length, 16_383),
        (b"SPJ\x01\0\0\0", Damage::Length, 15),
        (b"SPJ\x01\0\x01\x04", Damage::Count, 5),
        (b"SPJ\x01\x01\0\x04", Damage::Version, 3),
        (b"SPj\x01\0\0\x04", Damage::Mark, 2),
    ] {
        for surplus in [1, 2, 9, 1_000, 70_000] {
            let long = filled(head, largest + surplus);
            held(&mut link, &long, at(damage, place));
        }
    }
    let one_less = filled(b"SPJ\x02\0\0\x04", largest - 1);
    held(&mut link, &one_less, at(Damage::Length, 20_494));
    // The largest of version 1, with as many bytes more as a link keeps, and fewer.
    let largest = JOB_HEAD_BYTES + MAX_JOB_STATES * JOB_STATE_BYTES;
    for surplus in [1, 4_095, 4_096, 4_097] {
        let long = filled(b"SPJ\x01\0\0\x04", largest + surplus);
        held(&mut link, &long, at(Damage::Length, 16_399));
    }
    let one_less = filled(b"SPJ\x01\0\0\x04", largest - 1);
    held(&mut link, &one_less, at(Damage::Length, 16_398));
}

#[test]
fn a_link_cut_anywhere() {
    let mut link = Link::new();
    let worked = worked();
    let with = |place: usize, byte| {
        let mut changed = worked.clone();
        changed[place] = byte;
        changed
    };
    for (bytes, expected) in [
        (with(0, b'X'), at(Damage::Mark, 0)),
        (with(1, b'X'), at(Damage::Mark, 1)),
        (with(2, b'K'), at(Damage::Mark, 2)),
        (with(3, 2), at(Damage::Length, 47)),
        (with(3, 3), at(Damage::Version, 3)),
        (with(4, 1), at(Damage::Version, 3)),
        (with(5, 1), at(Damage::Length, 31)),
        (with(5, 3), at(Damage::Length, 47)),
        (with(6, 4), at(Damage::Count, 5)),
        (worked[..46].to_vec(), at(Damage::Length, 46)),
        (filled(&worked, 50), at(Damage::Length, 47)),
        (worked_2()[..54].to_vec(), at(Damage::Length, 54)),
        (filled(&worked_2(), 58), at(Damage::Length, 55)),
    ] {
        for first in 0..=bytes.len() {
            let (front, rest) = bytes.split_at(first);
            assert_eq!(linked(&mut link, [front, &[], rest]), expected);
            for second in 0..=rest.len() {
                let (middle, back) = rest.split_at(second);
                assert_eq!(linked(&mut link, [front, middle, back]), expected);
            }
        }
    }
}

#[test]
fn refusals_of_a_link_come_before_damage() {
    let (mut out, mut work) = ([7; 1], [7; 1]);
    let mut memory = vec![0; LINK_BYTES];
    hejmirov::link_begin(&mut memory).unwrap();
    hejmirov::link_part(&mut memory, b"SPK").unwrap();
    let short = &mut memory[..LINK_BYTES - 1];
    let refused = hejmirov::link_end_into(short, &mut out, &mut work);
    assert_eq!(refused, Err(Refusal::TooLittleRoom));
    let refused = hejmirov::link_end_into(&mut memory, &mut out, &mut work);
    assert_eq!(refused, at(Damage::Mark, 2));
    let refused = hejmirov::link_end_into(&mut memory, &mut out, &mut work);
    assert_eq!(refused, Err(Refusal::JobEnded));
    assert_eq!((out, work), ([7; 1], [7; 1]));
}

#[test]
fn a_line_for_a_log() {
    for (bytes, line) in [
        (
            &b""[..],
            "refused 9 at byte 0: job file too short or too long",
        ),
        (b"SPK", "refused 12 at byte 2: job file's mark is wrong"),
        (
            b"SPJ\x03\0",
            "refused 13 at byte 3: job file's version is wrong",
        ),
        (
            b"SPJ\x01\0\x01\x04",
            "refused 14 at byte 5: job file says too many states",
        ),
    ] {
        assert_eq!(hejmirov::job(bytes).unwrap_err().to_string(), line);
    }
}

#[test]
fn the_old_number() {
    for (damage, number) in [
        (Damage::Length, 9),
        (Damage::Mark, 12),
        (Damage::Version, 13),
        (Damage::Count, 14),
    ] {
        let refusal = Refusal::JobDamaged { damage, place: 3 };
        assert_eq!((refusal.number(), refusal.old_number()), (number, 9));
    }
    // Numbers whose last byte or last two are those of a damage stay, too.
    for number in [
        0,
        1,
        2,
        3,
        4,
        5,
        6,
        7,
        8,
        10,
        11,
        15,
        16,
        0x10c,
        0x1_000d,
        0x8000_000e,
        u32::MAX,
    ] {
        assert_eq!(Refusal::Unknown(number).old_number(), number);
    }
}
