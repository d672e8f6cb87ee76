//! Every example of the readings that concerns the base, and what requests 2026-01 to 2026-07 add to it.
mod common;
use common::*;
use model::annex::need;
use model::cases::bytes_of;
use model::delay::{figures, Delay, LEVELS};
use model::exact::{fraction, Time};
use model::junction::*;
use model::portable::{intergreen, stretches, table, Works, SPEEDS};
use model::times::{entry, leaving, reaching, Entries};
use model::work_out::{first_length, lost_time, phases, plan_for};
use model::{delay, judge, meaning, portable, read_junction, read_plan, shift, work_out, Refusal};
use std::ops::Range;

fn reads(text: &str) -> Result<(), Refusal> {
    read_junction(&bytes_of(text)).map(|_| ())
}

fn judged(plan: &str) -> Result<(), Refusal> {
    judge(&bytes_of(WC), &bytes_of(plan))
}

/// The whole case with one byte changed.
fn changed(at: usize, to: u8) -> Result<(), Refusal> {
    let mut file = bytes_of(WC);
    file[at] = to;
    read_junction(&file).map(|_| ())
}

/// Every kind but 1 to 5.
fn unknown_kinds() -> impl Iterator<Item = u8> {
    [0].into_iter().chain(6..=255)
}

#[test]
fn junction_files() {
    // 2 before 3
    assert_eq!(reads("09 00 01"), refused(2, 0));
    // the empty file is 8; any other without a heading first is 3
    assert_eq!(reads(""), refused(8, 0));
    assert_eq!(reads("02 00 00"), refused(3, 0));
    assert_eq!(read_junction(&bytes_of(WC)[8..]).map(|_| ()), refused(3, 0));
    // one or two stray bytes
    assert_eq!(reads(&format!("{WC} 01")), refused(2, 60));
    assert_eq!(reads(&format!("{WC} 04 00")), refused(2, 60));
    assert_eq!(reads(&format!("{WC} 04 00 00")), refused(4, 60));
    // a stream's empty body 4; unknown kind 5 whatever its length; known kind of another length 4
    assert_eq!(reads("01 00 05 00 07 23 28 01 02 00 00"), refused(4, 8));
    for unknown in unknown_kinds() {
        assert_eq!(reads(&format!("01 00 05 00 07 23 28 01 02 00 01 {unknown:02x}")), refused(5, 8));
        assert_eq!(changed(11, unknown), refused(5, 8));
    }
    for known in 1..=5 {
        assert_eq!(reads(&format!("01 00 05 00 07 23 28 01 02 00 01 {known:02x}")), refused(4, 8));
    }
    for shorter_or_longer in 2..=5 {
        assert_eq!(changed(11, shorter_or_longer), refused(4, 8));
    }
    // a stream number has no range of its own: 7 judges it, after 5 and 6
    assert_eq!(changed(39, 0), refused(7, 36));
    assert_eq!(changed(40, 255), refused(7, 36));
    assert_eq!(changed(39, 2), refused(7, 36));
    assert_eq!(changed(52, 0), refused(7, 49));
    assert_eq!(changed(52, 2), refused(7, 49));
    let mut both = bytes_of(WC);
    both[40] = 9;
    both[41] = 4;
    assert_eq!(read_junction(&both).map(|_| ()), refused(5, 36));
    // the 17th stream with a bad number is 5, else 6; the 65th zone with a missing stream is 6
    let mut many = bytes_of(WC)[..24].to_vec();
    for _ in 0..16 {
        many.extend(&bytes_of(WC)[24..36]);
    }
    assert_eq!(read_junction(&many).map(|_| ()), refused(6, 204));
    many[215] = 2;
    assert_eq!(read_junction(&many).map(|_| ()), refused(5, 204));
    let mut zones = whole_case();
    zones.zones = vec![zones.zones[0]; 65];
    zones.zones[64].b = 9;
    assert_eq!(read_junction(&zones.to_file()).map(|_| ()), refused(6, 36 + 64 * 13));
    zones.zones[64].clearing_a = 1000;
    assert_eq!(read_junction(&zones.to_file()).map(|_| ()), refused(5, 36 + 64 * 13));
    // shares 255 + 1 do not wrap
    let mut shares = bytes_of(WC);
    shares[22] = 255;
    shares[23] = 1;
    assert_eq!(read_junction(&shares).map(|_| ()), refused(5, 8));
    // figures that a car does not use are still in range
    let mut wide = whole_case();
    wide.streams[0] = car(1, Car { radius: 100, width: 299, ..CAR });
    assert_eq!(read_junction(&wide.to_file()).map(|_| ()), refused(5, 8));
    wide.streams[0] = car(1, Car { rows: 3, ..CAR });
    assert_eq!(read_junction(&wide.to_file()).map(|_| ()), refused(5, 8));
    // 8: phases exactly 1 to f, f at least 2
    assert_eq!(changed(28, 3), refused(8, 60));
    assert_eq!(read_junction(&bytes_of(WC)[..24]).map(|_| ()), refused(8, 24));
    assert_eq!(read_junction(&bytes_of(WC)[..8]).map(|_| ()), refused(8, 8));
    // exactly 16,384 bytes is within 1
    assert_eq!(reads("00*16384"), refused(3, 0));
    assert_eq!(reads("00*16385"), refused(1, 0));
}

#[test]
fn plan_files() {
    assert_eq!(judged("11 00 02 00 00 12 00 05 01 00 00 00 23 12 00 05 02 00 28 00"), refused(13, 0));
    assert_eq!(judged("99 ff ff"), refused(11, 0));
    assert_eq!(judged("11 00 02 00 32"), refused(12, 5));
    assert_eq!(judged(""), refused(12, 0));
    assert_eq!(judged("11 00 02 00 32 12"), refused(11, 5));
    assert_eq!(judged(&format!("{WP} 12")), refused(12, 21));
    assert_eq!(judged(&format!("{WP} 12 ff ff")), refused(12, 21));
    assert_eq!(judged("11 00 02 00 32 12 00 05 01 00 00 00 23 12 00 05 02 00 32 00 06 00"), refused(13, 13));
    assert_eq!(judged("11 00 02 00 32 12 00 05 02 00 00 00 23 12 00 05 02 00 28 00 06"), refused(12, 5));
    assert_eq!(judged(&format!("{WP} 00*200000")), refused(12, 21));
    // the junction first
    assert_eq!(judge(&[], &[]), refused(8, 0));
}

#[test]
fn times_and_entries() {
    let two_zones = Junction {
        zones: vec![zone(1, 2, 0, 0, 0, 0), zone(1, 2, 140, 75, 70, 0)],
        ..whole_case()
    };
    assert_eq!(judge(&two_zones.to_file(), &plan_file(50, &[(0, 35), (39, 6)])), refused(17, 1));
    assert_eq!(judge(&two_zones.to_file(), &bytes_of(WP)), Ok(()));
    // amber 5, l 0, to a standing car r 75
    let amber = junction(&[car(1, Car { amber: 5, ..CAR }), car(2, CAR)], &[zone(1, 2, 0, 0, 0, 75)], &[]);
    assert_eq!(entry(&amber, 1, 2), 4);
    // a straight car with shares leaves as straight
    let shares = junction(&[car(1, Car { left: 50, ..CAR }), cyclist(2)], &[zone(1, 2, 140, 0, 0, 0)], &[]);
    assert_eq!(entry(&shares, 1, 2), 5);
    // (11') has no tram length in it: 12.1; the floor under it has, since 2026-02: root of 500/5 = 10, of 1,000/5 = 14.14
    for (length, seconds) in [(100, 13), (600, 15)] {
        let j = junction(&[tram(1, true, length, 10), cyclist(2)], &[zone(1, 2, 511, 0, 0, 0)], &[]);
        assert_eq!(entry(&j, 1, 2), seconds);
    }
    // a pair without a zone
    let none = Junction { zones: vec![], ..whole_case() };
    assert_eq!((entry(&none, 1, 2), entry(&none, 2, 1)), (0, 0));
    assert_eq!(judge(&none.to_file(), &plan_file(50, &[(0, 50), (0, 50)])), Ok(()));
    // quotient, plus 3, rounded up, then at least 6
    assert_eq!(need(&walk(1, 10, 200, true).kind, 50), 6);
    assert_eq!(need(&walk(1, 37, 200, true).kind, 50), 7);
}

#[test]
fn lent_list_of_counts() {
    let record = |stream, count_day, file_day, flow| Count { stream, count_day, file_day, flow, period: 1 };
    let list = [
        record(0, 5, 9, 100),
        record(0, 6, 1, 200),
        record(0, 6, 9, 150),
        record(0, 7, 0, 0),
        record(0, 7, 0, 10_000),
        record(0, 8, 0, 300),
        record(255, 0, 0, 9_999),
    ];
    assert_eq!(flow_of_list(&list, 0, 7, 1), Ok(200));
    assert_eq!(flow_of_list(&list, 0, 8, 1), Ok(300));
    assert_eq!(flow_of_list(&list, 0, 5, 1), Ok(100));
    assert_eq!(flow_of_list(&list, 0, 4, 1), refused(9, 0));
    assert_eq!(flow_of_list(&list, 255, 0, 1), Ok(9_999));
    assert_eq!(flow_of_list(&list, 1, 65_535, 1), refused(9, 1));
    assert_eq!(flow_of_list(&[], 200, 65_535, 1), refused(9, 200));
    assert_eq!(flow_of_list(&vec![record(3, 1, 1, 7); 100_000], 3, 1, 1), Ok(7));
}

/// T0, the cycle and the tried count.
fn worked(j: &Junction) -> Result<(i64, i64, i64), Refusal> {
    work_out(&j.to_file(), &mut [0; 133]).map(|w| (w.first_length, w.cycle, w.tried))
}

#[test]
fn working_out() {
    // Two cars, nothing shared: M is 1, L is 0. (32): T x (10,000 - 6,234) >= 50,000: 14.
    // Greens of 8 need effective 9 twice: 17 gives 9 and 8, 18 gives 9 and 9.
    let cars = [car(1, CAR), car(2, CAR)];
    let flows = [count(1, 600), count(2, 600)];
    assert_eq!(worked(&junction(&cars, &[], &flows)), Ok((14, 18, 5)));
    // A cyclist phase stays with (32): L 7: T x 3,766 >= 155,000: 42. A pedestrian: (33): T x T x 3,766 >= 8,400,000: 48.
    let third = |s: Stream| junction(&[cars[0], cars[1], s], &[], &flows);
    assert_eq!(worked(&third(cyclist(3))).unwrap().0, 42);
    assert_eq!(worked(&third(walk(3, 10, 200, false))).unwrap().0, 48);
    // also where the pedestrian stands in a phase with cars: then L is 0 and T0 is 1
    assert_eq!(worked(&third(walk(2, 10, 200, false))).unwrap(), (1, 18, 18));
    assert_eq!(worked(&third(tram(2, false, 300, 10))).unwrap().0, 1);

    // T0 takes trams at 10 s (L 11: 78), every tried length its own need: above 53 it is 20, L is 21, and
    // 1,500 x T <= 1,925 x (T - 21) from 96 on.
    let trams = junction(&[car(1, CAR), tram(2, false, 300, 34)], &[], &[count(1, 1500)]);
    assert_eq!(worked(&trams), Ok((78, 96, 19)));

    // T equal to L: no green. Whole case, L 14.
    let j = whole_case();
    let p = phases(&j, &Entries::of(&j));
    assert_eq!(lost_time(&j, &p, 14), 14);
    assert!(plan_for(&j, &p, 13).is_none() && plan_for(&j, &p, 14).is_none() && plan_for(&j, &p, 15).is_none());
    assert_eq!(plan_for(&j, &p, 16).unwrap().green(1).length, 1);

    // 21: y is 10,000. 22: y is 9,995, T0 far above 180; told before a short buffer. 23: unaltered.
    let with_flow = |flow| Junction { counts: vec![count(1, flow)], ..whole_case() };
    assert_eq!(worked(&with_flow(1925)), refused(21, 0));
    assert_eq!(worked(&with_flow(1924)), refused(22, 0));
    let far = with_flow(1924);
    assert!(first_length(&far, &phases(&far, &Entries::of(&far))) > 180);
    let mut short = [7; 20];
    assert_eq!(work_out(&with_flow(1925).to_file(), &mut short).map(|_| ()), refused(21, 0));
    assert_eq!(work_out(&with_flow(1924).to_file(), &mut short).map(|_| ()), refused(22, 0));
    assert_eq!(work_out(&with_flow(600).to_file(), &mut short).map(|_| ()), refused(23, 0));
    assert_eq!(work_out(&[], &mut short).map(|_| ()), refused(8, 0));
    assert_eq!(short, [7; 20]);
    assert!(work_out(&bytes_of(WC), &mut [0; 21]).is_ok());

    // M looks at the next phase alone: the tram's 13 s to the car outlast the cyclist, and the car always starts at 18.
    let three = junction(
        &[tram(1, true, 600, 10), cyclist(2), car(3, CAR)],
        &[zone(1, 3, 400, 0, 0, 75)],
        &[count(3, 300)],
    );
    assert_eq!(worked(&three), refused(22, 0));
}

// ---- request 2026-01: crossings with an island

/// The whole case with kind 5 in the place of kind 3: wider carriageway 60, island 20, packet 40.
const ISLAND_CASE: &str = "01 00 05 00 07 23 28 01 02 00 0d 01 01 03 00 00 00 01 5e 01 0a 02 00 00 \
                           02 00 0f 05 02 0c 00 46 00 c8 00 00 00 3c 00 14 00 28 \
                           03 00 0a 01 02 00 8c 00 4b 00 46 00 00 04 00 08 01 23 28 00 00 02 58 01";

/// The place of its island's tag, and its island's body.
const ISLAND_AT: usize = 24;
const ISLAND_BODY: Range<usize> = 27..42;

fn island_case() -> Junction {
    let mut j = whole_case();
    j.streams[1] = with_island(j.streams[1], 60, 20, 40);
    j
}

/// Needs worked out by hand from document 02: V, people an hour, disturbed; B, u, P; and the need.
const NEEDS: [(u16, u16, bool, u16, u16, u16, i64); 23] = [
    // 40/12 = 3.33, 70/12 = 5.83: the crossing decides, up to 6
    (70, 200, false, 10, 10, 20, 6),
    // 72/12 = 6 exactly
    (70, 200, false, 22, 20, 30, 6),
    // 73/12 = 6.08, 75/12 = 6.25
    (70, 200, false, 23, 20, 30, 7),
    (70, 200, false, 20, 20, 35, 7),
    // 120/12 = 10 exactly, 121/12 = 10.08; a decimetre more of the island counts as one of the carriageway
    (70, 200, false, 60, 20, 40, 10),
    (70, 200, false, 61, 20, 40, 11),
    (70, 200, false, 60, 21, 40, 11),
    (70, 200, false, 60, 20, 45, 11),
    // 120/16 = 7.5 since the people are few; the packet's quotient has 12 all the same: 120/12 = 10
    (120, 120, false, 60, 20, 40, 10),
    // both are 10; plus 3
    (120, 200, true, 60, 20, 40, 13),
    // the crossing decides: 120/12 = 10, 120/16 = 7.5, 121/16 = 7.56, 40/12 = 3.33
    (120, 200, false, 10, 10, 20, 10),
    (120, 121, false, 10, 10, 20, 10),
    (120, 120, false, 10, 10, 20, 8),
    (121, 200, false, 10, 10, 20, 8),
    // 600/16 = 37.5, plus 3: 40.5
    (600, 200, true, 10, 10, 20, 41),
    // 40/12 = 3.33, at least 6; plus 3 is 6.33
    (10, 0, false, 10, 10, 20, 6),
    (10, 0, true, 10, 10, 20, 7),
    // 155/12 = 12.92 and 200/16 = 12.5; 150/12 = 12.5, the same; 145/12 = 12.08, below it; 140/12 = 11.67, which alone would be 12
    (200, 500, false, 70, 20, 65, 13),
    (200, 500, false, 65, 20, 65, 13),
    (200, 500, true, 60, 20, 65, 16),
    (200, 500, false, 70, 20, 50, 13),
    // 1,400/12 = 116.67, plus 3: 119.67
    (600, 200, false, 600, 600, 200, 117),
    (600, 200, true, 600, 600, 200, 120),
];

#[test]
fn needs_of_islands() {
    for (crossing, people, disturbed, b, u, p, seconds) in NEEDS {
        let stream = with_island(walk(2, crossing, people, disturbed), b, u, p);
        for cycle in [1, 50, 180] {
            assert_eq!(need(&stream.kind, cycle), seconds, "{stream:?}");
        }
        let file = Junction { streams: vec![car(1, CAR), stream], ..whole_case() };
        assert_eq!(read_junction(&file.to_file()), Ok(file));
    }
}

/// The island case with this body in the place of its island's.
fn with_body(body: &[u8]) -> Result<(), Refusal> {
    let file = bytes_of(ISLAND_CASE);
    let length = (body.len() as u16).to_be_bytes();
    let other = [&file[..ISLAND_AT + 1], &length[..], body, &file[ISLAND_BODY.end..]].concat();
    read_junction(&other).map(|_| ())
}

/// The island case with these bytes at this place of its island's body.
fn with_bytes(at: usize, bytes: &[u8]) -> Result<(), Refusal> {
    let mut body = bytes_of(ISLAND_CASE)[ISLAND_BODY].to_vec();
    body[at..at + bytes.len()].copy_from_slice(bytes);
    with_body(&body)
}

#[test]
fn lengths_of_islands() {
    let file = bytes_of(ISLAND_CASE);
    assert_eq!(read_junction(&file), Ok(island_case()));
    assert_eq!(island_case().to_file(), file);
    // every length but 15 is 4, and where numbers are out of range too
    for length in (1..15).chain([16, 17, 271]) {
        let mut body = file[ISLAND_BODY].to_vec();
        body.resize(length, 0);
        assert_eq!(with_body(&body), refused(4, ISLAND_AT), "{length} bytes");
        body[1..].fill(255);
        assert_eq!(with_body(&body), refused(4, ISLAND_AT), "{length} bytes");
    }
    // the other known kinds of 15 bytes are 4, unknown ones 5
    for kind in 1..=4 {
        assert_eq!(with_bytes(0, &[kind]), refused(4, ISLAND_AT));
    }
    for unknown in unknown_kinds() {
        assert_eq!(with_bytes(0, &[unknown]), refused(5, ISLAND_AT));
    }
}

#[test]
fn numbers_of_islands() {
    let answer = |good: bool| if good { Ok(()) } else { refused(5, ISLAND_AT) };
    for number in 0..=65_535u16 {
        let with_number = |at| with_bytes(at, &number.to_be_bytes());
        assert_eq!(with_number(3), answer((10..=600).contains(&number)), "crossing {number}");
        assert_eq!(with_number(5), answer(number <= 9_999), "people {number}");
        assert_eq!(with_number(9), answer((10..=600).contains(&number)), "wider carriageway {number}");
        assert_eq!(with_number(11), answer((10..=600).contains(&number)), "island {number}");
        assert_eq!(with_number(13), answer((20..=200).step_by(5).any(|p| p == number)), "packet {number}");
    }
    for byte in 0..=255 {
        assert_eq!(with_bytes(2, &[byte]), answer((12..=15).contains(&byte)), "speed {byte}");
        assert_eq!(with_bytes(7, &[byte]), answer(byte <= 1), "reach counted {byte}");
        assert_eq!(with_bytes(8, &[byte]), answer(byte <= 1), "disturbed {byte}");
    }
    for phase in [0, 7, 255] {
        assert_eq!(with_bytes(1, &[phase]), refused(5, ISLAND_AT), "phase {phase}");
    }
    // the 17th stream is 6, or 5 where a number is out of range
    let mut many = island_case();
    many.streams.resize(17, many.streams[1]);
    assert_eq!(read_junction(&many.to_file()).map(|_| ()), refused(6, ISLAND_AT + 15 * 18));
    many.streams[16] = with_island(walk(2, 70, 200, false), 60, 20, 41);
    assert_eq!(read_junction(&many.to_file()).map(|_| ()), refused(5, ISLAND_AT + 15 * 18));
}

// In all else kind 5 counts as a pedestrian.

#[test]
fn islands_leave_and_reach_as_pedestrians() {
    for (speed, reach_counted) in (12..=15).flat_map(|speed| [(speed, false), (speed, true)]) {
        let figures = Pedestrian { speed, crossing: 70, people: 200, reach_counted, disturbed: false };
        let walker = Stream { phase: 2, kind: Kind::Pedestrian(figures) };
        let island = with_island(walker, 600, 600, 200);
        for distance in 0..=999 {
            assert_eq!(leaving(&island.kind, distance), leaving(&walker.kind, distance));
            assert_eq!(reaching(&island.kind, distance), reaching(&walker.kind, distance));
        }
    }
    // the whole case's entries
    let j = island_case();
    assert_eq!((entry(&j, 1, 2), entry(&j, 2, 1)), (5, 4));
}

#[test]
fn islands_have_no_flow() {
    // a count that names one: 7 at the count's tag
    let mut counted = bytes_of(ISLAND_CASE);
    assert_eq!((counted[55], counted[58]), (4, 1));
    counted[58] = 2;
    assert_eq!(read_junction(&counted).map(|_| ()), refused(7, 55));
    // no car: 8
    let none = junction(&[with_island(walk(1, 70, 200, false), 60, 20, 40), cyclist(2)], &[], &[]);
    assert_eq!(read_junction(&none.to_file()).map(|_| ()), refused(8, none.to_file().len()));
    // no capacity rule: 10 s are enough in any cycle, and 9 are refused by the need alone
    for cycle in [50, 180] {
        let plan = |green| plan_file(cycle, &[(0, cycle - 20), (cycle - 15, green)]);
        assert_eq!(judge(&island_case().to_file(), &plan(10)), Ok(()));
        assert_eq!(judge(&island_case().to_file(), &plan(9)), refused(15, 2));
        assert_eq!(judge(&whole_case().to_file(), &plan(9)), Ok(()));
    }
}

/// An island alone brings (33), where cyclists stay with (32). L is 7, as for the pedestrian who crosses 10 dm.
#[test]
fn islands_bring_33() {
    let flows = [count(1, 600), count(2, 600)];
    let third = |s: Stream| junction(&[car(1, CAR), car(2, CAR), s], &[], &flows);
    assert_eq!(worked(&third(with_island(walk(3, 10, 200, false), 10, 10, 20))).unwrap().0, 48);
    assert_eq!(worked(&third(with_island(walk(2, 10, 200, false), 10, 10, 20))).unwrap(), (1, 18, 18));
}

/// The whole case with an island, worked out by hand: the need is 10, L is 5 - 1 + 10 + 4 = 18, and (33) asks for
/// T x T x 6,883 >= 21,600,000: 57. Effective green 39, green 38; the island starts at 38 + 5.
#[test]
fn working_out_with_an_island() {
    let j = island_case();
    let p = phases(&j, &Entries::of(&j));
    assert_eq!(lost_time(&j, &p, 57), 18);
    let mut buffer = [0; 21];
    let worked = work_out(&bytes_of(ISLAND_CASE), &mut buffer).unwrap();
    assert_eq!((worked.first_length, worked.cycle, worked.tried), (57, 57, 1));
    assert_eq!(buffer[..], plan_file(57, &[(0, 38), (43, 10)]));
    assert_eq!(judge(&bytes_of(ISLAND_CASE), &buffer), Ok(()));
}

// ---- request 2026-02: trams past forty metres

/// A tram's length t, and the last clearing distance l at which the floor decides (400: at none). (11') is
/// 11.1 + (l - 400)/111 = (10 l + 8,321)/1,110, and the floor is the root of (400 + t)/5. So the floor decides where
/// (10 l + 8,321) squared is below 1,110 x 1,110/5 x (400 + t) = 246,420 x (400 + t). They are never equal: that asks for
/// a whole root k, and 10 l + 8,321 = 1,110 k ends in 1 on the one side and in 0 on the other.
const FLOOR_ENDS: [(u16, u16); 10] = [
    // the root is 10, 10.1 and 11: below 11.1
    (100, 400),
    (110, 400),
    (205, 400),
    // 246,420 x 617 = 152,041,140; l 401: 12,331 squared = 152,053,561 is above
    (217, 400),
    // 246,420 x 618 = 152,287,560; 152,053,561 is below; l 402: 12,341 squared = 152,300,281 is above
    (218, 401),
    // the root of 144 is 12 = 13,320/1,110; l 499: 13,311; l 500: 13,321
    (320, 499),
    // 246,420 x 725 = 178,654,500; l 504: 13,361 squared = 178,516,321; l 505: 13,371 squared = 178,783,641
    (325, 504),
    // the root of 169 is 13 = 14,430/1,110; l 610: 14,421; l 611: 14,431
    (445, 610),
    // the root of 196 is 14 = 15,540/1,110; l 721: 15,531; l 722: 15,541
    (580, 721),
    // 246,420 x 1,000 = 246,420,000; l 737: 15,691 squared = 246,207,481; l 738: 15,701 squared = 246,521,401
    (600, 737),
];

#[test]
fn where_the_floor_ends() {
    for (length, last) in FLOOR_ENDS {
        let (stop, t) = (tram(1, true, length, 10).kind, length as i128);
        for l in 0..=999u16 {
            let time = match l {
                0..=400 => Time::root(fraction(l as i128 + t, 5)),
                _ if l <= last => Time::root(fraction(400 + t, 5)),
                _ => Time::plain(fraction(10 * l as i128 + 8_321, 1_110)),
            };
            assert_eq!(leaving(&stop, l), time, "length {length}, l {l}");
        }
    }
}

/// The entry from a stop tram of this length, with this clearing distance, to this stream with this reaching distance.
fn from_stop(length: u16, l: u16, to: Stream, r: u16) -> i128 {
    entry(&junction(&[tram(1, true, length, 10), to], &[zone(1, 2, l, 0, 0, r)], &[]), 1, 2)
}

/// To an uncounted pedestrian, who reaches after 0 s: the length t, l and the entry.
const TO_PEDESTRIAN: [(u16, u16, i128); 26] = [
    // root of 500/5 = 10; (11') from l 401 on: 11.109, and no floor. The step upward at 401 stays
    (100, 400, 10),
    (100, 401, 12),
    (100, 499, 12),
    (100, 500, 13),
    // root of 605/5 = 11; 11.109
    (205, 400, 11),
    (205, 401, 12),
    // root of 719/5 = 11.99 and of 720/5 = 12 exactly; (11') at 499: 11.992, at 500: 12.0009
    (319, 401, 12),
    (320, 400, 12),
    (320, 401, 12),
    (320, 499, 12),
    (320, 500, 13),
    // root of 721/5 = 12.008
    (321, 401, 13),
    // root of 725/5 = 12.04; (11') at 505: 12.046, at 610: 12.992, at 611: 13.0009
    (325, 400, 13),
    (325, 401, 13),
    (325, 504, 13),
    (325, 505, 13),
    (325, 611, 14),
    // root of 845/5 = 13 exactly; at 611: 13.0009
    (445, 401, 13),
    (445, 610, 13),
    (445, 611, 14),
    // root of 1,000/5 = 14.14; (11') at 738: 14.145, at 832: 14.992, at 833: 15.0009, at 999: 16.496
    (600, 401, 15),
    (600, 511, 15),
    (600, 738, 15),
    (600, 832, 15),
    (600, 833, 16),
    (600, 999, 17),
];

/// To a standing car, which reaches after the root of (r + 15)/10, less 1: the length t, l, r and the entry.
const TO_STANDING_CAR: [(u16, u16, u16, i128); 15] = [
    // r 75: root of 9, less 1 = 2. 12 - 2 = 10 exactly; r 74: root of 8.9, less 1 = 1.98: 10.02. l 500: 12.0009 - 2
    (320, 401, 75, 10),
    (320, 401, 74, 11),
    (320, 499, 75, 10),
    (320, 500, 75, 11),
    // 12.04 - 2 = 10.04; r 78: root of 9.3, less 1 = 2.0496: 9.992; r 77: root of 9.2, less 1 = 2.033: 10.008
    (325, 401, 75, 11),
    (325, 401, 77, 11),
    (325, 401, 78, 10),
    (325, 504, 78, 10),
    // (11') at 505: 12.0459 - 2.0496 = 9.996, at 506: 12.055 - 2.0496 = 10.005
    (325, 505, 78, 10),
    (325, 506, 78, 11),
    // 14.142 - 2 = 12.14; r 84: root of 9.9, less 1 = 2.146: 11.996; r 83: root of 9.8, less 1 = 2.130: 12.012
    (600, 511, 75, 13),
    (600, 511, 84, 12),
    (600, 511, 83, 13),
    // 11.109 - 2 = 9.1, no floor
    (217, 401, 75, 10),
    // r 985: root of 100, less 1 = 9: 12 - 9 = 3
    (320, 401, 985, 3),
];

/// To a flying car, which reaches after 9r/1000: where a few thousandths of a second decide. The length t, l, r and the entry.
const TO_FLYING_CAR: [(u16, u16, u16, i128); 17] = [
    // r 124: 1.116. 11.10901 - 1.116 = 9.993; the floor of 218 is the root of 123.6 = 11.11755: 10.0016
    (217, 401, 124, 10),
    (218, 401, 124, 11),
    // r 902: 8.118. 11.11755 - 8.118 = 2.9996; (11') at 402: 11.11802: 3.00002
    (218, 401, 902, 3),
    (218, 402, 902, 4),
    // r 893: 8.037. The floor 12.0416: 4.005, where (11') at 504, 12.03694, would give 3.99994
    (325, 504, 893, 5),
    // r 5: 0.045. 12.0416: 11.997; (11') at 505, 12.0459: 12.0009
    (325, 504, 5, 12),
    (325, 505, 5, 13),
    // r 460: 4.14. The floor 14.142: 10.002, where (11') at 737, 14.136, would give 9.996
    (600, 737, 460, 11),
    // r 16: 0.144. 14.142: 13.998; (11') at 738, 14.145: 14.001
    (600, 737, 16, 14),
    (600, 738, 16, 15),
    // r 900: 8.1. (11') at 511 is 12.1: 4 exactly; r 899: 4.009
    (325, 511, 900, 4),
    (325, 511, 899, 5),
    // (11') at 622 is 13.1: 5 exactly; the floor of 458 is the root of 171.6 = 13.0996, below; of 459 the root of 171.8 = 13.107
    (458, 622, 900, 5),
    (459, 622, 900, 6),
    // (11') at 733 is 14.1: 6 exactly; the floor of 594 is the root of 198.8 = 14.09965, below; of 595 the root of 199 = 14.107
    (594, 733, 900, 6),
    (595, 733, 900, 7),
    // 14.142 - 8.1 = 6.04
    (600, 733, 900, 7),
];

/// To a stop tram, which reaches after the root of (r + 15)/5: the length t, l, r and the entry.
const TO_STOP_TRAM: [(u16, u16, u16, i128); 7] = [
    // the root of 1,000/5 on both sides; r 984: the root of 999/5, less; l 738: 14.145 is above 14.142
    (600, 401, 985, 0),
    (600, 737, 985, 0),
    (600, 737, 984, 1),
    (600, 738, 985, 1),
    // r 110: root of 125/5 = 5: 14.142 - 5 = 9.14; 12 - 5 = 7 exactly; r 109: root of 124/5 = 4.98: 7.02
    (600, 401, 110, 10),
    (320, 401, 110, 7),
    (320, 401, 109, 8),
];

#[test]
fn entries_past_forty_metres() {
    for (length, l, seconds) in TO_PEDESTRIAN {
        assert_eq!(from_stop(length, l, walk(2, 70, 200, false), 0), seconds, "length {length}, l {l}");
    }
    for (length, l, r, seconds) in TO_STANDING_CAR {
        assert_eq!(from_stop(length, l, car(2, CAR), r), seconds, "length {length}, l {l}, r {r}");
    }
    for (length, l, r, seconds) in TO_FLYING_CAR {
        assert_eq!(from_stop(length, l, car(2, Car { flying: true, ..CAR }), r), seconds, "length {length}, l {l}, r {r}");
    }
    for (length, l, r, seconds) in TO_STOP_TRAM {
        assert_eq!(from_stop(length, l, tram(2, true, 300, 10), r), seconds, "length {length}, l {l}, r {r}");
    }
}

/// A car, and a stop tram of 325 dm, worked out by hand. The car leaves after 3 + 200/100 = 5 and reaches after 2, the tram
/// reaches after the root of 45/5 = 3: entries 2 and, with the floor, 12.04 - 2, up to 11. L is 2 - 1 + 10 + 11 = 22, and (33)
/// asks for T x T x 6,883 >= 26,400,000: 62. Effective green 40, green 39; the tram starts at 39 + 2.
#[test]
fn working_out_with_the_floor() {
    let with_clearing = |l| junction(&[car(1, CAR), tram(2, true, 325, 10)], &[zone(1, 2, 140, 75, l, 30)], &[count(1, 600)]);
    for l in [400, 401, 504] {
        let j = with_clearing(l);
        assert_eq!((entry(&j, 1, 2), entry(&j, 2, 1)), (2, 11));
        let mut buffer = [0; 21];
        let worked = work_out(&j.to_file(), &mut buffer).unwrap();
        assert_eq!((worked.first_length, worked.cycle, worked.tried), (62, 62, 1));
        assert_eq!(buffer[..], plan_file(62, &[(0, 39), (41, 10)]));
        assert_eq!(judge(&j.to_file(), &buffer), Ok(()));
        // one second later the tram leaves at 52 + 12.04, and the car reaches at 62 + 2
        let late = plan_file(62, &[(0, 39), (42, 10)]);
        assert_eq!(judge(&j.to_file(), &late), refused(17, 1));
        assert!(!meaning(&j, &read_plan(&late, &j).unwrap()));
    }
}

// ---- request 2026-03: two distances a direction

/// The whole case with other distances in its zone: the entries from 1 to 2 and from 2 to 1.
fn with_distances(clearing_a: u16, reaching_a: u16, clearing_b: u16, reaching_b: u16) -> (i128, i128) {
    let zones = [zone(1, 2, clearing_a, reaching_a, clearing_b, reaching_b)];
    let j = junction(&[car(1, CAR), walk(2, 70, 200, false)], &zones, &[count(1, 600)]);
    (entry(&j, 1, 2), entry(&j, 2, 1))
}

/// From a to b by clearing a and reaching b, from b to a by clearing b and reaching a.
#[test]
fn two_distances_a_direction() {
    // 3 + (140 + 60)/100 = 5, and the pedestrians reach at once; 70/12 = 5.83 less root of 90/10 - 1 = 2
    assert_eq!(with_distances(140, 75, 70, 0), (5, 4));
    // the car's 140 and the pedestrians' 0 as before, and the pedestrians leave at once
    assert_eq!(with_distances(140, 999, 0, 0), (5, 0));
    // the pedestrians' 70 and the car's 75 as before; the car's 3.6 is raised to amber + 1
    assert_eq!(with_distances(0, 75, 70, 999), (4, 4));
}

// ---- request 2026-04: morning, midday, evening

/// Places in the whole case: the heading's period, the count's tag, its flow and its period.
const HEADING_PERIOD: usize = 7;
const COUNT_AT: usize = 49;
const COUNT_FLOW: usize = 57;
const COUNT_PERIOD: usize = 59;

/// The whole case with these counts, planned in this period.
fn in_period(period: u8, counts: &[Count]) -> Junction {
    Junction { period, counts: counts.to_vec(), ..whole_case() }
}

/// One byte, 1 to 4, last in both bodies; any other number is 5 at the field's tag.
#[test]
fn periods_in_a_file() {
    for period in 0..=255 {
        let heading = match period {
            1 => Ok(()),
            2..=4 => refused(9, 1),
            0 | 5..=255 => refused(5, 0),
        };
        assert_eq!(changed(HEADING_PERIOD, period), heading, "heading {period}");
        let count = match period {
            1 => Ok(()),
            2..=4 => refused(9, 1),
            0 | 5..=255 => refused(5, COUNT_AT),
        };
        assert_eq!(changed(COUNT_PERIOD, period), count, "count {period}");
        // the same in both places
        let mut both = bytes_of(WC);
        both[HEADING_PERIOD] = period;
        both[COUNT_PERIOD] = period;
        let answer = if is_period(period as usize) { Ok(()) } else { refused(5, 0) };
        assert_eq!(read_junction(&both).map(|_| ()), answer, "both {period}");
    }
    // flow and period out of range: one refusal
    let mut both = bytes_of(WC);
    both[COUNT_FLOW..=COUNT_PERIOD].copy_from_slice(&[0, 0, 0]);
    assert_eq!(read_junction(&both).map(|_| ()), refused(5, COUNT_AT));
}

/// A heading of 5 bytes and a count of 8; the earlier 4 and 7 are refused, and every other length.
#[test]
fn lengths_with_a_period() {
    let file = bytes_of(WC);
    assert_eq!(file.len(), 60);
    for length in (0..=20usize).chain([256 + 5, 256 + 8]) {
        for filling in [1, 0, 255] {
            let mut heading = file[3..8].to_vec();
            heading.resize(length, filling);
            let other = [&[1], &(length as u16).to_be_bytes()[..], &heading, &file[8..]].concat();
            let answer = if length == 5 { Ok(()) } else { refused(4, 0) };
            assert_eq!(read_junction(&other).map(|_| ()), answer, "heading of {length} bytes");
            let mut count = file[COUNT_AT + 3..].to_vec();
            count.resize(length, filling);
            let other = [&file[..COUNT_AT + 1], &(length as u16).to_be_bytes()[..], &count].concat();
            let answer = if length == 8 { Ok(()) } else { refused(4, COUNT_AT) };
            assert_eq!(read_junction(&other).map(|_| ()), answer, "count of {length} bytes");
        }
    }
}

/// 5 comes before 6 and 7, and counts of every period count toward 128.
#[test]
fn periods_in_the_order_of_questions() {
    let at = |count: usize| COUNT_AT + count * 11;
    let mut j = in_period(3, &[count_in(1, 600, 2); 128]);
    assert_eq!(read_junction(&j.to_file()).map(|_| ()), refused(9, 1));
    j.counts[77].period = 3;
    assert_eq!(read_junction(&j.to_file()), Ok(j.clone()));
    j.counts.push(count_in(1, 600, 4));
    assert_eq!(read_junction(&j.to_file()).map(|_| ()), refused(6, at(128)));
    j.counts[128].period = 5;
    assert_eq!(read_junction(&j.to_file()).map(|_| ()), refused(5, at(128)));
    j.counts[5] = count_in(2, 600, 4);
    assert_eq!(read_junction(&j.to_file()).map(|_| ()), refused(7, at(5)));
    j.counts[5].period = 0;
    assert_eq!(read_junction(&j.to_file()).map(|_| ()), refused(5, at(5)));
    // the heading's period before every other field
    j.period = 0;
    assert_eq!(read_junction(&j.to_file()).map(|_| ()), refused(5, 0));
}

/// A car's flow is chosen among counts of the heading's period.
#[test]
fn flows_in_a_period() {
    let day = |count_day, flow, period| Count { stream: 1, count_day, file_day: 0, flow, period };
    let flow = |period, counts: &[Count]| read_junction(&in_period(period, counts).to_file()).map(|j| j.flow(1).expect("question 9"));
    // a newer and larger count of another period has no effect
    let counts = [day(8_000, 600, 1), day(9_000, 900, 2)];
    assert_eq!((flow(1, &counts), flow(2, &counts)), (Ok(600), Ok(900)));
    assert_eq!((flow(3, &counts), flow(4, &counts)), (refused(9, 1), refused(9, 1)));
    // in the period, the newest not after the design day; of equals, the larger
    let counts = [day(8_999, 500, 4), day(8_999, 501, 4), day(8_998, 9_999, 4), day(9_001, 700, 4), day(9_000, 800, 3)];
    assert_eq!((flow(4, &counts), flow(3, &counts)), (Ok(501), Ok(800)));
    // only after the design day in the period
    assert_eq!(flow(4, &counts[3..]), refused(9, 1));
    // each car by itself: the second has none in the period
    let counts = [count_in(1, 600, 1), count_in(1, 500, 2), count_in(2, 400, 2)];
    let two_cars = |period| Junction { period, ..junction(&[car(1, CAR), car(2, CAR)], &[], &counts) };
    assert_eq!(read_junction(&two_cars(1).to_file()).map(|_| ()), refused(9, 2));
    assert_eq!(read_junction(&two_cars(2).to_file()).map(|j| (j.flow(1), j.flow(2))), Ok((Some(500), Some(400))));
    assert_eq!(read_junction(&two_cars(3).to_file()).map(|_| ()), refused(9, 1));
}

/// The same counts planned in two periods. Heading 2: y is 10,000 x 900/1,925, up to 4,676, L is 14, and (33) asks for
/// T x T x 5,324 >= 16,800,000: 57. Effective green 43, green 42; the pedestrian starts at 42 + 5.
#[test]
fn working_out_in_a_period() {
    let counts = [count_in(1, 600, 1), count_in(1, 900, 2)];
    let mut buffer = [0; 21];
    let one = work_out(&in_period(1, &counts).to_file(), &mut buffer).unwrap();
    assert_eq!((one.first_length, one.cycle), (50, 50));
    assert_eq!(buffer[..], bytes_of(WP));
    let two = work_out(&in_period(2, &counts).to_file(), &mut buffer).unwrap();
    assert_eq!((two.first_length, two.cycle), (57, 57));
    assert_eq!(buffer[..], plan_file(57, &[(0, 42), (47, 6)]));
}

/// A plan is judged against the flow of the heading's period: 1,400 x 50 = 70,000 is more than 1,925 x 36 = 69,300.
#[test]
fn judging_in_a_period() {
    let counts = [count_in(1, 600, 1), count_in(1, 1_400, 2), count_in(1, 1_386, 4)];
    let judged = |period| judge(&in_period(period, &counts).to_file(), &bytes_of(WP));
    assert_eq!(judged(1), Ok(()));
    assert_eq!(judged(2), refused(16, 1));
    assert_eq!(judged(3), refused(9, 1));
    // 1,386 x 50 = 69,300
    assert_eq!(judged(4), Ok(()));
}

/// In a lent list a period outside 1 to 4, asked for or in a record, matches nothing.
#[test]
fn periods_of_a_lent_list() {
    let record = |count_day, flow, period| Count { stream: 1, count_day, file_day: 0, flow, period };
    let list = [record(9_000, 600, 1), record(9_000, 700, 2), record(8_999, 9_999, 5), record(9_000, 800, 0)];
    let asked = |period| flow_of_list(&list, 1, 9_000, period);
    assert_eq!((asked(1), asked(2)), (Ok(600), Ok(700)));
    for none in [3, 4, 0, 5, 6, 255, 256, 257, 258, 65_537, (1 << 32) + 1, usize::MAX] {
        assert_eq!(asked(none), refused(9, 1), "period {none}");
    }
    // a record of the same number as is asked for, for every byte
    for period in 0..=255u8 {
        let answer = if is_period(period as usize) { Ok(600) } else { refused(9, 1) };
        assert_eq!(flow_of_list(&[record(9_000, 600, period)], 1, 9_000, period as usize), answer, "period {period}");
        assert_eq!(flow_of_list(&[record(9_000, 600, period)], 1, 9_000, period as usize + 256), refused(9, 1));
    }
    // place: the stream asked for, whatever it is
    assert_eq!(flow_of_list(&list, 300, 9_000, 1), refused(9, 300));
    assert_eq!(flow_of_list(&list, usize::MAX, 9_000, 0), refused(9, usize::MAX));
}

// ---- request 2026-05: delay and level of service

/// Length, cycle, flow and S; then the bits of the delay, and its level.
const DELAYS: [(u16, u16, u16, i64, u64, char); 22] = [
    // the whole case; and length + 1 a second below the cycle
    (35, 50, 600, 1925, 0x400ba3e6c2ee7cec, 'A'),
    (48, 50, 600, 1925, 0x3fda77fa35ca797b, 'A'),
    // exact capacity, u just below 1
    (10, 20, 1485, 2700, 0x4341745d1745d175, 'F'),
    (13, 25, 616, 1100, 0x434509f959c427e5, 'F'),
    // 25 s: exactly; the real number is 25, and it comes out one step below or above
    (17, 60, 642, 2700, 0x4039000000000000, 'A'),
    (22, 69, 378, 1620, 0x4038ffffffffffff, 'A'),
    (55, 112, 1296, 3240, 0x4039000000000001, 'B'),
    // 35 s: exactly, and one step above
    (55, 140, 756, 2700, 0x4041800000000000, 'B'),
    (20, 35, 1566, 2700, 0x4041800000000001, 'C'),
    // 50 s: exactly, and above
    (29, 108, 810, 3240, 0x4049000000000000, 'C'),
    (68, 180, 574, 1980, 0x404900000840f6c0, 'D'),
    // 70 s: exactly, below and above
    (47, 160, 1008, 3600, 0x4051800000000000, 'D'),
    (21, 158, 196, 2075, 0x40517ffff798d269, 'D'),
    (9, 144, 95, 2475, 0x405180000390cebf, 'E'),
    // 100 s: exactly, below, and above, where the real number is 100
    (26, 171, 588, 3990, 0x4059000000000000, 'E'),
    (106, 146, 1648, 2275, 0x4058ffff6f0047f6, 'E'),
    (124, 136, 1849, 2030, 0x40590000209f8ddb, 'F'),
    (8, 153, 144, 3060, 0x4059000000000002, 'F'),
    // the needed green at the longest cycle; one unit below capacity; the least flow; the greatest flow and S
    (8, 180, 90, 1925, 0x4073f0e86815c198, 'F'),
    (35, 50, 1385, 1925, 0x4099647a5ec68303, 'F'),
    (35, 50, 1, 1925, 0x3ffc408e5b282266, 'A'),
    (147, 180, 9999, 12285, 0x403d7abd70263ddd, 'B'),
];

/// Length, cycle, flow and S, all at exact capacity; then the bits of the saturation.
const SATURATIONS: [(u16, u16, u16, i64, u64); 3] = [
    (49, 100, 1350, 2700, 0x3ff0000000000000),
    (35, 50, 1386, 1925, 0x3ff0000000000000),
    (13, 55, 280, 1100, 0x3ff0000000000001),
];

#[test]
fn delays_over_numbers() {
    for (length, cycle, flow, s, bits, level) in DELAYS {
        let answer = figures(length, cycle, flow, s).delay();
        let Delay::Seconds(d) = answer else { panic!("{length} of {cycle}, {flow} of {s}: {answer:?}") };
        assert_eq!((d.to_bits(), answer.level()), (bits, level), "{length} of {cycle}, {flow} of {s}: {d}");
    }
    for (length, cycle, flow, s, bits) in SATURATIONS {
        assert_eq!(flow as i64 * cycle as i64, s * (length as i64 + 1));
        let answer = figures(length, cycle, flow, s).delay();
        let Delay::Oversaturated(u) = answer else { panic!("{length} of {cycle}, {flow} of {s}: {answer:?}") };
        assert_eq!((u.to_bits(), answer.level()), (bits, 'F'), "{length} of {cycle}, {flow} of {s}: {u}");
    }
    // g is 1 or more: no red, whatever the flow; tested before the saturation
    for (length, cycle) in [(7, 8), (8, 8), (49, 50), (50, 50), (179, 180), (180, 180)] {
        for flow in [1, 600, 1925, 9_999] {
            let answer = figures(length, cycle, flow, 1925).delay();
            assert_eq!((answer, answer.level()), (Delay::NoRed, 'A'), "{length} of {cycle}, {flow}");
        }
    }
}

#[test]
fn figures_of_the_whole_case() {
    let f = figures(35, 50, 600, 1925);
    let bits = [f.g, f.u, f.a, f.b, f.d].map(f64::to_bits);
    assert_eq!(bits, [0x3fe70a3d70a3d70a, 0x3fdbb4a4046ed290, 0x3fad28ac8eb9ed71, 0x3fc5263ac2e53541, 0x400ba3e6c2ee7cec]);
    // exact capacity, u just below 1
    assert_eq!(figures(10, 20, 1485, 2700).u.to_bits(), 0x3fefffffffffffff);
    assert_eq!(figures(13, 25, 616, 1100).u.to_bits(), 0x3feffffffffffffe);
}

/// Another order, another factor or an operation less that is rounded would give other bits: so the order written is shown to matter.
#[test]
fn other_orders_give_other_bits() {
    let d = |f: u16, c: f64, a: f64, b: f64| 0.9 * (c * a + (3600.0 * b) / f as f64);
    // 3600 x (B/flow), and u as (flow/g)/S
    let f = figures(48, 50, 600, 1925);
    assert_eq!(d(600, 50.0, f.a, f.b).to_bits(), 0x3fda77fa35ca797b);
    assert_eq!((0.9 * (50.0 * f.a + 3600.0 * (f.b / 600.0))).to_bits(), 0x3fda77fa35ca797a);
    let u = 600.0 / f.g / 1925.0;
    let (a, b) = (((1.0 - f.g) * (1.0 - f.g)) / (2.0 * (1.0 - f.g * u)), (u * u) / (2.0 * (1.0 - u)));
    assert_eq!(d(600, 50.0, a, b).to_bits(), 0x3fda77fa35ca797d);
    // C x A and the sum fused; nine tenths by 9 and 10
    let f = figures(35, 50, 600, 1925);
    let fused = 50.0f64.mul_add(f.a, (3600.0 * f.b) / 600.0);
    assert_eq!((0.9 * fused).to_bits(), 0x400ba3e6c2ee7ced);
    assert_eq!((9.0 * (50.0 * f.a + (3600.0 * f.b) / 600.0) / 10.0).to_bits(), 0x400ba3e6c2ee7ced);
    // 1 - g x u fused
    let f = figures(35, 50, 305, 1925);
    let a = ((1.0 - f.g) * (1.0 - f.g)) / (2.0 * (-f.g).mul_add(f.u, 1.0));
    assert_eq!((f.d.to_bits(), d(305, 50.0, a, f.b).to_bits()), (0x4003683a3e01d1a4, 0x4003683a3e01d1a5));
    // the squares of A and B divided factor by factor
    let f = figures(35, 50, 304, 1925);
    let (a, b) = ((1.0 - f.g) * ((1.0 - f.g) / (2.0 * (1.0 - f.g * f.u))), f.u * (f.u / (2.0 * (1.0 - f.u))));
    assert_eq!(f.d.to_bits(), 0x400362be2094bb3b);
    assert_eq!(d(304, 50.0, a, f.b).to_bits(), 0x400362be2094bb3c);
    assert_eq!(d(304, 50.0, f.a, b).to_bits(), 0x400362be2094bb3a);
    // 0.9 times each addend: above 25, and so another level
    let f = figures(17, 60, 642, 2700);
    let apart = 0.9 * (60.0 * f.a) + 0.9 * ((3600.0 * f.b) / 642.0);
    assert_eq!((f.d, apart.to_bits()), (25.0, 0x4039000000000001));
    assert_eq!((Delay::Seconds(f.d).level(), Delay::Seconds(apart).level()), ('A', 'B'));
}

/// A up to 25, B up to 35, C up to 50, D up to 70, E up to 100, else F; of the delay as it is, not rounded.
#[test]
fn limits_of_the_levels() {
    assert_eq!(LEVELS, [(25.0, 'A'), (35.0, 'B'), (50.0, 'C'), (70.0, 'D'), (100.0, 'E')]);
    let level = |d: f64| Delay::Seconds(d).level();
    for (limit, this, next) in [(25.0, 'A', 'B'), (35.0, 'B', 'C'), (50.0, 'C', 'D'), (70.0, 'D', 'E'), (100.0f64, 'E', 'F')] {
        for d in [limit.next_down(), limit, limit - 0.4, limit - 9.9] {
            assert_eq!(level(d), this, "{d}");
        }
        for d in [limit.next_up(), limit + 0.000_001, limit + 0.4, limit + 9.9] {
            assert_eq!(level(d), next, "{d}");
        }
    }
    assert_eq!((level(0.1), level(1e16)), ('A', 'F'));
    assert_eq!((Delay::Oversaturated(1.0).level(), Delay::NoRed.level()), ('F', 'A'));
}

/// Numbers of no stream of the whole case, some of which are 1 if they are cut.
const NO_STREAMS: [usize; 11] = [0, 3, 16, 17, 255, 256, 257, 65_537, (1 << 32) + 1, usize::MAX - 254, usize::MAX];

/// The judge's refusal first; then 9 for a stream that is no car or does not exist, place the number asked for.
#[test]
fn delay_of_which_stream() {
    let (file, plan) = (bytes_of(WC), bytes_of(WP));
    assert_eq!(delay(&file, &plan, 1), Ok(Delay::Seconds(f64::from_bits(0x400ba3e6c2ee7cec))));
    assert_eq!(delay(&file, &plan, 2), refused(9, 2));
    let no_count = Junction { counts: vec![count_in(1, 600, 2)], ..whole_case() }.to_file();
    let much = Junction { counts: vec![count(1, 1_387)], ..whole_case() }.to_file();
    for stream in NO_STREAMS {
        assert_eq!(delay(&file, &plan, stream), refused(9, stream));
    }
    for stream in NO_STREAMS.into_iter().chain([1, 2]) {
        assert_eq!(delay(&[], &[], stream), refused(8, 0));
        assert_eq!(delay(&no_count, &plan, stream), refused(9, 1));
        assert_eq!(delay(&file, &[], stream), refused(12, 0));
        assert_eq!(delay(&file, &plan[..20], stream), refused(11, 13));
        assert_eq!(delay(&file, &plan_file(181, &[(0, 35), (40, 6)]), stream), refused(13, 0));
        assert_eq!(delay(&file, &plan_file(50, &[(0, 35), (40, 5)]), stream), refused(15, 2));
        assert_eq!(delay(&much, &plan, stream), refused(16, 1));
        assert_eq!(delay(&file, &plan_file(50, &[(0, 35), (39, 6)]), stream), refused(17, 1));
    }
    let kinds = [car(1, CAR), tram(2, false, 300, 10), walk(2, 70, 200, false), cyclist(2), car(2, CAR)];
    let mut every = junction(&kinds, &[], &[count(1, 600), count(5, 600)]);
    every.streams.push(with_island(kinds[2], 60, 20, 40));
    let plan = plan_file(50, &[(0, 35), (0, 10), (0, 9), (0, 8), (7, 49), (0, 10)]);
    for stream in [2, 3, 4, 6, 7, 256 + 1, 256 + 5] {
        assert_eq!(delay(&every.to_file(), &plan, stream), refused(9, stream));
    }
    assert_eq!(delay(&every.to_file(), &plan, 1), Ok(Delay::Seconds(f64::from_bits(0x400ba3e6c2ee7cec))));
    assert_eq!(delay(&every.to_file(), &plan, 5), Ok(Delay::NoRed));
}

/// A delay goes by the flow of the heading's period, and by no start.
#[test]
fn delay_by_flow_and_length() {
    let counts = [count_in(1, 600, 1), count_in(1, 900, 2), Count { count_day: 9_001, ..count_in(1, 1_000, 1) }];
    let seconds = |flow| Ok(Delay::Seconds(figures(35, 50, flow, 1925).d));
    assert_eq!(delay(&in_period(1, &counts).to_file(), &bytes_of(WP), 1), seconds(600));
    assert_eq!(delay(&in_period(2, &counts).to_file(), &bytes_of(WP), 1), seconds(900));
    assert_eq!(delay(&in_period(3, &counts).to_file(), &bytes_of(WP), 1), refused(9, 1));
    for by in 0..50 {
        let plan = plan_file(50, &[(by, 35), ((by + 40) % 50, 6)]);
        assert_eq!(delay(&bytes_of(WC), &plan, 1), seconds(600));
    }
}

// ---- request 2026-06: offsets along a street

/// The whole case with this plan file: what is answered to the offset, and the plan file afterwards.
fn shifted(plan: &[u8], offset: usize) -> (Result<(), Refusal>, Vec<u8>) {
    let mut file = plan.to_vec();
    let answer = shift(&bytes_of(WC), &mut file, offset);
    (answer, file)
}

/// The whole case's plan by some offsets, byte for byte.
#[test]
fn whole_case_shifted() {
    let by = |offset| shifted(&bytes_of(WP), offset);
    for (offset, bytes) in [
        (0, "11 00 02 00 32 12 00 05 01 00 00 00 23 12 00 05 02 00 28 00 06"),
        (1, "11 00 02 00 32 12 00 05 01 00 01 00 23 12 00 05 02 00 29 00 06"),
        (9, "11 00 02 00 32 12 00 05 01 00 09 00 23 12 00 05 02 00 31 00 06"),
        // 40 + 10 is the cycle
        (10, "11 00 02 00 32 12 00 05 01 00 0a 00 23 12 00 05 02 00 00 00 06"),
        (11, "11 00 02 00 32 12 00 05 01 00 0b 00 23 12 00 05 02 00 01 00 06"),
        (49, "11 00 02 00 32 12 00 05 01 00 31 00 23 12 00 05 02 00 27 00 06"),
    ] {
        assert_eq!(by(offset), (Ok(()), bytes_of(bytes)), "{offset}");
        assert_eq!(judged(bytes), Ok(()), "{offset}");
    }
    for offset in 0..50 {
        assert_eq!(by(offset), (Ok(()), plan_file(50, &[(offset as u16, 35), ((offset as u16 + 40) % 50, 6)])));
    }
}

/// 24 where the offset is C or more, place 0, as wide as the offset is: none is cut, and none taken modulo C.
#[test]
fn offsets_not_below_the_cycle() {
    let some = [50, 51, 60, 100, 150, 255, 256, 266, 306, 65_535, 65_536, 65_546, 65_585, 9_999_999];
    let wide = [(1 << 31) + 10, 1 << 32, (1 << 32) + 10, (1 << 63) + 10, 9_999_999_999_999_999_999, usize::MAX - 49, usize::MAX];
    for offset in some.into_iter().chain(wide) {
        assert_eq!(shifted(&bytes_of(WP), offset), (refused(24, 0), bytes_of(WP)), "{offset}");
    }
    // cycle 1: 0 is the only offset below it
    let least = plan_file(1, &[(0, 1), (0, 1)]);
    assert_eq!(shifted(&least, 0), (Ok(()), least.clone()));
    for offset in [1, 2, 256, 65_536, 1 << 32] {
        assert_eq!(shifted(&least, offset), (refused(24, 0), least.clone()), "{offset}");
    }
}

/// Sums up to 358, of which those above 255 need more than a byte.
#[test]
fn sums_of_start_and_offset() {
    let by = |cycle, starts: [u16; 2], offset| {
        let lengths = [cycle, 1];
        let (answer, file) = shifted(&plan_file(cycle, &[(starts[0], lengths[0]), (starts[1], lengths[1])]), offset);
        let plan = read_plan(&file, &whole_case()).expect("well-formed");
        assert_eq!((answer, plan.cycle, plan.green(1).length, plan.green(2).length), (Ok(()), cycle, lengths[0], lengths[1]));
        [plan.green(1).start, plan.green(2).start]
    };
    // 358 and 279
    assert_eq!(by(180, [179, 100], 179), [178, 99]);
    // 179 and 180; 180 and 181
    assert_eq!(by(180, [100, 101], 79), [179, 0]);
    assert_eq!(by(180, [100, 101], 80), [0, 1]);
    // 255 and 256; 256 and 257
    assert_eq!(by(180, [100, 101], 155), [75, 76]);
    assert_eq!(by(180, [178, 179], 78), [76, 77]);
    assert_eq!(by(180, [0, 1], 179), [179, 0]);
    assert_eq!(by(129, [128, 127], 128), [127, 126]);
    assert_eq!(by(128, [127, 0], 127), [126, 127]);
    assert_eq!(by(2, [0, 1], 1), [1, 0]);
}

/// The rules are not asked: a plan that the judge refuses by 15, 16 or 17 is shifted, and is judged alike afterwards.
#[test]
fn shifted_and_judged() {
    let much = Junction { counts: vec![count(1, 1_387)], ..whole_case() };
    for (junction, cycle, greens, offset, starts, judgement) in [
        (whole_case(), 50, [(0, 35), (40, 6)], 10, (10, 0), Ok(())),
        // 39 s after a start that is followed by 35 s of green and an entry of 5 s
        (whole_case(), 50, [(0, 35), (39, 6)], 11, (11, 0), refused(17, 1)),
        (whole_case(), 50, [(0, 35), (41, 6)], 9, (9, 0), refused(17, 1)),
        (whole_case(), 180, [(179, 100), (100, 20)], 179, (178, 99), refused(17, 1)),
        (whole_case(), 50, [(0, 35), (40, 5)], 10, (10, 0), refused(15, 2)),
        (whole_case(), 50, [(0, 7), (40, 6)], 49, (49, 39), refused(15, 1)),
        (whole_case(), 1, [(0, 1), (0, 1)], 0, (0, 0), refused(15, 1)),
        (much, 50, [(0, 35), (40, 6)], 30, (30, 20), refused(16, 1)),
    ] {
        let (file, before) = (junction.to_file(), plan_file(cycle, &greens));
        let after = plan_file(cycle, &[(starts.0, greens[0].1), (starts.1, greens[1].1)]);
        let mut lent = before.clone();
        assert_eq!((shift(&file, &mut lent, offset), &lent), (Ok(()), &after), "{greens:?}");
        assert_eq!((judge(&file, &before), judge(&file, &after)), (judgement, judgement), "{greens:?}");
        for plan in [before, after] {
            let plan = read_plan(&plan, &junction).expect("well-formed");
            assert_eq!(meaning(&junction, &plan), judgement.is_ok(), "{plan:?}");
        }
    }
}

/// The junction's questions, then the plan's, then 24; the lent bytes are the whole plan file, and a refusal changes none.
#[test]
fn questions_of_a_shift() {
    let files = [
        (bytes_of("00*16385"), 1, 0),
        (bytes_of(WC)[..59].to_vec(), 2, 49),
        (bytes_of(WC)[8..].to_vec(), 3, 0),
        (bytes_of("01 00 04 00 07 23 28"), 4, 0),
        (bytes_of("01 00 05 00 07 23 28 00"), 5, 0),
        (Junction { zones: vec![zone(1, 2, 140, 75, 70, 0); 65], ..whole_case() }.to_file(), 6, 36 + 64 * 13),
        (Junction { zones: vec![zone(1, 3, 140, 75, 70, 0)], ..whole_case() }.to_file(), 7, 36),
        (vec![], 8, 0),
        (Junction { counts: vec![count_in(1, 600, 2)], ..whole_case() }.to_file(), 9, 1),
    ];
    let cut = bytes_of(WP)[..20].to_vec();
    let longer = [bytes_of(WP), vec![0]].concat();
    let at_the_cycle = plan_file(50, &[(50, 35), (40, 6)]);
    for offset in [0, 10, 49, 50, 60, 99, 65_546, usize::MAX] {
        for (file, number, place) in &files {
            for plan in [&bytes_of(WP), &at_the_cycle, &cut, &vec![]] {
                let mut lent = plan.clone();
                assert_eq!((shift(file, &mut lent, offset), &lent), (refused(*number, *place), plan), "{offset}");
            }
        }
        for (plan, number, place) in [
            (vec![], 12, 0),
            (bytes_of("11"), 11, 0),
            (bytes_of(WP)[..5].to_vec(), 12, 5),
            (cut.clone(), 11, 13),
            (longer.clone(), 12, 21),
            (plan_file(50, &[(0, 35)]), 12, 13),
            (plan_file(50, &[(0, 35), (40, 6), (40, 6)]), 12, 21),
            (plan_file(0, &[(0, 35), (40, 6)]), 13, 0),
            (plan_file(181, &[(0, 35), (40, 6)]), 13, 0),
            (at_the_cycle.clone(), 13, 5),
            (plan_file(50, &[(0, 35), (50, 6)]), 13, 13),
            (plan_file(50, &[(0, 35), (40, 0)]), 13, 13),
            (plan_file(50, &[(0, 51), (40, 6)]), 13, 5),
        ] {
            assert_eq!(shifted(&plan, offset), (refused(number, place), plan), "{offset}");
        }
    }
}

/// Every stream's start is moved, and the kind of the stream does not matter.
#[test]
fn shifted_in_every_stream() {
    let walker = walk(2, 70, 200, false);
    let streams = [car(1, CAR), tram(2, true, 300, 10), walker, cyclist(2), with_island(walker, 60, 20, 40), car(2, CAR)];
    let junction = junction(&streams, &[], &[count(1, 600), count(6, 600)]);
    let mut plan = plan_file(50, &[(0, 35), (10, 10), (20, 9), (39, 8), (40, 10), (49, 25)]);
    assert_eq!(shift(&junction.to_file(), &mut plan, 11), Ok(()));
    assert_eq!(plan, plan_file(50, &[(11, 35), (21, 10), (31, 9), (0, 8), (1, 10), (10, 25)]));
    let sixteen: Vec<Stream> = (0..16).map(|i| car(i % 2 + 1, CAR)).collect();
    let counts: Vec<Count> = (1..=16).map(|s| count(s, 600)).collect();
    let greens = |offset: u16| (0..16).map(|i| ((i * 11 + offset) % 180, i + 1)).collect::<Vec<_>>();
    let mut plan = plan_file(180, &greens(0));
    assert_eq!(shift(&common::junction(&sixteen, &[], &counts).to_file(), &mut plan, 170), Ok(()));
    assert_eq!(plan, plan_file(180, &greens(170)));
}

// ---- request 2026-07: portable signals for road works

/// t and L in tenths, the cycle, and start and length of approaches 1 and 2; or the number of the refusal, whose place is 0.
fn at_works(numbers: [usize; 8]) -> Result<([i64; 3], [(u16, u16); 2]), u8> {
    match portable(&Works::of(numbers)) {
        Ok(p) => Ok(([p.clearing_time, p.lost_time, p.cycle], p.greens.map(|g| (g.start, g.length)))),
        Err(refusal) => {
            assert_eq!(refusal.place, 0, "{numbers:?}");
            Err(refusal.number)
        }
    }
}

/// 100 m at 30 km/h: 400 E/h of 1,800 and 300 of 1,800. The needed waiting lengths are 400 x 92/600 = 61 1/3 and 300 x 92/600 = 46.
const WORKS: [usize; 8] = [100, 30, 400, 1_800, 62, 300, 1_800, 47];

/// These works with some of the numbers, named by their places from 0, changed.
fn changed_works(changes: &[(usize, usize)]) -> Result<([i64; 3], [(u16, u16); 2]), u8> {
    let mut numbers = WORKS;
    for &(which, to) in changes {
        numbers[which] = to;
    }
    at_works(numbers)
}

#[test]
fn road_works() {
    // t = 3.6 x 120/30 = 14.4, L = 32.8. M is 17.4 rounded up, 18, and L of the planner 34. y is 2,222.2 and 1,666.7 rounded up, Y 3,890.
    // (32): T x 6,110 >= 560,000: 92 (91 x 6,110 is 556,010). Of 58 s, 33.1 and 24.9: 33 and 24, one left over: 34 and 24.
    assert_eq!(at_works(WORKS), Ok(([144, 328, 92], [(0, 33), (51, 23)])));
    // the other way round the second left over goes to the other: 25 and 33
    let turned = [100, 30, 300, 1_800, 47, 400, 1_800, 62];
    assert_eq!(at_works(turned), Ok(([144, 328, 92], [(0, 24), (42, 32)])));
    // equal approaches: Y 8,888, (32): T x 1,112 >= 200,000: 180. 170 s, 85 and 85, none left over.
    assert_eq!(at_works([10, 40, 2_222, 5_000, 667, 4_443, 9_999, 1_333]), Ok(([27, 94, 180], [(0, 84), (90, 84)])));
    // need: y 811 and 312, (32): T x 8,877 >= 470,000: 53. Of 25 s, 18.1 and 6.9; the first green of 8 for approach 2 is at
    // 61: of 33 s, 23.8 and 9.2.
    assert_eq!(at_works([80, 30, 150, 1_850, 300, 60, 1_925, 300]), Ok(([120, 280, 61], [(0, 23), (38, 8)])));
    // capacity: y 8,269 and 549, T0 170. Of 160 s, 150.04 and 9.96: 151 and 9, and 102 x 170 = 17,340 is above 1,861 x 9 = 16,749.
    assert_eq!(at_works([10, 40, 1_691, 2_045, 482, 102, 1_861, 30]), Ok(([27, 94, 171], [(0, 150), (156, 9)])));
    // the other way round approach 1 has 10 of the 160 s, and T0 works
    assert_eq!(at_works([10, 40, 102, 1_861, 29, 1_691, 2_045, 480]), Ok(([27, 94, 170], [(0, 9), (15, 149)])));
}

/// M is by the unrounded t: at 140 m and 25 km/h t is 23.04, which the table rounds to 23.0. That is the one place of the table where it
/// matters.
#[test]
fn m_by_the_unrounded_t() {
    // M 27 and L 52, and not 26 and 50; y 1,622 and 1,559, (32): T x 6,819 >= 830,000: 122. Of 70 s, 35.7 and 34.3: 36 and 34.
    assert_eq!(at_works([140, 25, 300, 1_850, 300, 300, 1_925, 300]), Ok(([230, 501, 122], [(0, 35), (62, 33)])));
    let mut differ = vec![];
    for stretch in stretches() {
        for speed in SPEEDS {
            let from_the_table = 3 + (table(stretch, speed).0 + 9) / 10;
            if from_the_table != intergreen(stretch, speed) {
                differ.push((stretch, speed, from_the_table, intergreen(stretch, speed)));
            }
        }
    }
    assert_eq!(differ, [(140, 25, 26, 27)]);
    // where t is whole, M is 3 more
    for (stretch, speed, t) in [(30, 30, 6), (80, 30, 12), (80, 40, 9), (130, 30, 18), (180, 40, 18), (230, 25, 36), (280, 40, 27)] {
        assert_eq!((table(stretch, speed).0, intergreen(stretch, speed)), (10 * t, t + 3));
    }
    assert_eq!((intergreen(10, 40), intergreen(300, 25)), (6, 50));
}

/// The answered L is the table's, that of the planner 2 x (M - 1): the two are the same where t is whole, and nowhere else.
#[test]
fn two_sorts_of_lost_time() {
    // with the table's 32.8 s (32) would give 89 s: T x 6,110 >= 542,000
    assert_eq!(at_works(WORKS).map(|(numbers, _)| (numbers[1], numbers[2])), Ok((328, 92)));
    for stretch in stretches() {
        for speed in SPEEDS {
            let (t, l) = table(stretch, speed);
            let of_the_planner = 20 * (intergreen(stretch, speed) - 1);
            // M is at least 3 + t and below 4 + t, so that 2 x (M - 1) is at least 2t + 4, and below 2t + 6
            assert!(l - 1 < of_the_planner && of_the_planner < l + 21, "{stretch} {speed}");
            assert_eq!(l == of_the_planner, 36 * (stretch + 20) % (10 * speed) == 0, "{stretch} {speed}");
            // L is by the unrounded t too
            assert!((l - 2 * t - 40).abs() <= 1, "{stretch} {speed}");
        }
    }
    // 20 m and 25 km/h: t 5.76, L 15.52
    assert_eq!(table(20, 25), (58, 155));
}

/// 25: a stretch from 10 to 300 by tens, and one of four speeds.
#[test]
fn listed_stretches_and_speeds() {
    let wide = [1 << 16, 1 << 32, 1 << 63, usize::MAX - 355];
    let light = |stretch, speed| at_works([stretch, speed, 90, 1_800, 200, 60, 1_500, 200]).map(|_| ());
    for stretch in (0..=700).chain(wide.map(|w| w + 100)) {
        let listed = stretch > 0 && stretch <= 300 && stretch % 10 == 0;
        assert_eq!(light(stretch, 30), if listed { Ok(()) } else { Err(25) }, "{stretch}");
    }
    for speed in (0..=700).chain(wide.map(|w| w + 30)) {
        let listed = [25, 30, 35, 40].contains(&speed);
        assert_eq!(light(100, speed), if listed { Ok(()) } else { Err(25) }, "{speed}");
    }
}

/// 26: each flow and each S from 1 to 9,999.
#[test]
fn flows_and_saturation_in_range() {
    for which in [2, 3, 5, 6] {
        for number in [0, 10_000, 10_001, 65_536, 65_536 + 400, (1 << 32) + 400, (1 << 63) + 400, usize::MAX] {
            assert_eq!(changed_works(&[(which, number)]), Err(26), "{which} {number}");
        }
        for number in [1, 9_999] {
            assert_ne!(changed_works(&[(which, number)]).err(), Some(26), "{which} {number}");
        }
    }
    // 1 an hour: y 6 and 1,667, and no green for approach 1; both: y 6 and 6, T0 57 (56.07), of 23 s 12 and 11
    assert_eq!(changed_works(&[(2, 1)]), Err(22));
    assert_eq!(changed_works(&[(2, 1), (5, 1)]), Ok(([144, 328, 57], [(0, 11), (29, 10)])));
}

/// 21 at Y of 10,000: y is 10,000 x flow/9,999 rounded up. 22 at Y of 9,999, and where T0 is above 180.
#[test]
fn road_works_without_a_cycle() {
    let by_flows = |one, two| at_works([10, 40, one, 9_999, 9_999, two, 9_999, 9_999]).map(|_| ());
    assert_eq!(by_flows(4_998, 4_999), Err(22)); // 4,999 and 5,000
    assert_eq!(by_flows(4_999, 4_999), Err(21)); // 5,000 twice
    assert_eq!(by_flows(4_999, 5_000), Err(21)); // 5,000 and 5,001
    assert_eq!(by_flows(9_999, 9_999), Err(21));
    // L 10: T x 1,112 >= 200,000 from 180 on, T x 1,111 from 181 on
    let at_180 = |flow| at_works([10, 40, 2_222, 5_000, 9_999, flow, 9_999, 9_999]).map(|(numbers, _)| numbers[2]);
    assert_eq!((at_180(4_443), at_180(4_444)), (Ok(180), Err(22)));
    // seven lengths from 174 on, and the capacity of approach 2 is short at each: of 164 to 170 s it has 9.6 to 9.97, and
    // 152 x 174 = 26,448 is above 2,929 x 9 = 26,361
    assert_eq!(at_works([10, 40, 2_363, 2_837, 5_000, 152, 2_929, 5_000]), Err(22));
    // with one of 10 it would do: the other way round there is a cycle
    assert_eq!(at_works([10, 40, 152, 2_929, 5_000, 2_363, 2_837, 5_000]).map(|(numbers, _)| numbers[2]), Ok(174));
}

/// 27 is strict, and asked of each approach.
#[test]
fn waiting_lengths() {
    let plan = at_works(WORKS);
    assert!(plan.is_ok());
    // 61 1/3 and 46
    for (waiting, enough) in [(0, false), (46, false), (60, false), (61, false), (62, true), (63, true), (1 << 32, true)] {
        assert_eq!(changed_works(&[(4, waiting)]), if enough { plan } else { Err(27) }, "{waiting}");
    }
    for (waiting, enough) in [(0, false), (1, false), (45, false), (46, false), (47, true), (48, true), (1 << 63, true)] {
        assert_eq!(changed_works(&[(7, waiting)]), if enough { plan } else { Err(27) }, "{waiting}");
    }
    // 600 times these does not fit 64 bits
    for waiting in [usize::MAX / 600, usize::MAX / 600 + 1, usize::MAX / 600 * 2, usize::MAX] {
        assert_eq!(changed_works(&[(4, waiting), (7, waiting)]), plan, "{waiting}");
    }
    assert_eq!(changed_works(&[(4, 47), (7, 62)]), Err(27));
    // no shorter cycle is sought: 100 x 64/600 is above 10, and a cycle of 52 s, below T0, would need less than 9 m
    assert_eq!(at_works([100, 30, 100, 1_800, 9, 100, 1_800, 9]), Err(27));
    assert_eq!(at_works([100, 30, 100, 1_800, 11, 100, 1_800, 11]), Ok(([144, 328, 64], [(0, 14), (32, 14)])));
}

/// 25, 26, 21, 22, 27: of any two that fail, the earlier is answered.
#[test]
fn questions_of_road_works() {
    // what fails, in the order of the questions
    let faults: [(u8, &[(usize, usize)]); 8] = [
        (25, &[(0, 105)]),
        (25, &[(1, 45)]),
        (26, &[(2, 0)]),
        (26, &[(6, 10_000)]),
        (21, &[(5, 1_400)]),
        (22, &[(5, 1_300)]),
        (27, &[(4, 61)]),
        (27, &[(7, 46)]),
    ];
    for (i, (number, change)) in faults.iter().enumerate() {
        assert_eq!(changed_works(change), Err(*number), "{change:?}");
        for (_, later) in &faults[i + 1..] {
            if later[0].0 != change[0].0 {
                assert_eq!(changed_works(&[*change, *later].concat()), Err(*number), "{change:?} {later:?}");
                assert_eq!(changed_works(&[*later, *change].concat()), Err(*number), "{change:?} {later:?}");
            }
        }
    }
    assert_eq!(at_works([0; 8]), Err(25));
    assert_eq!(at_works([usize::MAX; 8]), Err(25));
    assert_eq!(at_works([100, 30, 0, 0, 0, 0, 0, 0]), Err(26));
    assert_eq!(at_works([100, 30, 1_800, 1_800, 0, 300, 1_800, 0]), Err(21));
    assert_eq!(at_works([100, 30, 1_300, 1_800, 0, 300, 1_800, 0]), Err(22));
    assert_eq!(at_works([100, 30, 400, 1_800, 0, 300, 1_800, 0]), Err(27));
}
