//! The marked figures, the tables and the whole case of document 01, with figure 6 as request 2026-02 changes it and the period 1
//! of request 2026-04 in the whole case; the annex's table of request 2026-07.
mod common;
use common::*;
use model::annex::*;
use model::cases::bytes_of;
use model::exact::fraction;
use model::junction::*;
use model::portable::{exact_clearing_time, stretches, table, Works, SPEEDS};
use model::times::{entry, Entries};
use model::work_out::{first_length, lost_time, phases};
use model::{judge, portable, work_out};

/// The entry from the first stream to the second, at one zone.
fn to(one: Stream, two: Stream, l: u16, r: u16) -> i128 {
    entry(&junction(&[one, two], &[zone(1, 2, l, 0, 0, r)], &[]), 1, 2)
}

#[test]
fn figures_1_to_8() {
    let walker = walk(2, 70, 200, false);
    let turn = |radius| car(1, Car { radius, ..CAR });
    let stop = |length| tram(1, true, length, 10);
    // 1, 2
    assert_eq!(to(car(1, CAR), walker, 140, 0), 5);
    assert_eq!(to(car(1, CAR), walker, 141, 0), 6);
    assert_eq!(to(car(1, CAR), walker, 0, 0), 4);
    // 3
    assert_eq!(to(turn(150), walker, 290, 0), 9);
    assert_eq!(to(turn(151), walker, 290, 0), 7);
    // 4
    assert_eq!(to(stop(300), walker, 200, 0), 10);
    assert_eq!(to(stop(300), walker, 201, 0), 11);
    // 5
    assert_eq!(to(stop(300), car(2, CAR), 200, 75), 8);
    assert_eq!(to(stop(300), car(2, CAR), 200, 74), 9);
    // 6, as document 02 has it since 2026-02
    assert_eq!(to(stop(325), walker, 400, 0), 13);
    assert_eq!(to(stop(325), walker, 401, 0), 13);
    // 7
    assert_eq!(to(tram(1, false, 300, 10), walker, 200, 0), 10);
    // 8
    assert_eq!(to(walk(1, 70, 200, false), car(2, CAR), 0, 75), 0);
}

#[test]
fn figures_9_and_10() {
    let need_of = |crossing, people| need(&walk(1, crossing, people, false).kind, 50);
    assert_eq!(need_of(120, 200), 10);
    assert_eq!(need_of(120, 120), 8);
    assert_eq!(need_of(121, 200), 8);
    assert_eq!(base_flow(&Car { width: 540, ..CAR }), 2_700);
    assert_eq!(base_flow(&Car { width: 541, ..CAR }), 2_840);
}

/// Table 1 of the annex (2.1.2.1), typed from its page: w in cm (it prints metres), and the flow in E/h.
const ANNEX_TABLE_1_W: [u16; 12] = [300, 325, 330, 350, 360, 375, 400, 420, 450, 480, 500, 540];
const ANNEX_TABLE_1_S: [i64; 12] = [1850, 1870, 1875, 1925, 1950, 1980, 2030, 2075, 2275, 2475, 2585, 2700];

/// Table 3 of the annex (2.2), typed from its page: trams an hour, and the cycle in s.
const ANNEX_TABLE_3_M: [u8; 20] = [15, 16, 17, 18, 19, 20, 21, 22, 23, 24, 25, 26, 27, 28, 29, 30, 31, 32, 33, 34];
const ANNEX_TABLE_3_T: [i64; 20] =
    [120, 113, 106, 100, 95, 91, 87, 82, 79, 75, 72, 69, 67, 65, 63, 60, 58, 56, 54, 53];

#[test]
fn tables_1_and_3_are_the_annexes() {
    let table: Vec<(u16, i64)> = ANNEX_TABLE_1_W.into_iter().zip(ANNEX_TABLE_1_S).collect();
    assert_eq!(table, TABLE_1);
    for (width, flow) in table {
        assert_eq!(base_flow(&Car { width, ..CAR }), flow);
    }
    assert_eq!(ANNEX_TABLE_3_T, TABLE_3);
    for (trams, cycle) in ANNEX_TABLE_3_M.into_iter().zip(ANNEX_TABLE_3_T) {
        assert_eq!(table_3(trams), cycle);
        let need_at = |cycle| need(&tram(1, false, 300, trams).kind, cycle);
        assert_eq!((need_at(cycle), need_at(cycle + 1)), (10, 20));
    }
    for few in 1..=14 {
        assert_eq!(table_3(few), 120);
    }
}

#[test]
fn table_1_at_every_width() {
    for width in 300..=1500 {
        let listed = TABLE_1.iter().rev().find(|row| row.0 <= width).unwrap().1;
        let wanted = if width <= 540 { listed } else { width as i64 * 525 / 100 };
        assert_eq!(base_flow(&Car { width, ..CAR }), wanted, "width {width}");
    }
}

/// The table of part B of the annex, typed from its page: the stretch and the clearing length in m, then t and L for 25, 30, 35 and
/// 40 km/h, in tenths of a second (it prints seconds with one decimal).
const ANNEX_PORTABLE: [(usize, usize, [i64; 4], [i64; 4]); 30] = [
    (10, 30, [43, 36, 31, 27], [126, 112, 102, 94]),
    (20, 40, [58, 48, 41, 36], [155, 136, 122, 112]),
    (30, 50, [72, 60, 51, 45], [184, 160, 143, 130]),
    (40, 60, [86, 72, 62, 54], [213, 184, 163, 148]),
    (50, 70, [101, 84, 72, 63], [242, 208, 184, 166]),
    (60, 80, [115, 96, 82, 72], [270, 232, 205, 184]),
    (70, 90, [130, 108, 93, 81], [299, 256, 225, 202]),
    (80, 100, [144, 120, 103, 90], [328, 280, 246, 220]),
    (90, 110, [158, 132, 113, 99], [357, 304, 266, 238]),
    (100, 120, [173, 144, 123, 108], [386, 328, 287, 256]),
    (110, 130, [187, 156, 134, 117], [414, 352, 307, 274]),
    (120, 140, [202, 168, 144, 126], [443, 376, 328, 292]),
    (130, 150, [216, 180, 154, 135], [472, 400, 349, 310]),
    (140, 160, [230, 192, 165, 144], [501, 424, 369, 328]),
    (150, 170, [245, 204, 175, 153], [530, 448, 390, 346]),
    (160, 180, [259, 216, 185, 162], [558, 472, 410, 364]),
    (170, 190, [274, 228, 195, 171], [587, 496, 431, 382]),
    (180, 200, [288, 240, 206, 180], [616, 520, 451, 400]),
    (190, 210, [302, 252, 216, 189], [645, 544, 472, 418]),
    (200, 220, [317, 264, 226, 198], [674, 568, 493, 436]),
    (210, 230, [331, 276, 237, 207], [702, 592, 513, 454]),
    (220, 240, [346, 288, 247, 216], [731, 616, 534, 472]),
    (230, 250, [360, 300, 257, 225], [760, 640, 554, 490]),
    (240, 260, [374, 312, 267, 234], [789, 664, 575, 508]),
    (250, 270, [389, 324, 278, 243], [818, 688, 595, 526]),
    (260, 280, [403, 336, 288, 252], [846, 712, 616, 544]),
    (270, 290, [418, 348, 298, 261], [875, 736, 637, 562]),
    (280, 300, [432, 360, 309, 270], [904, 760, 657, 580]),
    (290, 310, [446, 372, 319, 279], [933, 784, 678, 598]),
    (300, 320, [461, 384, 329, 288], [962, 808, 698, 616]),
];

/// The computed table is the printed one.
#[test]
fn table_of_portable_signals_is_the_annexes() {
    assert!(stretches().eq(ANNEX_PORTABLE.map(|row| row.0)));
    assert_eq!(SPEEDS, [25, 30, 35, 40]);
    for (stretch, clearing_length, t, l) in ANNEX_PORTABLE {
        assert_eq!(clearing_length, stretch + 20);
        for (i, speed) in SPEEDS.into_iter().enumerate() {
            assert_eq!(table(stretch, speed), (t[i], l[i]), "{stretch} m, {speed} km/h");
            assert_eq!(exact_clearing_time(stretch, speed), fraction(36 * clearing_length as i128, 10 * speed as i128));
        }
    }
}

/// t is answered from the table, and L is the table's, at each of its places; M stands between the two greens.
#[test]
fn answers_at_every_place_of_the_table() {
    for (stretch, clearing_length, t, l) in ANNEX_PORTABLE {
        for (i, speed) in SPEEDS.into_iter().enumerate() {
            let works = Works::of([stretch, speed, 90, 1_800, 200, 60, 1_500, 200]);
            let answer = portable(&works).expect("a cycle");
            assert_eq!((answer.clearing_time, answer.lost_time), (t[i], l[i]), "{works:?}");
            // 3 + 3.6 x clearing length/speed, rounded up
            let m = (36 * clearing_length + 30 * speed).div_ceil(10 * speed) as u16;
            assert_eq!(answer.greens[1].start - answer.greens[0].length, m, "{works:?}");
        }
    }
}

#[test]
fn whole_case_numbers() {
    let j = whole_case();
    assert_eq!(j.to_file(), bytes_of(WC));
    assert_eq!(read_junction(&bytes_of(WC)), Ok(j.clone()));
    assert_eq!(saturation(&CAR), 1_925);
    assert_eq!(y_of(&CAR, 600), 3_117);
    assert_eq!((entry(&j, 1, 2), entry(&j, 2, 1)), (5, 4));
    let p = phases(&j, &Entries::of(&j));
    assert_eq!(lost_time(&j, &p, 50), 14);
    assert_eq!(first_length(&j, &p), 50);

    let mut buffer = [0xaa; 40];
    let worked = work_out(&bytes_of(WC), &mut buffer).unwrap();
    assert_eq!((worked.first_length, worked.cycle, worked.tried, worked.tried_at_least), (50, 50, 1, 1));
    assert_eq!(buffer[..21], bytes_of(WP));
    assert!(buffer[21..].iter().all(|&b| b == 0xaa), "later bytes are untouched");
    assert_eq!(judge(&bytes_of(WC), &bytes_of(WP)), Ok(()));
    assert_eq!(judge(&bytes_of(WC), &plan_file(50, &[(0, 35), (39, 6)])), refused(17, 1));
}
