//! Short ways to write junctions, for the tests.
#![allow(dead_code)]
use model::junction::*;
use model::plan::{Green, Plan};

pub const CAR: Car = Car {
    amber: 3, flying: false, radius: 0, width: 350, rows: 1, gradient: 0, conditions: 2, left: 0, right: 0,
};

pub fn car(phase: u8, car: Car) -> Stream {
    Stream { phase, kind: Kind::Car(car) }
}

pub fn tram(phase: u8, from_stop: bool, length: u16, trams_an_hour: u8) -> Stream {
    Stream { phase, kind: Kind::Tram(Tram { from_stop, length, trams_an_hour }) }
}

pub fn walk(phase: u8, crossing: u16, people: u16, disturbed: bool) -> Stream {
    Stream { phase, kind: Kind::Pedestrian(Pedestrian { speed: 12, crossing, people, reach_counted: false, disturbed }) }
}

/// The stream of kind 5 with the figures of this one of kind 3, and wider carriageway, island and packet.
pub fn with_island(walker: Stream, wider_carriageway: u16, island: u16, packet: u16) -> Stream {
    let Kind::Pedestrian(walk) = walker.kind else { panic!("no pedestrian: {walker:?}") };
    Stream { kind: Kind::Island(IslandCrossing { walk, wider_carriageway, island, packet }), ..walker }
}

pub fn cyclist(phase: u8) -> Stream {
    Stream { phase, kind: Kind::Cyclist(Cyclist { reach_counted: false }) }
}

pub fn zone(a: u8, b: u8, clearing_a: u16, reaching_a: u16, clearing_b: u16, reaching_b: u16) -> Zone {
    Zone { a, b, clearing_a, reaching_a, clearing_b, reaching_b }
}

/// A count on the design day, in period 1.
pub fn count(stream: u8, flow: u16) -> Count {
    count_in(stream, flow, 1)
}

/// A count on the design day, in this period.
pub fn count_in(stream: u8, flow: u16, period: u8) -> Count {
    Count { stream, count_day: 9000, file_day: 0, flow, period }
}

pub fn junction(streams: &[Stream], zones: &[Zone], counts: &[Count]) -> Junction {
    let (streams, zones, counts) = (streams.to_vec(), zones.to_vec(), counts.to_vec());
    Junction { number: 7, design_day: 9000, period: 1, streams, zones, counts }
}

pub fn plan_file(cycle: u16, greens: &[(u16, u16)]) -> Vec<u8> {
    Plan { cycle, greens: greens.iter().map(|&(start, length)| Green { start, length }).collect() }.to_file()
}

/// The whole case and its plan, as the readings print them, with the period 1 of request 2026-04 in the heading and in the count.
pub const WC: &str = "01 00 05 00 07 23 28 01 02 00 0d 01 01 03 00 00 00 01 5e 01 0a 02 00 00 02 00 09 03 02 0c 00 46 00 c8 00 00 \
                      03 00 0a 01 02 00 8c 00 4b 00 46 00 00 04 00 08 01 23 28 00 00 02 58 01";
pub const WP: &str = "11 00 02 00 32 12 00 05 01 00 00 00 23 12 00 05 02 00 28 00 06";

pub fn whole_case() -> Junction {
    junction(&[car(1, CAR), walk(2, 70, 200, false)], &[zone(1, 2, 140, 75, 70, 0)], &[count(1, 600)])
}

pub fn refused<T>(number: u8, place: usize) -> Result<T, model::Refusal> {
    Err(model::Refusal { number, place })
}
