//! The stored script that hands in states of the receiver outside the ranges,
//! and states just inside.

use crate::block::layout;
use crate::line::receiver::{self, NUMBERS, SYN};
use crate::stored::scripts::line::{
    byte, bytes, good_block, set, set_holding, ASK, IN_COLLECTING, IN_OFF, IN_WAITING, NEW, OFF,
    ON, PHASES_AND_SEEN,
};
use crate::stored::scripts::script::Script;

/// Broken states on every call, and states at the edge that are not broken.
pub fn broken() -> Script {
    let mut script = Script::trying("Broken states on every call, and states at the edge.");
    for phase in [IN_OFF, IN_COLLECTING, IN_WAITING] {
        one_range_left(&mut script, phase);
        several_ranges_left(&mut script, phase);
    }
    one_seen_range_left(&mut script);
    out_of_a_broken_state(&mut script);
    seen_outside_waiting(&mut script);
    states_at_the_edge(&mut script);
    seventeenth_byte(&mut script);
    script
}

fn one_range_left(script: &mut Script, phase: usize) {
    for number in [16, 17, 128, 255] {
        script.comment(&format!("phase {phase}, number {number}"));
        every_call(script, set(phase, number, 0, 0));
    }
    for count in [17, 18, 255] {
        script.comment(&format!("phase {phase}, count {count}"));
        every_call(script, set(phase, 0, count, 0));
    }
}

fn several_ranges_left(script: &mut Script, phase: usize) {
    for (number, count, seen) in [
        (16, 16, 2),
        (16, 17, 0),
        (16, 3, 3),
        (15, 17, 3),
        (255, 255, 255),
    ] {
        script.comment(&format!(
            "phase {phase}, number {number}, count {count}, seen {seen}"
        ));
        every_call(script, set(phase, number, count, seen));
    }
}

fn one_seen_range_left(script: &mut Script) {
    for seen in [3, 4, 255] {
        script.comment(&format!("waiting, seen {seen}"));
        every_call(script, set(IN_WAITING, 0, 0, seen));
    }
}

/// Each call leaves the broken state as it is, so the next finds it again.
fn every_call(script: &mut Script, broken: String) {
    script.line(broken);
    for line in [ON, OFF, ASK] {
        script.line(line);
    }
    bytes(script, &[0x00, 0x41, 0xff, SYN, receiver::number_code(0)]);
    script.line(ASK);
}

fn out_of_a_broken_state(script: &mut Script) {
    script.comment("out of a broken state: by a good state, or a new receiver");
    script.line(set(IN_WAITING, 16, 17, 3));
    script.line(set(IN_WAITING, 4, 16, 2));
    script.line(byte(receiver::number_code(4)));
    script.line(set(IN_WAITING, 16, 17, 3));
    script.line(NEW);
    script.line(ON);
}

fn seen_outside_waiting(script: &mut Script) {
    script.comment("seen counts in waiting alone: these states are not broken");
    for phase in [IN_OFF, IN_COLLECTING] {
        for seen in [1, 2, 3, 255] {
            for line in [ON, OFF, ASK, &byte(receiver::number_code(5))] {
                script.line(set(phase, 5, 2, seen));
                script.line(line);
            }
        }
    }
}

fn states_at_the_edge(script: &mut Script) {
    script.comment("states at the edge of the ranges, not broken");
    for (phase, seen) in PHASES_AND_SEEN {
        for (number, count) in [(0, 0), (0, 16), (15, 0), (15, 16)] {
            for line in [ON, OFF, ASK] {
                script.line(set(phase, number.into(), count, seen));
                script.line(line);
            }
            for each in [0x00, 0xff, SYN, receiver::number_code(number)] {
                script.line(set(phase, number.into(), count, seen));
                script.line(byte(each));
            }
        }
    }
}

fn seventeenth_byte(script: &mut Script) {
    script.comment("the seventeenth byte at every number: a block clean, mended, repeated");
    let clean = good_block();
    let hit_once = layout::hit(clean, 64);
    let hit_twice = layout::hit(hit_once, 65);
    for number in 0..usize::from(NUMBERS) {
        for held in [clean, hit_once, hit_twice] {
            script.line(set_holding(IN_COLLECTING, number, 16, 0, &held));
            script.line(byte(0));
        }
    }
}
