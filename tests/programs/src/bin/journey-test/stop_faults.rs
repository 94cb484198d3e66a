//! The test can fail: one that is wrong about where connections stop is told.

use cases::guarded::flip;
use reference::JOURNEY_BAD;

use crate::checker::{Checker, Lent};
use crate::faults::{first_difference_of, honest};
use crate::stops::{self, Stopped, Stopper};

fn first_difference(stopper: Stopper) -> Option<String> {
    first_difference_of(Checker::new(Box::new(honest), stopper), None)
}

fn assert_told(stopper: Stopper) {
    let told = first_difference(stopper).expect("the fault is found");
    assert!(told.starts_with("library: stops"), "{told}");
}

/// One that is right, but for what is changed of each stop.
fn stopping(change: fn(Stopped) -> Stopped) -> Stopper {
    Box::new(
        move |lent, connection| match stops::library(lent, connection) {
            stop @ [0, 1, ..] => change(stop),
            stop => stop,
        },
    )
}

/// One that is right about another connection than it was given.
fn connecting(change: fn(u32) -> u32) -> Stopper {
    Box::new(move |lent, connection| stops::library(lent, change(connection)))
}

/// Where it stops on another journey than it was given, a part of it, which begins at a place.
fn further(lent: &mut Lent, connection: u32, from: usize) -> Stopped {
    let part = lent.urls.inside()[from..].to_vec();
    let mut other = Lent::default();
    other.policy.copy(&lent.policy);
    other.urls.lay_bare(&part);
    let mut stop = stops::library(&mut other, connection);
    stop[2] += from as u32 * stop[1];
    stop
}

#[test]
fn an_honest_one_is_passed() {
    assert_eq!(first_difference(Box::new(stops::library)), None);
}

#[test]
fn a_wrong_stop_is_told() {
    assert_told(stopping(|[n, is, at, by, missing, of, who]| {
        [n, is, at + 1, by, missing, of, who]
    }));
    assert_told(stopping(|[n, is, at, by, missing, of, who]| {
        [n, is, at, 17 - by, missing, of, who]
    }));
    assert_told(stopping(|[n, is, at, by, missing, of, who]| {
        [n, is, at, by, missing ^ 16, of, who]
    }));
    assert_told(stopping(|[n, is, at, by, missing, of, who]| {
        [n, is, at, by, missing, 1 - of, who]
    }));
    assert_told(stopping(|[n, is, at, by, missing, of, who]| {
        [n, is, at, by, missing, of, who + 1]
    }));
    assert_told(stopping(|_| [0; 7]));
}

#[test]
fn another_place_is_told() {
    let not_the_first: Stopper = Box::new(|lent, connection| {
        let stop = stops::library(lent, connection);
        match stop[1] == 1 && (stop[2] as usize) + 1 < lent.urls.inside().len() {
            true => further(lent, connection, stop[2] as usize + 1),
            false => stop,
        }
    });
    assert_told(not_the_first);
}

#[test]
fn a_url_in_place_of_its_partner_is_told() {
    let named: Stopper = Box::new(|lent, connection| {
        let mut stop = stops::library(lent, connection);
        if let [0, 1, place, _, _, 1, _] = stop {
            stop[6] = lent.urls.inside()[place as usize].into();
        }
        stop
    });
    assert_told(named);
}

#[test]
fn a_wrong_refusal_is_told() {
    let other = |from: u32, to: u32| -> Stopper {
        Box::new(
            move |lent, connection| match stops::library(lent, connection) {
                [number, rest @ ..] if number == from => {
                    let mut stop = [to; 7];
                    stop[1..].copy_from_slice(&rest);
                    stop
                }
                stop => stop,
            },
        )
    };
    for (from, to) in [(2, 17), (17, 2), (6, 17), (6, 0), (17, 6), (2, 6), (0, 6)] {
        assert_told(other(from, to));
    }
    let connection_first: Stopper = Box::new(|lent, connection| match connection {
        0..32 => stops::library(lent, connection),
        _ => [6, 0, 0, 0, 0, 0, 0],
    });
    assert_told(connection_first);
    let refused_with_a_place: Stopper = Box::new(|lent, connection| {
        let mut stop = stops::library(lent, connection);
        stop[2] += u32::from(stop[0] == JOURNEY_BAD);
        stop
    });
    assert_told(refused_with_a_place);
}

#[test]
fn another_connection_is_told() {
    assert_told(connecting(|connection| connection % 32));
    assert_told(connecting(|connection| connection & 0xff));
    assert_told(connecting(|connection| connection & 0xffff));
    assert_told(connecting(|connection| connection.min(31)));
    assert_told(connecting(|connection| connection ^ 1));
    assert_told(connecting(|connection| 31 - connection.min(31)));
}

#[test]
fn a_touched_buffer_and_a_panic_are_told() {
    let spoil: Stopper = Box::new(|lent, connection| {
        let stop = stops::library(lent, connection);
        flip(lent.urls.inside_mut().first_mut());
        stop
    });
    let told = first_difference(spoil).expect("the fault is found");
    assert!(told.starts_with("library: journey"), "{told}");
    let panics: Stopper = Box::new(|_, _| panic!("as it should"));
    let told = first_difference(panics).expect("the fault is found");
    assert_eq!(told, "library: panicked");
}
