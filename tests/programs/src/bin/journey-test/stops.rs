//! Where connections stop on a journey, by the library and by the reference.

use cases::journey::Given;
use cases::labels::upgraded;
use reference::numbers::ACCEPTED;
use reference::{journey_stops, Failure};
use zolherima::journeys::{self, Lacking, Stop};

use crate::checker::Lent;

/// What is told of a connection, in numbers: that of a refusal, or 0; of a stop 1, its place, its refusal and the missing endpoint, and then 1 and the
/// URL whose set lacks it, or 0 and the connection.
pub type Stopped = [u32; 7];

/// One that is held to the reference.
pub type Stopper = Box<dyn Fn(&mut Lent, u32) -> Stopped>;

/// The 32 connections, and some that there are not.
pub fn connections() -> Vec<u32> {
    let above = [32, 33, 63, 64, 255, 256, 1 << 16, 1 << 31, u32::MAX];
    (0..32).chain(above).collect()
}

/// The proved library.
pub fn library(lent: &mut Lent, connection: u32) -> Stopped {
    match journeys::stop(lent.policy.inside(), lent.urls.inside(), connection) {
        Ok(None) => nowhere(ACCEPTED),
        Ok(Some(stop)) => stopped(&stop),
        Err(refusal) => nowhere(refusal.number()),
    }
}

fn stopped(stop: &Stop) -> Stopped {
    let endpoint = stop.refusal.missing().expect("a stop has an endpoint");
    let (of_url, lacking) = match stop.lacking {
        Lacking::Url(url) => (1, url),
        Lacking::Connection(connection) => (0, connection),
    };
    let refusal = stop.refusal.number();
    let missing = endpoint.number();
    [ACCEPTED, 1, stop.place, refusal, missing, of_url, lacking]
}

/// What should be told of each of the connections.
pub fn expected(given: &Given) -> Vec<Stopped> {
    let connections = connections();
    let stops = journey_stops(&given.policy, &given.urls, &connections);
    let told = |(stop, connection)| match stop {
        Ok(None) => nowhere(ACCEPTED),
        Ok(Some(failure)) => failed(given, connection, &failure),
        Err(number) => nowhere(number),
    };
    stops.into_iter().zip(connections).map(told).collect()
}

fn failed(given: &Given, connection: u32, failure: &Failure) -> Stopped {
    let Failure {
        place,
        number,
        missing,
        of_url,
    } = *failure;
    let lacking = match of_url {
        true => upgraded(&given.policy, given.urls[place]).into(),
        false => connection,
    };
    let place = place as u32;
    [ACCEPTED, 1, place, number, missing, of_url.into(), lacking]
}

/// A connection that carries the journey, or a refusal.
const fn nowhere(number: u32) -> Stopped {
    [number, 0, 0, 0, 0, 0, 0]
}
