//! The kernel's side: each call through the C interface, and its record beside the reference's.

use crate::call;
use crate::raw::{self, Answer, Cable, Contract, Date, Kw, Kwh};
use crate::reference::calls::{Call, Opening};
use crate::reference::point::Record;

pub fn open(opening: &Opening, store: &mut [u32]) -> Answer {
    let Opening { billing, control, basis, power, amperes, volts, cosine, phases, .. } = *opening;
    let asked = Contract { billing, control, basis, power: Kw(power), cable: Cable { amperes, volts, cosine, phases } };
    let date = Date { year: opening.year, month: opening.month };
    call::open_point(asked, date, &opening.currents, opening.place as usize, store)
}

pub fn call(r: raw::Record, store: &mut [u32], hours: &mut [u32], call: &Call) -> Answer {
    match call {
        Call::BillingHours(read) => call::read_billing_hours(r, store, read),
        Call::ControlHours(read) => call::read_control_hours(r, store, read),
        Call::BillingVolume(volume) => call::read_billing_volume(r, store, Kwh(*volume)),
        Call::ControlVolume(volume) => call::read_control_volume(r, store, Kwh(*volume)),
        Call::Neighbour { source, volume } => call::read_neighbour(r, store, *source, Kwh(*volume)),
        Call::Failure { reason } => call::fail(r, store, *reason),
        Call::Admission => call::admit(r, store),
        Call::Denial => call::deny(r, store),
        Call::Permission => call::permit(r, store),
        Call::Close { marks } => call::close(r, store, marks, hours),
    }
}

/// A number of 32 bits or 64 from one of the other record. A month's number that has more than 32 bits is as much outside
/// the limits with 32.
trait Same {
    fn same(number: impl Into<u64>) -> Self;
}

impl Same for u32 {
    fn same(number: impl Into<u64>) -> u32 {
        number.into().try_into().unwrap_or(u32::MAX)
    }
}

impl Same for u64 {
    fn same(number: impl Into<u64>) -> u64 {
        number.into()
    }
}

/// The two records, of each number where it stands in the C interface's and where in the reference's.
macro_rules! records {
    ($raw:ident, $own:ident: $($there:expr, $here:expr;)*) => {
        /// The record that the C interface has where the reference has this one.
        pub fn as_raw($own: &Record) -> raw::Record {
            let mut $raw = raw::Record::default();
            $($there = Same::same($here);)*
            $raw.past.years = $own.years;
            $raw.opened = $own.is_open().into();
            $raw
        }

        /// A record of any bits as the reference has it: its year is 0 where it is not open.
        pub fn as_reference($raw: &raw::Record) -> Record {
            let mut $own = Record::default();
            $($here = Same::same($there);)*
            $own.years = $raw.past.years;
            if $raw.opened != 1 {
                $own.year = 0;
            }
            $own
        }
    };
}

records! { raw, own:
    raw.contract.billing, own.contract.billing;
    raw.contract.control, own.contract.control;
    raw.contract.basis, own.contract.basis;
    raw.contract.power.0, own.contract.power;
    raw.contract.cable.amperes, own.contract.amperes;
    raw.contract.cable.volts, own.contract.volts;
    raw.contract.cable.cosine, own.contract.cosine;
    raw.contract.cable.phases, own.contract.phases;
    raw.date.year, own.year;
    raw.date.month, own.month;
    raw.service.run, own.run;
    raw.service.serving, own.serving;
    raw.service.denials, own.denials;
    raw.service.fault, own.fault;
    raw.past.latest, own.latest;
    raw.readings.billing.given, own.given[0];
    raw.readings.billing.volume.0, own.volumes[0];
    raw.readings.control.given, own.given[1];
    raw.readings.control.volume.0, own.volumes[1];
    raw.readings.first.given, own.given[2];
    raw.readings.first.volume.0, own.volumes[2];
    raw.readings.second.given, own.given[3];
    raw.readings.second.volume.0, own.volumes[3];
    raw.total.0, own.total;
}
