//! The programs, run as processes: against lines written out here, and the
//! queue's against the independent reference and judging each sheet alone.

mod evening;
mod queue;
