//! Planted faults. A comparison is worth something only if it shows each of them.

macro_rules! faults {
    ($($case:ident $name:literal $what:literal)*) => {
        #[derive(Clone, Copy, PartialEq, Eq, Debug)]
        pub enum Fault {
            None,
            $($case,)*
        }

        /// Every planted fault with its name and what it does.
        pub const FAULTS: &[(Fault, &str, &str)] = &[$((Fault::$case, $name, $what),)*];
    };
}

faults! {
    SlackA "slack-a" "slack a lacks its 1"
    SlackAMinusOne "slack-a-minus-one" "a = -1 is accepted"
    SlackBMinusOne "slack-b-minus-one" "b = -1 is accepted"
    SlackCZero "slack-c-zero" "c = 0 is refused"
    LeaseEnd "lease-end" "a lease ends only at r - send > P"
    GrantsOfI "grants-of-i" "a lease i ends well with grants of i"
    Survival "survival" "t - 1 observers are enough"
    Interval "interval" "a request is due only at r - last send > eta"
    Leases63 "leases-63" "the form allows 63 open leases"
    GrantFirst "grant-first" "a grant counts before the leases end"
    GrantReplaces "grant-replaces" "a lower grant replaces a higher one"
    UnregisteredLives "unregistered-lives" "an unregistered recorder does not stop"
    StopReading "stop-reading" "a stopped recorder takes new readings"
    Deadline "deadline" "Alive at r = deadline"
    StoreOrder "store-order" "latest is stored before deadline"
    SilentRenews "silent-renews" "a silent request renews the deadline"
    SilentCutStores "silent-cut-stores" "a silent request that is cut stores the deadline"
    CutReading "cut-reading" "a cut leaves the last reading"
    CutThree "cut-three" "a cut after 3 stores is accepted"
    Window "window" "the window is W + 1"
    WindowUnrounded "window-unrounded" "the window is O - P"
    QueryQuorum "query-quorum" "n - t acks are enough"
    DeadBelowM "dead-below-m" "a Dead below m counts"
    Majority "majority" "the majority of statuses decides"
    UnknownAlive "unknown-alive" "m = 0 is alive"
    SecondAck "second-ack" "a second ack of one observer counts"
    LateStaysOpen "late-stays-open" "late does not close the round"
    BeginKeeps "begin-keeps" "a begin at the open round's reading keeps its acks"
    RefusedBinds "refused-binds" "the reading of a refused recorder step binds"
    Order45 "order-4-5" "5 goes before 4"
    Order56 "order-5-6" "6 goes before 5"
    Order67 "order-6-7" "7 goes before 6"
    TopReading "top-reading" "the reading 2^40 is accepted"
    TopCounter "top-counter" "the counter 2^40 is refused"
    LeadingZero "leading-zero" "leading zeros are accepted"
    NumberWraps "number-wraps" "a number of 2^64 or more wraps"
    LastLine "last-line" "a last line without line feed is executed"
    InputLimit "input-limit" "an input of 65,536 bytes is refused"
}

impl Fault {
    pub fn named(name: &str) -> Option<Fault> {
        FAULTS.iter().find(|f| f.1 == name).map(|f| f.0)
    }
}
