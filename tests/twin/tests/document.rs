//! The whole case of document 01 and each line of "On either side of each limit", with its numbers as they stand there.

use twin::fault::Fault;
use twin::messages::{read_message, write_message, Answer, Message, Status};
use twin::observer::Observer;
use twin::program::rackrun;
use twin::recorder::{c_step, Event, Recorder, BYTES};
use twin::settings::Settings;
use twin::standby::{Place, Standby};

const ABOVE: [u64; 7] = [3, 2, 100, 40, 159, 235, 10];

fn settings() -> Settings {
    Settings::accept(ABOVE, Fault::None).unwrap()
}

/// Slacks of settings in range, accepted or not.
fn slacks(v: [u64; 7]) -> [i64; 3] {
    Settings { n: v[0], t: v[1], eta: v[2], delta: v[3], p: v[4], o: v[5], g: v[6], fault: Fault::None }.slacks()
}

fn refused(v: [u64; 7]) -> Option<u8> {
    Settings::accept(v, Fault::None).err()
}

/// Runs lines with blanks for tabs.
fn run(input: &str) -> String {
    String::from_utf8(rackrun(input.replace(' ', "\t").as_bytes(), Fault::None)).unwrap().replace('\t', " ")
}

/// Runs `input | output` lines.
fn case(rows: &str) {
    let rows: Vec<(&str, &str)> = rows.trim().lines().map(|row| row.split_once('|').unwrap()).collect();
    let input: String = rows.iter().map(|row| format!("{}\n", row.0.trim())).collect();
    let output: String = rows.iter().map(|row| format!("{}\n", row.1.trim())).collect();
    assert_eq!(run(&input), output);
}

#[test]
fn whole_case() {
    case(
        "SETTINGS 3 2 100 40 159 235 10 | 0 49 0 0 6241
         R 1000 tick                    | 0 LEASE-REQUEST 1
         O 1 1000 request 1             | 0 LEASE-GRANT 1
         O 2 1000 request 1             | 0 LEASE-GRANT 1
         R 1000 grant 1 1               | 0 unregistered
         R 1000 grant 2 1               | 0 running
         Q 1160 begin                   | 0 CHECK 1160
         O 1 1160 check 1160            | 0 CHECK-ACK 1160 1 Alive
         Q 1160 ack 1 1160 1 Alive      | 0 waiting
         Q 1230 ack 0 1160 1 Dead       | 0 late
         R 1160 drive                   | 0 stopped",
    );
}

#[test]
fn slack_limits() {
    assert_eq!(slacks([3, 2, 100, 40, 158, 235, 10]), [-1, 1, 6242]);
    assert_eq!(refused([3, 2, 100, 40, 158, 235, 10]), Some(2));
    assert_eq!(slacks([3, 2, 100, 40, 159, 234, 10])[1], -1);
    assert_eq!(refused([3, 2, 100, 40, 159, 234, 10]), Some(2));
    let fine = Settings::accept([3, 2, 100, 49, 150, 200, 1], Fault::None).unwrap();
    assert_eq!(fine.slacks(), [0, 1, 6250]);
    assert_eq!(fine.window(), 50);
    assert_eq!(slacks([3, 2, 100, 50, 150, 200, 1])[0], -1);
    assert_eq!(refused([3, 2, 100, 50, 150, 200, 1]), Some(2));
    assert_eq!(refused([3, 0, 100, 40, 159, 235, 10]), Some(1));
    assert_eq!(refused([3, 0, 100, 40, 158, 235, 10]), Some(1));
}

#[test]
fn setting_ranges() {
    assert_eq!(refused([16, 16, 100, 40, 159, 235, 10]), None);
    assert_eq!(refused([17, 16, 100, 40, 159, 235, 10]), Some(1));
    assert_eq!(refused([3, 4, 100, 40, 159, 235, 10]), Some(1));
    assert_eq!(refused([0, 0, 100, 40, 159, 235, 10]), Some(1));
    assert_eq!(refused([3, 2, 0, 40, 159, 235, 10]), Some(1));
    assert_eq!(refused([3, 2, 1_048_577, 40, 159, 235, 10]), Some(1));
    assert_eq!(refused([3, 2, 1_048_576, 40, 159, 235, 10]), Some(2));
    assert_eq!(refused([3, 2, 100, 1_048_577, 159, 235, 10]), Some(1));
    assert_eq!(refused([3, 2, 100, 40, 16_777_217, 235, 10]), Some(1));
    assert_eq!(refused([3, 2, 100, 40, 159, 16_777_217, 10]), Some(1));
    assert_eq!(refused([3, 2, 100, 40, 159, 16_777_216, 10]), None);
    assert_eq!(refused([3, 2, 100, 40, 159, 235, 1_001]), Some(1));
    assert_eq!(refused([3, 2, 100, 40, 159, 235, 0]), Some(1));
    assert_eq!(refused([u64::MAX; 7]), Some(1));
    // c = 64 x 100 - P
    assert_eq!(refused([3, 2, 100, 40, 6400, 7000, 10]), None);
    assert_eq!(refused([3, 2, 100, 40, 6401, 7000, 10]), Some(2));
}

#[test]
fn deadline_limits() {
    let s = settings();
    let record = Observer { latest: 1, deadline: 1235, last_reading: 1000 };
    let ack = |status| Ok(Answer::Send(Message::CheckAck { ts: 7, cnt: 1, status }));
    assert_eq!(record.clone().check(&s, 0, 1234, 7), ack(Status::Alive));
    assert_eq!(record.clone().check(&s, 0, 1235, 7), ack(Status::Dead));
}

#[test]
fn request_limits() {
    let s = settings();
    let record = Observer { latest: 5, deadline: 1235, last_reading: 1000 };
    let mut after = record;
    assert_eq!(after.request(&s, 0, 1100, 5, None), Ok(Answer::Silent));
    assert_eq!(after, Observer { latest: 5, deadline: 1235, last_reading: 1100 });
    let mut after = record;
    assert_eq!(after.request(&s, 0, 1100, 6, None), Ok(Answer::Send(Message::LeaseGrant(6))));
    assert_eq!(after, Observer { latest: 6, deadline: 1335, last_reading: 1100 });
}

#[test]
fn cut_limits() {
    let s = settings();
    let record = Observer { latest: 4, deadline: 1235, last_reading: 1000 };
    for (k, latest, deadline) in [(0, 4, 1235), (1, 4, 2235), (2, 5, 2235)] {
        let mut after = record;
        assert_eq!(after.request(&s, 0, 2000, 5, Some(k)), Ok(Answer::Cut));
        assert_eq!(after, Observer { latest, deadline, last_reading: 0 });
        let mut after = record;
        assert_eq!(after.request(&s, 0, 2000, 4, Some(k)), Ok(Answer::Cut));
        assert_eq!(after, Observer { latest: 4, deadline: 1235, last_reading: 0 });
    }
    let mut after = record;
    assert_eq!(after.request(&s, 0, 2000, 5, Some(3)), Err(9));
    assert_eq!(after, record);
}

#[test]
fn round_limits() {
    for (last, answer) in [(1049, "0 unknown"), (1050, "0 late")] {
        case(&format!(
            "SETTINGS 3 2 100 40 159 235 10 | 0 49 0 0 6241
             Q 1000 begin                   | 0 CHECK 1000
             Q 1000 ack 0 1000 0 Alive      | 0 waiting
             Q {last} ack 1 1000 0 Alive    | {answer}
             Q {last} poll                  | 7"
        ));
    }
    case(
        "SETTINGS 3 2 100 40 159 235 10 | 0 49 0 0 6241
         Q 1000 begin                   | 0 CHECK 1000
         Q 1049 poll                    | 0 waiting
         Q 1050 poll                    | 0 late
         Q 1050 poll                    | 7",
    );
}

#[test]
fn verdict_limits() {
    for (first, second, answer) in [
        ("7 Dead", "7 Alive", "dead 7"),
        ("7 Alive", "7 Dead", "dead 7"),
        ("6 Dead", "7 Alive", "alive 7"),
        ("7 Alive", "6 Dead", "alive 7"),
        ("0 Dead", "0 Alive", "unknown"),
        ("0 Alive", "0 Alive", "unknown"),
        ("0 Dead", "0 Dead", "unknown"),
        ("1099511627776 Dead", "0 Alive", "dead 1099511627776"),
    ] {
        case(&format!(
            "SETTINGS 3 2 100 40 159 235 10 | 0 49 0 0 6241
             Q 1000 begin                   | 0 CHECK 1000
             Q 1001 ack 0 1000 {first}      | 0 waiting
             Q 1002 ack 0 1000 {second}     | 0 waiting
             Q 1003 ack 1 1000 {second}     | 0 {answer}"
        ));
    }
}

#[test]
fn grant_limits() {
    for (last, answer) in [(1158, "running"), (1159, "stopped")] {
        case(&format!(
            "SETTINGS 3 2 100 40 159 235 10 | 0 49 0 0 6241
             R 1000 tick                    | 0 LEASE-REQUEST 1
             R 1000 grant 1 1               | 0 unregistered
             R 1000 grant 2 1               | 0 running
             R 1099 tick                    | 0 running
             R 1100 tick                    | 0 LEASE-REQUEST 2
             R 1101 grant 0 2               | 0 running
             R {last} grant 1 2             | 0 {answer}
             R 1159 drive                   | 0 {answer}"
        ));
    }
}

#[test]
fn line_limits() {
    assert_eq!(read_message(b"CHECK\t07\n"), Err(9));
    assert_eq!(read_message(b"CHECK\t7\n"), Ok(Message::Check(7)));
    assert_eq!(read_message(b"CHECK\t7"), Err(9));
    assert_eq!(read_message(b"CHECK\t7\n\n"), Err(9));
    assert_eq!(read_message(b"CHECK\t1099511627775\n"), Ok(Message::Check(1_099_511_627_775)));
    assert_eq!(read_message(b"CHECK\t1099511627776\n"), Err(9));
    assert_eq!(read_message(b"LEASE-GRANT\t0\n"), Err(9));
    assert_eq!(read_message(b"LEASE-REQUEST\t1099511627776\n"), Ok(Message::LeaseRequest(1_099_511_627_776)));
    assert_eq!(read_message(b"LEASE-REQUEST\t1099511627777\n"), Err(9));
    let line = b"CHECK-ACK\t1099511627775\t1099511627776\tAlive\n";
    let message = Message::CheckAck { ts: 1_099_511_627_775, cnt: 1_099_511_627_776, status: Status::Alive };
    assert_eq!(line.len(), 44);
    assert_eq!(read_message(line), Ok(message));
    let mut room = [b'.'; 43];
    assert_eq!(write_message(&message, &mut room), Err(10));
    assert_eq!(room, [b'.'; 43]);
    let mut room = [b'.'; 46];
    assert_eq!(write_message(&message, &mut room), Ok(44));
    assert_eq!(room[..44], line[..]);
    assert_eq!(room[44..], *b"..");
    assert_eq!(write_message(&Message::LeaseGrant(0), &mut [0; 3]), Err(9));
    assert_eq!(write_message(&Message::Check(1 << 40), &mut room), Err(9));
}

#[test]
fn shortcut_of_the_window() {
    // An unrounded window would say dead here, while the recorder runs.
    case(
        "SETTINGS 3 2 100 40 159 235 10 | 0 49 0 0 6241
         R 1000 tick                    | 0 LEASE-REQUEST 1
         O 0 1000 request 1             | 0 LEASE-GRANT 1
         O 1 1000 request 1             | 0 LEASE-GRANT 1
         O 2 1000 request 1             | 0 LEASE-GRANT 1
         R 1000 grant 1 1               | 0 unregistered
         R 1000 grant 2 1               | 0 running
         R 1100 tick                    | 0 LEASE-REQUEST 2
         Q 1160 begin                   | 0 CHECK 1160
         O 1 1150 check 1160            | 0 CHECK-ACK 1160 1 Alive
         Q 1160 ack 1 1160 1 Alive      | 0 waiting
         O 1 1150 request 2             | 0 LEASE-GRANT 2
         O 2 1150 request 2             | 0 LEASE-GRANT 2
         R 1150 grant 1 2               | 0 running
         R 1150 grant 2 2               | 0 running
         O 0 1240 check 1160            | 0 CHECK-ACK 1160 1 Dead
         Q 1230 ack 0 1160 1 Dead       | 0 late
         R 1230 drive                   | 0 running",
    );
}

#[test]
fn a_slept_recorder_stays_stopped() {
    case(
        "SETTINGS 1 1 100 40 159 235 10 | 0 49 0 0 6241
         R 0 tick                       | 0 LEASE-REQUEST 1
         R 0 grant 0 1                  | 0 running
         R 100 tick                     | 0 LEASE-REQUEST 2
         R 159 grant 0 2                | 0 stopped
         R 160 tick                     | 0 stopped
         R 159 drive                    | 0 stopped
         R 158 drive                    | 4
         R 2000 grant 0 3               | 6
         R 2000 grant 1 3               | 5",
    );
}

#[test]
fn refusals_of_lines() {
    assert_eq!(run(""), "");
    assert_eq!(run("\n"), "9\n");
    assert_eq!(run("SETTINGS 3 2 100 40 159 235 10"), "9\n");
    assert_eq!(run("SETTINGS 3 2 100 40 159 235 10\r\nR 0 tick\n"), "9\n");
    assert_eq!(run("SETTINGS 3 2 100 40 159 235\nR 0 tick\n"), "9\n");
    assert_eq!(run("R 0 tick\nSETTINGS 3 2 100 40 159 235 10\n"), "9\n");
    assert_eq!(run("SETTINGS 3 2 100 40 159 235 18446744073709551615\nR 0 tick\n"), "1\n");
    assert_eq!(run("SETTINGS 3 2 100 40 159 235 18446744073709551616\nR 0 tick\n"), "9\n");
    assert_eq!(run("SETTINGS 3 2 100 40 158 235 10\nR 0 tick\n"), "2\n");
    case(
        "SETTINGS 3 2 100 40 159 235 10 | 0 49 0 0 6241
         SETTINGS 3 2 100 40 159 235 10 | 9
         R 01 tick                      | 9
         R  1 tick                      | 9
         R 1 tick x                     | 9
         R 1 Tick                       | 9
         R +1 tick                      | 9
         R 18446744073709551616 tick    | 9
         R 18446744073709551615 tick    | 4
         R 1099511627776 tick           | 4
         R 1099511627775 drive          | 0 unregistered
         R 1099511627774 drive          | 4
         R 1099511627775 grant 3 0      | 5
         R 1099511627775 grant 2 0      | 6
         R 1099511627775 grant 2 1      | 6
         O 3 1099511627776 request 0    | 4
         O 3 1 request 0 cut 3          | 5
         O 2 1 request 0 cut 3          | 6
         O 2 1 request 1099511627777    | 6
         O 2 1 request 1 cut 3          | 9
         O 2 1 request 1099511627776    | 0 LEASE-GRANT 1099511627776
         O 2 0 check 1099511627775      | 4
         O 2 1 check 1099511627776      | 4
         O 2 2 request 1 cut 0          | 0 cut
         O 2 0 check 0                  | 0 CHECK-ACK 0 1099511627776 Alive
         Q 5 poll                       | 7
         Q 5 ack 3 1099511627776 1099511627777 Dead | 4
         Q 5 ack 3 0 1099511627777 Dead | 5
         Q 5 ack 2 0 1099511627777 Dead | 6
         Q 5 ack 2 0 1099511627776 Dead | 7
         Q 4 begin                      | 0 CHECK 4
         Q 5 ack 2 5 1099511627776 Dead | 8
         Q 5 ack 2 4 1099511627776 dead | 9
         Q 5 ack 2 4 1099511627776 Dead | 0 waiting
         Q 3 begin                      | 4",
    );
    assert_eq!(run("SETTINGS 3 2 100 40 159 235 10\nR 0 tick"), "0 49 0 0 6241\n9\n");
    assert_eq!(run("SETTINGS 3 2 100 40 159 235 10\n\nR 0 tick\n"), "0 49 0 0 6241\n9\n0 LEASE-REQUEST 1\n");
}

#[test]
fn input_length() {
    let mut input = b"SETTINGS\t3\t2\t100\t40\t159\t235\t10\n".to_vec();
    input.resize(65_535, b'x');
    input.push(b'\n');
    assert_eq!(rackrun(&input, Fault::None), b"0\t49\t0\t0\t6241\n9\n");
    input.push(b'\n');
    assert_eq!(rackrun(&input, Fault::None), b"10\n");
}

#[test]
fn c_calls() {
    let mut buffer = Recorder::new().to_bytes();
    let mut call = |r, event| c_step(ABOVE, r, event, &mut buffer, Fault::None);
    assert_eq!(call(1000, Event::Drive), 100);
    assert_eq!(call(1000, Event::Tick), 103);
    assert_eq!(call(999, Event::Tick), 4);
    assert_eq!(call(1000, Event::Grant { x: 0, j: 1 }), 100);
    assert_eq!(call(1000, Event::Grant { x: 3, j: 1 }), 5);
    assert_eq!(call(1000, Event::Grant { x: 1, j: 2 }), 6);
    assert_eq!(call(1001, Event::Grant { x: 1, j: 1 }), 101);
    let words = Recorder { counter: 1, last_send: 1000, last_reading: 1001, open: 1, ..Recorder::new() };
    let mut expected = words.to_bytes();
    expected[8 * 5..8 * 5 + 2].copy_from_slice(&[0xe8, 3]);
    expected[8 * 69] = 1;
    expected[8 * 70] = 1;
    assert_eq!(buffer, expected);
    assert_eq!(c_step(ABOVE, 1159, Event::Drive, &mut buffer, Fault::None), 102);
    expected[0] = 1;
    expected[8 * 3..8 * 3 + 2].copy_from_slice(&[0x87, 4]);
    assert_eq!(buffer, expected);
    assert_eq!(c_step(ABOVE, 1200, Event::Tick, &mut buffer, Fault::None), 102);
    assert_eq!(buffer, expected);
}

#[test]
fn c_buffers() {
    for length in [0, 679, 681, 1360] {
        let mut buffer = vec![0xff; length];
        assert_eq!(c_step(ABOVE, u64::MAX, Event::Tick, &mut buffer, Fault::None), 10);
        assert_eq!(c_step([3, 2, 100, 40, 158, 235, 10], 0, Event::Tick, &mut buffer, Fault::None), 2);
        assert_eq!(c_step([0, 2, 100, 40, 158, 235, 10], 0, Event::Tick, &mut buffer, Fault::None), 1);
        assert_eq!(buffer, vec![0xff; length]);
    }
    let mut buffer = [0xff; BYTES];
    assert_eq!(c_step(ABOVE, u64::MAX, Event::Tick, &mut buffer, Fault::None), 3);
    assert_eq!(buffer, [0xff; BYTES]);
}

#[test]
fn recorder_form() {
    let s = settings();
    let mut good = Recorder { counter: 2, last_send: 1100, last_reading: 1158, open: 2, ..Recorder::new() };
    good.sends[0] = 1000;
    good.sends[1] = 1100;
    good.grants[..3].copy_from_slice(&[2, 1, 0]);
    let changed = |change: &dyn Fn(&mut Recorder)| {
        let mut record = good;
        change(&mut record);
        record.has_form(&s)
    };
    assert!(good.has_form(&s));
    assert!(Recorder { last_reading: (1 << 40) - 1, ..Recorder::new() }.has_form(&s));
    assert!(!Recorder { last_reading: 1 << 40, ..Recorder::new() }.has_form(&s));
    assert!(!Recorder { stopped: 1, ..Recorder::new() }.has_form(&s));
    assert!(!changed(&|c| c.counter = 0));
    assert!(!changed(&|c| c.counter = 1));
    assert!(changed(&|c| c.counter = 1101));
    assert!(!changed(&|c| c.counter = 1102));
    assert!(!changed(&|c| c.counter = u64::MAX));
    assert!(!changed(&|c| c.stopped = 2));
    assert!(!changed(&|c| c.last_reading = 1159));
    assert!(changed(&|c| (c.stopped, c.last_reading) = (1, 1159)));
    assert!(!changed(&|c| c.last_reading = 1099));
    assert!(!changed(&|c| c.open = 0));
    assert!(!changed(&|c| c.open = 1));
    assert!(!changed(&|c| c.open = 3));
    assert!(!changed(&|c| c.open = u64::MAX));
    assert!(!changed(&|c| c.sends[0] = 1001));
    assert!(!changed(&|c| c.sends[0] = u64::MAX));
    assert!(!changed(&|c| c.sends[1] = u64::MAX));
    assert!(!changed(&|c| c.sends[63] = 1));
    assert!(!changed(&|c| c.last_send = 1101));
    assert!(!changed(&|c| c.grants[2] = 3));
    assert!(!changed(&|c| c.grants[3] = 1));
    assert!(!changed(&|c| c.grants[15] = u64::MAX));
}

#[test]
fn observer_form() {
    let s = settings();
    let form = |latest, deadline, last_reading| Observer { latest, deadline, last_reading }.has_form(&s);
    assert!(form(0, 0, 0));
    assert!(!form(1, 0, 0));
    assert!(form(0, 235, 0));
    assert!(!form(0, 234, 0));
    assert!(form(1 << 40, (1 << 40) - 1 + 235, (1 << 40) - 1));
    assert!(!form(1, (1 << 40) + 235, 0));
    assert!(!form((1 << 40) + 1, 235, 0));
    assert!(!form(1, 235, 1 << 40));
}

#[test]
fn standby_form() {
    let s = settings();
    let kept = Place { kept: true, counter: 1 << 40, status: Status::Dead };
    let mut open = Standby { open: true, ts: 5, last_reading: 5, ..Standby::default() };
    assert!(open.has_form(&s));
    assert!(!Standby { ts: 6, ..open }.has_form(&s));
    assert!(!Standby { open: false, ..open }.has_form(&s));
    assert!(Standby { last_reading: (1 << 40) - 1, ..Standby::default() }.has_form(&s));
    assert!(!Standby { last_reading: 1 << 40, ..Standby::default() }.has_form(&s));
    open.places[2] = kept;
    assert!(open.has_form(&s));
    open.places[2].counter += 1;
    assert!(!open.has_form(&s));
    open.places[2] = Place { kept: false, ..kept };
    assert!(!open.has_form(&s));
    open.places[2] = kept;
    open.places[0] = kept;
    assert!(!open.has_form(&s));
    open.places[0] = Place::default();
    open.places[2] = Place::default();
    open.places[3] = kept;
    assert!(!open.has_form(&s));
}

#[test]
fn sixty_four_leases() {
    // P = 64 x eta: the 64th lease opens while the first still runs, and the 65th only after it.
    let s = Settings::accept([1, 1, 1, 1, 64, 65, 1], Fault::None).unwrap();
    let mut record = Recorder::new();
    for r in 0..64 {
        assert_eq!(record.step(&s, r, Event::Tick), Ok(Answer::Send(Message::LeaseRequest(r + 1))));
    }
    assert_eq!(record.open, 64);
    assert!(record.has_form(&s));
    let mut slept = record;
    assert_eq!(slept.step(&s, 64, Event::Tick), Ok(Answer::Stopped));
    assert_eq!(slept, Recorder { stopped: 1, last_reading: 64, ..record });
    assert_eq!(record.step(&s, 63, Event::Grant { x: 0, j: 2 }), Ok(Answer::Running));
    assert_eq!(record.step(&s, 64, Event::Tick), Ok(Answer::Send(Message::LeaseRequest(65))));
    assert_eq!(record.open, 64);
    assert_eq!(record.sends, std::array::from_fn(|i| i as u64 + 1));
    assert_eq!(record.step(&s, 65, Event::Drive), Ok(Answer::Stopped));
}
