//! The last serial: nearly a million bookings, then everything that 23 stands behind.

use super::model::{Answer, Steps, MOST_LIVE};
use super::session::{Call, Case, Desk, Session};

pub const LONG: [&str; 3] = ["23: issue", "23: book", "23 after all others"];

const LAST: u32 = 999_999;

/// One coupon is booked on and on; then others are issued, so that the till is full where the last serial is given.
fn up_to_last(desk: &mut Desk) {
    desk.words(&["a,1,7", "o", "a,9,7", "n,9,7,0"]);
    desk.script("issue,r,2,0,9,0,0", "ok,1", "");
    desk.script("issue,s,0,0,9,0,0", "ok,2", "");
    desk.script("issue,s,0,0,9,0,0", "ok,3", "");
    let more = MOST_LIVE as u32 - 3;
    for serial in 3..LAST - more {
        let sheet = format!("book,5,0,0,9,0,0,1,1\nhold,{serial}\nax,0\n").into_bytes();
        let expected = desk.model.answer(&sheet, Steps::Close);
        assert_eq!(expected, Some(Answer::Done(serial + 1)));
        desk.cases.push(Case::new(Call::Sheet, &sheet, expected));
    }
    for serial in LAST - more..LAST {
        desk.script("issue,s,0,0,9,0,0", &format!("ok,{}", serial + 1), "");
    }
}

pub fn session() -> Session {
    let mut desk = Desk::new();
    up_to_last(&mut desk);
    let last = format!("hold,{LAST}");
    desk.tally(7, 9);
    desk.script("issue,s,0,0,9,0,0", "no,22,0", "");
    desk.script("book,5,2,0,9,0,0,1,2|hold,1|cp,0|ax,1", "no,22,0", "");
    desk.script(&format!("book,5,0,0,9,0,0,1,1|{last}|ax,0"), "no,23,0", "23: book");
    desk.script(&format!("withdraw,{LAST}"), &format!("ok,{LAST}"), "");
    desk.script("issue,s,0,0,9,0,0", "no,23,0", "23: issue");
    desk.script("issue,r,2,0,9,0,0", "no,23,0", "23: issue");
    desk.script("book,5,2,0,9,0,0,1,2|hold,1|cp,0|ax,1", "no,23,0", "23: book");
    let others = [
        ("issue,s,0,0,09,0,0", "no,2,0"), ("issue,s,0,9,0,0,0", "no,3,0"), ("issue,s,9,0,9,0,0", "no,10,0"),
        ("issue,s,0,0,9,5,9", "no,43,0"), ("book,5,0,0,9,0,5,1,1|hold,2|ax,0", "no,43,0"),
        ("book,5,0,0,9,5,5,1,1|hold,2|ax,0", "no,30,0"),
        ("issue,s,1,0,9,0,0", "no,20,0"), ("issue,r,0,0,9,0,0", "no,21,0"), ("issue,s,3,0,9,0,0", "no,53,0"),
        ("issue,r,3,0,9,0,0", "no,53,0"), ("book,5,3,0,9,0,0,1,1|hold,2|ax,0", "no,53,0"),
        ("book,5,0,9,0,0,0,1,1|hold,2|ax,0", "no,3,0"),
        ("book,5,9,0,9,0,0,1,1|hold,2|ax,0", "no,10,0"), ("book,5,1,0,9,0,0,1,1|hold,2|ax,0", "no,20,0"),
        ("book,10,0,0,9,0,0,1,1|hold,2|ax,0", "no,30,0"), ("book,5,0,0,9,0,0,1,1|hold,999|ax,0", "no,24,0"),
        ("book,5,0,0,9,0,0,2,1|hold,2|hold,2|ax,0", "no,31,0"), ("book,5,0,0,9,0,0,1,1|hold,2|ax,1", "no,40,1"),
        ("book,5,0,0,9,0,0,1,2|hold,2|ax,0|ax,0", "no,42,2"), ("withdraw,999999", "no,24,0"),
    ];
    for (text, answer) in others {
        desk.script(text, answer, "23 after all others");
    }
    let copies = "|cp,0".repeat(64);
    desk.script(&format!("book,5,2,0,9,0,0,1,64|hold,1{copies}"), "no,41,64", "23 after all others");
    desk.script("word,a,5,5", "ok,4", "");
    desk.script("withdraw,2", "ok,2", "");
    desk.tally(7, 10);
    desk.session("long", 0)
}
