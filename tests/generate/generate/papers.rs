//! Document 01's own sessions M1 to M10, with 0,0 in each window (document 02, ask 2), M10 by document 02, ask 8.

use super::session::{Desk, Session};

pub const WORDS: [&str; 8] = ["a,1,7", "a,2,7", "a,9,7", "s,1,0", "s,2,2", "s,1,1", "t,3,4", "l,6,5"];

/// M1 up to the booking, serial 2's window ending as given.
fn before_booking(desk: &mut Desk, last: u32) {
    desk.words(&WORDS);
    desk.script("issue,r,7,0,9999,0,0", "ok,1", "");
    desk.script(&format!("issue,s,3,0,{last},0,0"), "ok,2", "");
    desk.script("issue,s,4,0,600,0,0", "ok,3", "");
    desk.script("tally,7,540", "ok,1,0,0", "");
}

/// M1's booking with its changeable places filled.
fn booking(head: &str, holds: &str, share: &str) -> String {
    let steps = "sr|sl,1|af|ax,4|sr|sl,2|af|ax,5|sr|sl,6|af|ax,7";
    format!("book,{head},3,15|{holds}|cp,0|ll,3,0000000000000006,540,600,0,0|tr,{share}|{steps}")
}

const HEAD: &str = "540,5,540,600,0,0";
const HOLDS: &str = "hold,1|hold,2|hold,3";
const SHARE: &str = "0000000000000002";

/// M1's booking as it stands.
pub fn m1_booking() -> String {
    booking(HEAD, HOLDS, SHARE)
}

fn variant(n: usize) -> Desk {
    let mut desk = Desk::new();
    before_booking(&mut desk, if n == 2 { 599 } else { 600 });
    match n {
        2 => desk.script(&booking(HEAD, HOLDS, SHARE), "no,40,5", "M2"),
        3 => desk.script(&booking(HEAD, HOLDS, "0000000000000006"), "no,40,7", "M3"),
        4 => desk.script(&booking("539,5,540,600,0,0", HOLDS, SHARE), "no,30,0", "M4"),
        5 => desk.script(&booking("540,5,540,540,0,0", HOLDS, SHARE), "ok,4", "M5"),
        7 => desk.script(&booking(HEAD, "hold,1|hold,2|hold,2", SHARE), "no,31,0", "M7"),
        _ => {
            desk.script(&booking(HEAD, HOLDS, SHARE), "ok,4", "");
            desk.script("tally,7,540", "ok,0,0,1", "M1");
            if n == 6 {
                desk.script(&booking(HEAD, HOLDS, SHARE), "no,24,0", "M6");
            }
        }
    }
    desk
}

fn m8() -> Desk {
    let mut desk = Desk::new();
    desk.words(&WORDS);
    desk.script("word,t,5,5", "ok,8", "");
    desk.script("word,l,3,8", "ok,9", "");
    desk.script("issue,r,9,0,9,0,0", "no,21,0", "M8");
    desk
}

fn m9() -> Desk {
    let mut desk = Desk::new();
    desk.words(&["a,9,7", "t,0,0", "t,1,1", "t,2,2", "t,3,3", "t,4,4"]);
    desk.script("word,s,1,5", "ok,6", "");
    desk.script("word,s,1,6", "no,12,0", "M9");
    desk
}

/// M10 with 2,047 singles (document 02, ask 8). It is long: `capacity.rs` goes on where it ends.
pub fn m10() -> Desk {
    let mut desk = Desk::new();
    desk.words(&WORDS);
    desk.script("issue,r,2,0,9,0,0", "ok,1", "");
    for serial in 2..=2_048 {
        let name = match serial - 1 {
            511 | 512 | 513 => "issue about 512 live",
            2_046 => "issue at 2,046 live",
            2_047 => "issue at 2,047 live",
            _ => "",
        };
        desk.script("issue,s,2,0,9,0,0", &format!("ok,{serial}"), name);
    }
    desk.script("book,0,2,0,9,0,0,1,1|hold,2|ax,0", "ok,2049", "");
    desk.script("book,0,2,0,9,0,0,1,2|hold,1|cp,0|ax,1", "no,22,0", "M10");
    desk
}

pub const PAPERS: [&str; 10] = ["M1", "M2", "M3", "M4", "M5", "M6", "M7", "M8", "M9", "M10"];

/// M1 to M9; M10 is the beginning of a session of `capacity.rs`.
pub fn sessions() -> Vec<Session> {
    let desk = |n: usize| match n {
        8 => m8(),
        9 => m9(),
        _ => variant(n),
    };
    (1..=9).map(|n| desk(n).session(PAPERS[n - 1], 0)).collect()
}
