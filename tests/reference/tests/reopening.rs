//! What closing and opening make of each other (document 02, ask 5), and sheets after an opening.

use super::{ask, booking, opened, refusal_of, text, text_of, till_after, Answer, Counted, Done, Numbers, Refused, Till};

#[test]
fn numbers_and_serials_go_on_where_the_text_ends() {
    let mut till = opened(&text(9, &["a,9,7", "o"], &["2,s,0,0,9,0,0", "5,r,1,0,9,0,0"]));
    assert_eq!(ask(&mut till, "word,o"), Refused(13, 0));
    assert_eq!(ask(&mut till, "word,b,2"), Refused(10, 0));
    assert_eq!(ask(&mut till, "word,b,1"), Done(2));
    assert_eq!(ask(&mut till, "issue,s,3,0,9,0,0"), Refused(10, 0));
    assert_eq!(ask(&mut till, "issue,s,0,0,9,0,0"), Done(9));
    for serial in [1, 3, 4, 6, 7, 8, 10] {
        assert_eq!(ask(&mut till, &format!("withdraw,{serial}")), Refused(24, 0), "{serial}");
    }
    assert_eq!(ask(&mut till, &booking("0,0,0,9,0,0", &[2], &["ax,0"])), Done(10));
    assert_eq!(ask(&mut till, "withdraw,5"), Done(5));
    let after = text(11, &["a,9,7", "o", "b,1"], &["9,s,0,0,9,0,0", "10,s,0,0,9,0,0"]);
    assert_eq!(text_of(&till), after);
}

#[test]
fn an_opened_till_has_the_kinds_wordings_and_windows_of_its_text() {
    let words = ["a,1,7", "a,9,7", "s,1,0", "l,0,0"];
    let till = text(6, &words, &["1,s,1,3,9,5,6", "3,r,1,0,5,0,0", "5,s,2,10,20,14,15"]);
    let mut till = opened(&till);
    for (minute, open) in [(9, 0), (10, 1), (13, 1), (14, 0), (15, 0), (16, 1), (20, 1), (21, 0)] {
        assert_eq!(ask(&mut till, &format!("tally,7,{minute}")), Counted(open, 1 - open, 0), "{minute}");
    }
    // serial 1's window, with its break
    for (head, answer) in [("3,1,3,9,0,0", Refused(40, 1)), ("2,1,2,4,0,0", Refused(40, 1)), ("7,1,7,9,0,0", Done(6))] {
        assert_eq!(ask(&mut till, &booking(head, &[1], &["ax,0"])), answer, "{head}");
    }
    // serial 3 is standing, for 0..5
    assert_eq!(ask(&mut till, &booking("1,1,1,5,0,0", &[3], &["ax,0"])), Refused(40, 1));
    assert_eq!(ask(&mut till, &booking("1,1,1,6,0,0", &[3], &["cp,0", "ax,1"])), Refused(40, 2));
    assert_eq!(ask(&mut till, &booking("1,1,1,5,0,0", &[3], &["cp,0", "ax,1"])), Done(7));
    assert_eq!(ask(&mut till, &booking("1,1,1,5,0,0", &[3], &["cp,0", "ax,1"])), Done(8));
    // serial 5 is ⟨1⟩seat
    let steps = ["sr", "sl,0", "af", "ax,1"];
    assert_eq!(ask(&mut till, &booking("11,2,11,13,0,0", &[5], &steps)), Done(9));
    assert_eq!(ask(&mut till, "tally,7,11"), Counted(1, 0, 0));
    assert_eq!(ask(&mut till, "tally,7,16"), Counted(0, 1, 0));
}

#[test]
fn an_opened_wording_is_what_word_makes_of_it() {
    // weights, plainness, sizes and house seats are those of the lines
    let words = ["a,1,7", "a,2,7", "s,1,0", "s,2,0", "t,2,3", "t,4,1", "l,0,1", "w,0,1", "w,0,6", "p,7,7", "l,0,7"];
    let requests = words.map(|word| format!("word,{word}"));
    for line in ["r,6", "r,10", "r,7", "r,8", "r,9", "s,4", "s,5", "s,6", "s,7", "r,4"] {
        let mut worded = till_after(&requests.each_ref().map(String::as_str));
        let mut till = opened(&text(1, &words, &[]));
        let answer = ask(&mut till, &format!("issue,{line},0,9,3,4"));
        assert_eq!(answer, ask(&mut worded, &format!("issue,{line},0,9,3,4")), "{line}");
        assert_eq!(ask(&mut till, "tally,7,0"), ask(&mut worded, "tally,7,0"), "{line}");
        let due = if matches!(answer, Done(_)) { 0 } else { 51 };
        assert_eq!(refusal_of(text(2, &words, &[&format!("1,{line},0,9,3,4")]).as_bytes()), due, "{line}");
    }
    let mut till = opened(&text(3, &words, &["1,s,5,0,9,0,0", "2,s,4,0,9,0,0"]));
    assert_eq!(ask(&mut till, "tally,7,0"), Counted(2, 2, 1));
    assert_eq!(ask(&mut till, "tally,263,0"), Counted(0, 0, 0));
}

#[test]
fn a_till_opened_at_next_1_000_000_gives_no_serial() {
    let full = text(1_000_000, &["a,9,7", "o"], &["7,r,1,0,9,0,0", "999999,s,0,0,9,0,0"]);
    let mut till = opened(&full);
    assert_eq!(ask(&mut till, "issue,s,0,0,9,0,0"), Refused(23, 0));
    assert_eq!(ask(&mut till, "issue,r,1,0,9,0,0"), Refused(23, 0));
    assert_eq!(ask(&mut till, "issue,s,1,0,9,0,0"), Refused(20, 0));
    assert_eq!(ask(&mut till, &booking("0,0,0,9,0,0", &[999_999], &["ax,0"])), Refused(23, 0));
    assert_eq!(text_of(&till), full);
    assert_eq!(ask(&mut till, "word,b,1"), Done(2));
    assert_eq!(ask(&mut till, "withdraw,999999"), Done(999_999));
    assert_eq!(ask(&mut till, "issue,s,0,0,9,0,0"), Refused(23, 0));
    assert_eq!(text_of(&till), text(1_000_000, &["a,9,7", "o", "b,1"], &["7,r,1,0,9,0,0"]));
    // one below: the last serial is given, and written
    let mut till = opened(&text(999_999, &["a,9,7"], &["999998,s,0,0,9,0,0"]));
    assert_eq!(ask(&mut till, &booking("0,0,0,9,0,0", &[999_998], &["ax,0"])), Done(999_999));
    assert_eq!(ask(&mut till, "issue,s,0,0,9,0,0"), Refused(23, 0));
    assert_eq!(text_of(&till), text(1_000_000, &["a,9,7"], &["999999,s,0,0,9,0,0"]));
    opened(&text_of(&till));
    // none live, next 1 or more
    let mut till = opened("till,1,1000000,0,0\n");
    assert_eq!(ask(&mut till, "word,o"), Done(0));
    assert_eq!(ask(&mut till, "issue,r,0,0,9,0,0"), Refused(23, 0));
    let mut till = opened("till,1,1,0,0\n");
    assert_eq!(ask(&mut till, "word,o"), Done(0));
    assert_eq!(ask(&mut till, "issue,r,0,0,9,0,0"), Done(1));
}

#[test]
fn a_full_till_opened_answers_22_before_23() {
    let coupons: Vec<String> = (0..2048).map(|n| format!("{},s,0,0,9,0,0", 997_952 + n)).collect();
    let coupons: Vec<&str> = coupons.iter().map(String::as_str).collect();
    let mut till = opened(&text(1_000_000, &["a,9,7"], &coupons));
    assert_eq!(ask(&mut till, "issue,s,0,0,9,0,0"), Refused(22, 0));
    assert_eq!(ask(&mut till, &booking("0,0,0,9,0,0", &[999_500], &["ax,0"])), Refused(23, 0));
    assert_eq!(ask(&mut till, "withdraw,997952"), Done(997_952));
    assert_eq!(ask(&mut till, "issue,s,0,0,9,0,0"), Refused(23, 0));
    for serial in 997_953..=999_999 {
        assert_eq!(ask(&mut till, &format!("withdraw,{serial}")), Done(serial));
    }
    assert_eq!(text_of(&till), text(1_000_000, &["a,9,7"], &[]));
}

/// A window of minutes to 20, at times one that is refused.
fn random_window(numbers: &mut Numbers) -> String {
    let (from, to) = (numbers.below(20), numbers.below(21));
    let (from, to) = if numbers.below(20) > 0 { (from.min(to), from.max(to)) } else { (from, to) };
    if to > from + 1 && numbers.below(2) == 0 {
        let first = from + 1 + numbers.below(to - from - 1);
        let last = first + numbers.below(to - first);
        return format!("{from},{to},{first},{last}");
    }
    let last = if numbers.below(30) == 0 { 5 } else { 0 };
    format!("{from},{to},0,{last}")
}

/// A wording line over `count` earlier ones, at times one that is refused.
fn random_wording(numbers: &mut Numbers, count: usize) -> String {
    let letter = b"atwplubhsgoatsnq"[numbers.below(16)] as char;
    let part = |numbers: &mut Numbers| {
        let later = numbers.below(40) == 0;
        numbers.below(count + usize::from(later))
    };
    match letter {
        'a' => format!("a,{},{}", numbers.below(4), [0, 7, 263, 65_535][numbers.below(4)]),
        'n' => {
            let session = [0, 7, 263, 65_535][numbers.below(4)];
            format!("n,{},{session},{}", numbers.below(4), [0, 0, 7, 65_535][numbers.below(4)])
        }
        'o' => "o".to_string(),
        'g' => format!("g,{},{}", random_window(numbers), random_window(numbers)),
        _ if count == 0 => "a,1,7".to_string(),
        'b' | 'q' => format!("{letter},{}", part(numbers)),
        's' => format!("s,{},{}", numbers.below(3), part(numbers)),
        'h' => format!("h,{},{}", part(numbers), random_window(numbers)),
        _ => format!("{letter},{},{}", part(numbers), part(numbers)),
    }
}

/// A sheet that a till with so many wordings may accept; `issued` has the sheets of its coupons, by
/// serial.
fn random_sheet(numbers: &mut Numbers, count: usize, issued: &[String]) -> String {
    let serial = 1 + numbers.below(issued.len() + 1);
    match numbers.below(12) {
        0..=3 => format!("word,{}", random_wording(numbers, count)),
        4..=7 => {
            let kind = if numbers.below(3) == 0 { 'r' } else { 's' };
            format!("issue,{kind},{},{}", numbers.below(count + 1), random_window(numbers))
        }
        8 => format!("withdraw,{serial}"),
        9 => format!("tally,{},{}", [0, 7, 263, 65_535][numbers.below(4)], numbers.below(21)),
        _ => {
            // the same wording, for the first minute of the window
            let fields: Vec<&str> = issued.get(serial - 1).map_or("issue,s,0,0", |sheet| sheet).split(',').collect();
            let (wording, minute) = (fields[2], fields[3]);
            let steps: &[&str] = if fields[1] == "r" { &["cp,0", "ax,1"] } else { &["ax,0"] };
            booking(&format!("{minute},{wording},{minute},{minute},0,0"), &[serial as u32], steps)
        }
    }
}

/// Random sheets and the answers of a till to them; with `reopen` it is closed and opened now and then.
/// Also the text that it comes to.
fn random_session(seed: u64, reopen: bool) -> (Vec<(String, Answer)>, String) {
    let mut numbers = Numbers(seed);
    let mut till = Till::new();
    let (mut count, mut issued, mut answers) = (0, Vec::new(), Vec::new());
    for turn in 0..400 {
        if reopen && turn % 7 == 0 {
            let text = text_of(&till);
            till = opened(&text);
            assert_eq!(till.reopen(text.as_bytes()), Ok(text.len()));
        }
        let sheet = random_sheet(&mut numbers, count, &issued);
        let answer = ask(&mut till, &sheet);
        if let Done(_) = answer {
            count += usize::from(sheet.starts_with("word"));
            if sheet.starts_with("issue") {
                issued.push(sheet.clone());
            }
            if sheet.starts_with("book") {
                // book,now,wording,from,..
                let fields: Vec<&str> = sheet.split(',').collect();
                issued.push(format!("issue,s,{},{}", fields[2], fields[3]));
            }
        }
        answers.push((sheet, answer));
    }
    (answers, text_of(&till))
}

#[test]
fn a_till_that_is_closed_and_opened_answers_as_one_that_is_not() {
    let mut accepted = Vec::new();
    for seed in 1..150 {
        let plain = random_session(seed, false);
        assert_eq!(random_session(seed, true), plain, "{seed}");
        let passed = |answer: &Answer| !matches!(answer, Refused(..) | Counted(0, 0, 0));
        accepted.extend(plain.0.into_iter().filter(|(_, answer)| passed(answer)));
    }
    for start in ["word,", "issue,s,", "issue,r,", "withdraw,", "book,", "tally,"] {
        let count = accepted.iter().filter(|(sheet, _)| sheet.starts_with(start)).count();
        assert!(count > 100, "{start} {count}");
    }
}

/// The fields of the first line after `till`, if it is in form.
fn head(line: &str) -> Option<[usize; 4]> {
    let mut fields = line.split(',');
    if fields.next() != Some("till") {
        return None;
    }
    let mut numbers = [0; 4];
    for (number, (low, high)) in numbers.iter_mut().zip([(1, 2), (1, 1_000_000), (0, 200), (0, 2048)]) {
        *number = spelled(fields.next()?).filter(|found| (low..=high).contains(found))?;
    }
    fields.next().is_none().then_some(numbers)
}

/// A number that is written as numbers are.
fn spelled(field: &str) -> Option<usize> {
    field.parse::<usize>().ok().filter(|number| number.to_string() == field)
}

/// What opening should answer, read line by line with sheets: 0, 50 or 51. `scratch` tells whether a
/// sheet is in form.
fn due(text: &[u8], scratch: &mut Till) -> u32 {
    let Some((next, sheets, serials)) = sheets_of(text) else {
        return 50;
    };
    let in_form = !sheets.iter().any(|sheet| ask(scratch, sheet) == Refused(2, 0));
    if !in_form || !serials.is_sorted_by(|one, other| one < other) {
        return 50;
    }
    let mut till = Till::new();
    let refused = sheets.iter().any(|sheet| matches!(ask(&mut till, sheet), Refused(..)));
    if refused || serials.iter().any(|&serial| serial >= next) {
        return 51;
    }
    0
}

/// Next, the sheets that say what a text's lines say, and its serials. None if the form is broken where
/// the sheets do not show it.
fn sheets_of(text: &[u8]) -> Option<(usize, Vec<String>, Vec<usize>)> {
    let lines: Vec<&str> = std::str::from_utf8(text).ok()?.strip_suffix('\n')?.split('\n').collect();
    let [edition, next, wordings, coupons] = head(lines[0])?;
    if lines.len() != 1 + wordings + coupons {
        return None;
    }
    let holders = lines[1..=wordings].iter().any(|line| line.starts_with(['n', 'q']));
    if edition != 1 + usize::from(holders || coupons > 512) {
        return None;
    }
    let mut sheets: Vec<String> = lines[1..=wordings].iter().map(|line| format!("word,{line}")).collect();
    let mut serials = Vec::new();
    for line in &lines[1 + wordings..] {
        let (serial, rest) = line.split_once(',')?;
        serials.push(spelled(serial).filter(|serial| (1..=999_999).contains(serial))?);
        sheets.push(format!("issue,{rest}"));
    }
    Some((next, sheets, serials))
}

/// A text of random lines, many of them against a rule, at times in the other edition.
fn random_text(numbers: &mut Numbers) -> String {
    let words: Vec<String> = (0..numbers.below(7)).map(|count| random_wording(numbers, count)).collect();
    let mut serial = 0;
    let mut coupons = Vec::new();
    for _ in 0..numbers.below(4) {
        serial += if numbers.below(25) == 0 { 0 } else { 1 + numbers.below(12) };
        let kind = if numbers.below(2) == 0 { 'r' } else { 's' };
        let beyond = words.is_empty() || numbers.below(9) == 0;
        let wording = numbers.below(words.len() + usize::from(beyond));
        coupons.push(format!("{serial},{kind},{wording},{}", random_window(numbers)));
    }
    let next = if numbers.below(9) == 0 { 1 + numbers.below(serial + 1) } else { serial + 1 + numbers.below(3) };
    let words: Vec<&str> = words.iter().map(String::as_str).collect();
    let coupons: Vec<&str> = coupons.iter().map(String::as_str).collect();
    let text = text(next as u32, &words, &coupons);
    match numbers.below(8) {
        0 => format!("till,{}{}", 1 + numbers.below(2), &text[6..]),
        _ => text,
    }
}

#[test]
fn opening_asks_what_word_and_issue_ask() {
    let mut numbers = Numbers(5);
    let mut scratch = Till::new();
    let mut seen = [0; 52];
    for _ in 0..20_000 {
        let text = random_text(&mut numbers);
        let found = refusal_of(text.as_bytes());
        assert_eq!(found, due(text.as_bytes(), &mut scratch), "{text}");
        seen[found as usize] += 1;
    }
    assert!(seen[0] > 2000 && seen[50] > 200 && seen[51] > 2000, "{} {} {}", seen[0], seen[50], seen[51]);
}

#[test]
fn opening_asks_the_same_of_a_text_with_any_byte_changed_put_in_or_left_out() {
    let words = ["a,1,7", "o", "t,0,0", "l,0,0", "h,1,0,9,3,4", "g,10,11,0,0,0,9,0,0", "n,9,7,0", "q,6", "n,1,7,5"];
    let coupons = ["2,r,3,0,12,3,4", "10,s,2,5,6,0,0", "11,s,0,9,9,0,0", "12,r,7,0,9,0,0", "13,s,8,0,9,0,0"];
    // the edition hangs on one letter in the second and third
    let (with_q, without) = (["a,1,7", "o", "q,1"], ["a,1,7", "o", "b,1"]);
    let texts = [text(14, &words, &coupons), text(1, &with_q, &[]), text(1, &without, &[])];
    let mut scratch = Till::new();
    let mut seen = [0; 52];
    let mut check = |text: &[u8]| {
        let found = refusal_of(text);
        assert_eq!(found, due(text, &mut scratch), "{}", String::from_utf8_lossy(text));
        seen[found as usize] += 1;
    };
    for text in texts {
        with_any_byte_changed(text.as_bytes(), &mut check);
    }
    assert!(seen[0] > 300 && seen[50] > 1000 && seen[51] > 300, "{} {} {}", seen[0], seen[50], seen[51]);
}

/// The text itself, and all with one byte of it changed, put in or left out.
fn with_any_byte_changed(text: &[u8], check: &mut impl FnMut(&[u8])) {
    check(text);
    for at in 0..text.len() {
        let mut changed = text.to_vec();
        changed.remove(at);
        check(&changed);
        for &byte in b"0123456789abghlnopqrstuwilx,\n\r \0-+\xff" {
            changed.insert(at, byte);
            check(&changed);
            changed.insert(at + 1, text[at]);
            check(&changed);
            changed.drain(at..at + 2);
        }
    }
}

#[test]
fn opening_asks_the_same_of_a_text_with_any_two_lines_exchanged_or_one_repeated() {
    let words = ["a,1,7", "o", "t,0,0", "l,0,0", "h,1,0,9,3,4", "b,4", "n,9,7,0", "q,6", "n,9,7,5"];
    let coupons = ["2,r,3,0,12,3,4", "10,s,2,5,6,0,0", "11,s,0,9,9,0,0", "12,r,7,0,9,0,0", "13,s,8,0,9,0,0"];
    let text = text(14, &words, &coupons);
    let lines: Vec<&str> = text.lines().collect();
    let mut scratch = Till::new();
    let mut check = |lines: &[&str]| {
        let text = lines.join("\n") + "\n";
        assert_eq!(refusal_of(text.as_bytes()), due(text.as_bytes(), &mut scratch), "{text}");
    };
    for one in 0..lines.len() {
        for other in 0..lines.len() {
            let mut changed = lines.clone();
            changed.swap(one, other);
            check(&changed);
            changed.clone_from(&lines);
            changed[one] = lines[other];
            check(&changed);
            changed.clone_from(&lines);
            let moved = changed.remove(one);
            changed.insert(other, moved);
            check(&changed);
        }
    }
}

#[test]
fn no_bytes_make_opening_panic() {
    let mut numbers = Numbers(11);
    let alphabet = b"0123456789abcdefghijklmnopqrstuvwxyz,\n\r \0\xff-";
    for _ in 0..20_000 {
        let mut text = random_text(&mut numbers).into_bytes();
        for _ in 0..numbers.below(5) {
            let at = numbers.below(text.len());
            match numbers.below(4) {
                0 => text[at] = alphabet[numbers.below(alphabet.len())],
                1 => text.truncate(at + 1),
                2 => text.insert(at, alphabet[numbers.below(alphabet.len())]),
                _ => text[at] = numbers.below(256) as u8,
            }
        }
        refusal_of(&text);
        let bytes: Vec<u8> = (0..numbers.below(60)).map(|_| alphabet[numbers.below(alphabet.len())]).collect();
        assert_eq!(refusal_of(&bytes), 50);
        assert_eq!(refusal_of(&[b"till,1,", &bytes[..]].concat()) / 10, 5);
    }
}
