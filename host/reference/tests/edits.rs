//! Adding, replacing and withdrawing classes.

mod support;

use reference::{add, replace, withdraw, Refusal, VERDICT_BYTES};
use support::*;

/// User buffer, used length, verdicts and scratch.
type Contents = (Vec<u8>, usize, Vec<u8>, Vec<u8>);

/// Everything that the calls borrow.
struct Desk {
    user: Vec<u8>,
    used: usize,
    verdicts: Vec<u8>,
    scratch: Vec<u8>,
}

impl Desk {
    /// A judged user sheet in a buffer with some bytes to spare.
    fn new(user: &[u8], spare: usize) -> Desk {
        // Two bytes at the end belong to no line.
        let mut verdicts = row_of(&lines(user));
        verdicts.resize(10 * VERDICT_BYTES + 2, 0xEE);
        Desk {
            user: [user, &vec![0xEE; spare]].concat(),
            used: user.len(),
            verdicts,
            scratch: vec![0xEE; 65_536],
        }
    }

    fn contents(&self) -> Contents {
        let (verdicts, scratch) = (self.verdicts.clone(), self.scratch.clone());
        (self.user.clone(), self.used, verdicts, scratch)
    }

    fn add(&mut self, group: &[u8]) -> Result<usize, Refusal> {
        let before = self.contents();
        let (verdicts, scratch) = (&mut self.verdicts, &mut self.scratch);
        let answer = add(
            &LIBRARY,
            &mut self.user,
            &mut self.used,
            group,
            verdicts,
            scratch,
        );
        self.check_after(before, answer.is_ok());
        answer
    }

    fn replace(&mut self, class: usize, group: &[u8]) -> Result<usize, Refusal> {
        let before = self.contents();
        let (verdicts, scratch) = (&mut self.verdicts, &mut self.scratch);
        let answer = replace(
            &LIBRARY,
            &mut self.user,
            &mut self.used,
            class,
            group,
            verdicts,
            scratch,
        );
        self.check_after(before, answer.is_ok());
        answer
    }

    fn withdraw(&mut self) -> Result<usize, Refusal> {
        let before = self.contents();
        let (user, used) = (&mut self.user, &mut self.used);
        let answer = withdraw(&LIBRARY, user, used, &mut self.verdicts);
        match answer {
            Ok(class) => self.check_withdrawn(before, class - 1),
            Err(_) => assert!(self.contents() == before),
        }
        answer
    }

    /// A refused call changes nothing; after an accepted one the lines are those of judging anew.
    fn check_after(&self, before: Contents, accepted: bool) {
        if !accepted {
            assert!(self.contents() == before);
            return;
        }
        assert!(self.scratch.iter().all(|&byte| byte == 0));
        let past = self.check_lines();
        assert!(past.iter().all(|&byte| byte == 0xEE));
    }

    /// The bytes in use before and not now are zero, and so is the class's line. Everything else
    /// is as it was.
    fn check_withdrawn(&self, before: Contents, line: usize) {
        let (mut user, used, mut verdicts, scratch) = before;
        user[self.used..used].fill(0);
        verdicts[VERDICT_BYTES * line..][..VERDICT_BYTES].fill(0);
        assert!(self.contents() == (user, self.used, verdicts, scratch));
        assert_eq!(lines_of(self.check_lines())[0], CLEAN);
    }

    /// The lines are those of judging anew; gives back the bytes past the last class's.
    fn check_lines(&self) -> &[u8] {
        let fresh = lines(&self.user[..self.used]);
        let (kept, past) = self.verdicts.split_at(VERDICT_BYTES * fresh.len());
        assert_eq!(lines_of(kept), fresh);
        past
    }
}

fn plain(name: &str) -> Vec<u8> {
    class(0, 0, 0, NO_CLASS, name)
}

#[test]
fn adding_writes_group_line_and_length() {
    let mut desk = Desk::new(&POINT, 40);
    let group = [class(0, 1, 0, NO_CLASS, "D"), field(0, INT, "f")].concat();
    assert_eq!(desk.add(&group), Ok(2));
    assert_eq!(desk.used, POINT.len() + group.len());
    assert_eq!(desk.user[POINT.len()..desk.used], group);
    assert!(desk.user[desk.used..].iter().all(|&byte| byte == 0xEE));
    assert_eq!(desk.verdicts[..6], [0, 0, 0, 7, 1, 2]);
}

#[test]
fn a_replacement_reaches_all_dependents() {
    // Third holds Second, which is below First.
    let user = [
        class(0, 1, 0, NO_CLASS, "First"),
        class(0, 0, 1, NO_CLASS, "Second"),
        class(0, 1, 0, NO_CLASS, "Third"),
        field(FINAL, [0, 0, 2, 0], "f"),
        plain("Fourth"),
    ];
    let mut desk = Desk::new(&user.concat(), 0);
    assert_eq!(desk.verdicts[..12], [0; 12]);
    let before = desk.used;
    assert_eq!(desk.replace(1, &plain("F")), Ok(3));
    let kept = [CLEAN, CLEAN, (7, 1, 3), CLEAN];
    assert_eq!(desk.verdicts[..12], row_of(&kept));
    assert_eq!(desk.used, before - 4);
    assert_eq!(desk.user[desk.used..], [0; 4]);
    let first = class(0, 1, 0, NO_CLASS, "First");
    assert_eq!(desk.replace(1, &first), Ok(3));
    assert_eq!(desk.user, user.concat());
}

/// Document 02, C-16: a variable moves in its owner, and the lines that name it follow.
#[test]
fn a_replacement_moves_places_in_other_lines() {
    let owner = |field: &[u8]| [&plain("A"), field, &local(OBJECT, "v")].concat();
    let user = [
        owner(&[]),
        class(0, 1, 0, 1, "B"),
        uses(1, 0),
        class(0, 1, 2, NO_CLASS, "C"),
    ];
    let mut desk = Desk::new(&user.concat(), 20);
    assert_eq!(desk.verdicts[..9], [0, 0, 0, 7, 1, 1, 7, 1, 1]);
    let longer = owner(&field(0, INT, "f"));
    assert_eq!(desk.replace(1, &longer), Ok(3));
    assert_eq!(desk.verdicts[..9], [0, 0, 0, 7, 2, 1, 7, 2, 1]);
}

#[test]
fn only_the_lines_of_dependents_are_rewritten() {
    let user = [plain("A"), plain("B"), builds(1), plain("D")].concat();
    let mut desk = Desk::new(&user, 0);
    desk.verdicts.fill(0xEE);
    let (user, used) = (&mut desk.user, &mut desk.used);
    let (verdicts, scratch) = (&mut desk.verdicts, &mut desk.scratch);
    let answer = replace(&LIBRARY, user, used, 1, &plain("A"), verdicts, scratch);
    assert_eq!(answer, Ok(2));
    assert_eq!(desk.verdicts[..9], [0, 0, 0, 0, 0, 0, 0xEE, 0xEE, 0xEE]);
}

#[test]
fn fourteen_what_is_no_group() {
    let two = [plain("D"), plain("E")].concat();
    let headless = [builds(0), plain("D")].concat();
    let torn = [&plain("D")[..], &[6, 0, 6]].concat();
    for group in [&[][..], &two, &headless, &torn, &[3, 0, 1, 0]] {
        let mut desk = Desk::new(&POINT, 100);
        assert_eq!(desk.add(group), Err(refusal(14, 0, 0)));
        assert_eq!(desk.replace(1, group), Err(refusal(14, 0, 0)));
        assert_eq!(desk.replace(2, group), Err(refusal(13, 0, 0)));
        assert_eq!(desk.replace(0, group), Err(refusal(13, 0, 0)));
    }
    // Kinds alone are looked at: a bad body is found in the new sheet.
    let mut desk = Desk::new(&POINT, 100);
    let group = [plain("D"), record(77, &[])].concat();
    assert_eq!(desk.add(&group), Err(refusal(3, 1, 25 + 13)));
}

#[test]
fn fifteen_no_room_in_the_buffer() {
    let mut desk = Desk::new(&POINT, 12);
    assert_eq!(desk.add(&plain("D")), Err(refusal(15, 0, 0)));
    let mut desk = Desk::new(&POINT, 13);
    assert_eq!(desk.add(&plain("D")), Ok(2));
    let long = plain(&"n".repeat(27));
    assert_eq!(desk.replace(2, &long), Err(refusal(15, 0, 0)));
}

#[test]
fn fifteen_no_room_in_a_sheet() {
    let group = [plain("A"), builds(0).repeat(254)].concat();
    let mut user = Vec::new();
    for number in 0..9u8 {
        let mut group = group.clone();
        group[12] += number;
        user.extend(group);
    }
    let mut desk = Desk::new(&user, 40_000);
    for number in 9..21u8 {
        desk.verdicts.resize(30 * VERDICT_BYTES, 0xEE);
        let mut group = group.clone();
        group[12] += number;
        assert_eq!(desk.add(&group), Ok(number as usize + 1));
    }
    assert_eq!(desk.used, 21 * 1537);
    let mut last = group.clone();
    last[12] = b'z';
    assert_eq!(desk.add(&last), Err(refusal(15, 0, 0)));
}

/// Document 02, C-13: the new sheet is refused, with the byte in it.
#[test]
fn sixteen_in_the_new_group() {
    let falling = [plain("D"), builds(0), field(0, INT, "f")].concat();
    let rising = [plain("D"), field(0, INT, "f"), builds(0)].concat();
    let mut desk = Desk::new(&POINT, 40);
    assert_eq!(desk.add(&falling), Err(refusal(16, 1, 25 + 13 + 6)));
    assert_eq!(desk.add(&rising), Ok(2));
    let user = [
        plain("A"),
        local(INT, "v"),
        class(0, 0, 0, 1, "B"),
        uses(1, 0),
    ];
    let mut desk = Desk::new(&user.concat(), 40);
    assert_eq!(desk.replace(2, &falling), Err(refusal(16, 1, 22 + 13 + 6)));
    assert_eq!(desk.replace(2, &rising), Ok(1));
    // Class 2 loses the LOCAL that it uses, which the second pass would find.
    let mut desk = Desk::new(&user.concat(), 40);
    assert_eq!(desk.replace(1, &falling), Err(refusal(16, 1, 13 + 6)));
    assert_eq!(desk.replace(1, &rising), Err(refusal(9, 1, 30 + 13)));
}

#[test]
fn sixteen_comes_after_thirteen_to_fifteen_and_before_twelve() {
    let falling = [plain("DD"), builds(0), implements(0)].concat();
    let torn = [&falling[..], &[6, 0, 6]].concat();
    let two = [&falling[..], &plain("E")].concat();
    for group in [torn, two] {
        let mut desk = Desk::new(&POINT, 100);
        assert_eq!(desk.add(&group), Err(refusal(14, 0, 0)));
        assert_eq!(desk.replace(1, &group), Err(refusal(14, 0, 0)));
    }
    let mut desk = Desk::new(&POINT, 0);
    assert_eq!(desk.replace(2, &falling), Err(refusal(13, 0, 0)));
    assert_eq!(desk.replace(1, &falling), Err(refusal(15, 0, 0)));
    assert_eq!(desk.add(&falling), Err(refusal(15, 0, 0)));
    let mut desk = Desk::new(&POINT, falling.len());
    desk.verdicts.clear();
    assert_eq!(desk.replace(1, &falling), Err(refusal(16, 1, 14 + 6)));
    assert_eq!(desk.add(&falling), Err(refusal(16, 1, 25 + 14 + 6)));
}

#[test]
fn a_replacement_can_break_another_group() {
    let user = [
        plain("C"),
        local(INT, "v"),
        class(0, 0, 0, 1, "D"),
        uses(1, 0),
    ];
    let mut desk = Desk::new(&user.concat(), 0);
    assert_eq!(desk.replace(1, &plain("C")), Err(refusal(9, 1, 13 + 13)));
}

#[test]
fn twelve_comes_last() {
    let mut desk = Desk::new(&POINT, 100);
    desk.verdicts.truncate(5);
    assert_eq!(desk.add(&plain("Pt")), Err(refusal(10, 1, 25)));
    assert_eq!(desk.add(&plain("D")), Err(refusal(12, 0, 0)));
    assert_eq!(desk.replace(1, &plain("D")), Ok(1));
    desk.scratch.truncate(65_535);
    assert_eq!(desk.replace(1, &plain("D")), Err(refusal(12, 0, 0)));
}

#[test]
fn withdrawing_takes_group_line_and_length_back() {
    let last = [class(0, 1, 0, NO_CLASS, "D"), field(0, INT, "f")].concat();
    let mut desk = Desk::new(&[&POINT[..], &last].concat(), 40);
    assert_eq!(desk.verdicts[..9], [0, 0, 0, 7, 1, 2, 0xEE, 0xEE, 0xEE]);
    assert_eq!(desk.withdraw(), Ok(2));
    assert_eq!(desk.used, POINT.len());
    assert_eq!(desk.user[..POINT.len()], POINT);
    let (freed, past) = desk.user[POINT.len()..].split_at(last.len());
    assert!(freed.iter().all(|&byte| byte == 0));
    assert!(past.iter().all(|&byte| byte == 0xEE));
    assert_eq!(desk.verdicts[..9], [0, 0, 0, 0, 0, 0, 0xEE, 0xEE, 0xEE]);
}

#[test]
fn thirteen_once_all_are_withdrawn() {
    let user = [plain("A"), plain("B"), builds(1), plain("C")].concat();
    let mut desk = Desk::new(&user, 3);
    for class in [3, 2, 1] {
        assert_eq!(desk.withdraw(), Ok(class));
    }
    assert_eq!(desk.used, 0);
    assert_eq!(desk.withdraw(), Err(refusal(13, 0, 0)));
    desk.verdicts.clear();
    assert_eq!(desk.withdraw(), Err(refusal(13, 0, 0)));
}

#[test]
fn seventeen_another_class_names_the_last() {
    let naming = [
        builds(2),
        field(0, [0, 0, 2, 0], "f"),
        field(STATIC, [3, 0, 2, 0], "f"),
        local([0, 0, 2, 0], "v"),
        local([1, 0, 2, 0], "v"),
    ];
    for record in naming {
        let user = [plain("A"), record, plain("B")].concat();
        let mut desk = Desk::new(&user, 0);
        assert_eq!(desk.withdraw(), Err(refusal(17, 0, 0)));
        assert_eq!(desk.replace(1, &plain("A")), Ok(1));
        assert_eq!(desk.withdraw(), Ok(2));
    }
}

#[test]
fn naming_itself_or_others_keeps_no_class() {
    let last = [
        class(INNER, 0, 1, 1, "B"),
        field(0, [0, 0, 2, 0], "f"),
        local([1, 0, 2, 0], "v"),
        uses(2, 0),
        builds(2),
        builds(1),
    ];
    let mut desk = Desk::new(&[plain("A"), last.concat()].concat(), 0);
    assert_eq!(desk.withdraw(), Ok(2));
    // An index is no class.
    let first = [plain("A"), local(INT, "v").repeat(3), uses(1, 2)];
    let mut desk = Desk::new(&[first.concat(), plain("B")].concat(), 0);
    assert_eq!(desk.withdraw(), Ok(2));
}

#[test]
fn twelve_of_a_withdrawal_asks_for_present_lines_alone() {
    let user = [plain("A"), plain("B")].concat();
    let mut desk = Desk::new(&user, 0);
    for bytes in [0, 3, 4, 5] {
        desk.verdicts.resize(bytes, 0xEE);
        assert_eq!(desk.withdraw(), Err(refusal(12, 0, 0)));
    }
    desk.verdicts = vec![0; 6];
    assert_eq!(desk.withdraw(), Ok(2));
}

#[test]
fn seventeen_comes_before_twelve() {
    let user = [plain("A"), builds(2), plain("B")].concat();
    let mut desk = Desk::new(&user, 0);
    desk.verdicts.clear();
    assert_eq!(desk.withdraw(), Err(refusal(17, 0, 0)));
}

#[test]
fn an_addition_and_a_withdrawal_give_everything_back() {
    let mut desk = Desk::new(&POINT, 40);
    let (mut user, used, mut verdicts, _) = desk.contents();
    let group = [class(0, 1, 1, 1, "D"), field(0, INT, "f"), builds(2)].concat();
    assert_eq!(desk.add(&group), Ok(2));
    assert_eq!(desk.withdraw(), Ok(2));
    user[used..used + group.len()].fill(0);
    verdicts[3..6].fill(0);
    let scratch = vec![0; 65_536];
    assert!(desk.contents() == (user, used, verdicts, scratch));
}
