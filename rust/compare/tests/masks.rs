//! The masks of effective permissions that the table keeps: requests that change them and masks that are not true on every
//! guard, tables from before there were masks, and what the random cases make of masks: everything that they can, each often.

use crate::common::{after, ask, ask_all, every_kind, expect, is_sound, judge, masks_of, Counts, Words, MASKS};
use compare::{damaged, guards, links, requests, watch, Case, Guard, Layer, Random, Run, Step, GUARDS, LENT, WORDS};

/// Role 5 above 3, 3 above 1; role 1 is granted (0, 9), and user 2 is assigned 5. Word 1096 is the first mask of session 0,
/// word 1104 of session 1, and word 1120 of session 3.
const ABOVE: &str = "roles; above 5 3; above 3 1; permit 0 9; run; grant 1 0 9; assign 2 5";

#[test]
fn words_of_masks() {
    let requests: [([u64; 4], u64, Words); 22] = [
        ([3, 0, 2, 32], 1, &[(648, 3), (680, 32), (1096, 512)]),
        ([3, 1, 2, 8], 1, &[(649, 3), (681, 8), (1104, 512)]),
        ([10, 1, 0, 9], 1, &[(145, 0), (1096, 0), (1104, 0)]), // of sessions that it does not name
        ([1, 0, 9, 0], 0, &[]),
        ([9, 3, 0, 9], 1, &[(145, 8), (1096, 512), (1104, 512)]), // session 0 through a junior
        ([9, 3, 0, 9], 1, &[]),
        ([9, 1, 0, 9], 1, &[(145, 10)]), // both have it already
        ([10, 1, 0, 9], 1, &[(145, 8)]), // both keep it
        ([1, 0, 9, 0], 1, &[(712, 512)]),
        ([6, 0, 5, 0], 0, &[]), // judged by the masks without role 5
        ([10, 3, 0, 9], 0, &[]),
        ([5, 0, 3, 0], 1, &[(680, 40)]),
        ([6, 0, 5, 0], 1, &[(680, 8)]),
        ([4, 1, 0, 0], 1, &[(649, 0), (681, 0), (1104, 0)]),
        ([7, 7, 5, 0], 1, &[(79, 32)]), // assigned is not active
        ([8, 7, 5, 0], 1, &[(79, 0)]),
        ([7, 4, 7, 0], 1, &[(76, 128)]),
        ([3, 3, 4, 128], 1, &[(651, 5), (683, 128)]),
        ([13, 7, 3, 0], 1, &[(1039, 8), (7, 138), (1120, 512)]),
        ([1, 3, 9, 0], 1, &[(736, 512)]),
        ([2, 3, 9, 0], 1, &[(736, 0)]), // closed, and still effective
        ([14, 7, 3, 0], 1, &[(1039, 0), (7, 128), (1120, 0)]),
    ];
    ask_all(ABOVE, &requests);
}

/// Every one of the 32 sessions, of the 8 modes and of the 64 objects has its bit, in place 1096 + 8 * session + mode.
#[test]
fn every_mask() {
    let permits: String = (0..64).map(|object| format!("permit {} {object}; ", object % 8)).collect();
    let starts: String = (0..32).map(|session| format!("; start {session} {session} 2")).collect();
    let assigns: String = (0..32).map(|user| format!("; assign {user} 1")).collect();
    let text = format!("roles; above 1 0; {permits}run{assigns}{starts}");
    for guard in guards() {
        let mut run = after(guard, &text);
        for object in 0..64 {
            let mode = object % 8;
            let masks = |sessions: usize, word: u64| {
                let at = move |session: usize| MASKS + 8 * session + mode as usize;
                (0..sessions).map(move |session| (at(session), word)).collect::<Vec<(usize, u64)>>()
            };
            let granted = (136 + 64 * mode as usize + object as usize, 1);
            ask(&mut run, guard, [9, 0, mode, object], 1, &[masks(32, 1 << object), vec![granted]].concat());
            ask(&mut run, guard, [10, 0, mode, object], 1, &[masks(32, 0), vec![(granted.0, 0)]].concat());
        }
    }
}

/// Openings, drops and revokes follow the masks as each request left them.
#[test]
fn masks_in_use() {
    expect(
        "roles; above 5 3; permit 0 9; permit 1 9; run; assign 2 5: 1; assign 2 4: 1
         start 0 2 0: 1; open 0 9 0: 0; activate 0 5: 1; open 0 9 0: 0; grant 3 0 9: 1; open 0 9 0: 1; open 0 9 1: 0
         drop 0 5: 0; activate 0 4: 1; drop 0 5: 0; grant 4 0 9: 1; drop 0 5: 1; revoke 3 0 9: 1; revoke 4 0 9: 0
         end 0: 1; open 0 9 0: 0; start 0 2 8: 1; open 0 9 0: 0; drop 0 3: 1; drop 0 3: 1; start 1 2 16: 1; open 1 9 0: 1
         !role 13 4 3 0: 1; revoke 4 0 9: 0; grant 3 0 9: 1; revoke 4 0 9: 1; !role 14 4 3 0: 0; open 0 9 0: 0
         close 1 9 0: 1; !role 14 4 3 0: 1; open 1 9 0: 0",
    );
}

/// Either set-up leaves all masks empty, whatever stood there.
#[test]
fn masks_of_a_set_up() {
    for guard in guards() {
        let (mut roles, mut labels) = ([u64::MAX; WORDS], [u64::MAX; WORDS]);
        assert_eq!((guard.role_setup)(&mut roles, &[0; 64], &[u64::MAX; 8]), 1, "{}", guard.name);
        assert_eq!((guard.label_setup)(&mut labels, &[31; 64], &[0; 64]), 1, "{}", guard.name);
        assert!([roles, labels].iter().all(|table| table[MASKS..] == [0; 256]), "{}", guard.name);
    }
}

/// A label start writes what its level reads and what it writes, an end takes it away, and a reclear leaves it: of all objects
/// level 17 reads all but 8, which has label 25 and which it writes.
#[test]
fn masks_of_label_tables() {
    let reads = !(1 << 8);
    for guard in guards() {
        let mut run = after(guard, "lattice; clear 4 17; label 7 9; label 8 25; run");
        for (asked, answers, masks) in [
            ([3, 2, 4, 18], [0, 1], [0, 0]),
            ([3, 2, 4, 17], [1, 1], [reads, 1 << 8]),
            ([1, 2, 7, 0], [1, 1], [reads, 1 << 8]),
            ([5, 4, 25, 0], [1, 2], [reads, 1 << 8]),
            ([2, 2, 7, 0], [1, 1], [reads, 1 << 8]),
            ([4, 2, 0, 0], [1, 1], [0, 0]),
        ] {
            let reply = run.step(guard, &Step::Label(asked)).map(|reply| reply.answers);
            assert_eq!(reply, Some(answers.to_vec()), "{asked:?} by the {}", guard.name);
            assert_eq!(
                run.table[MASKS + 16..][..8],
                [masks[0], masks[1], 0, 0, 0, 0, 0, 0],
                "{asked:?}, {}",
                guard.name
            );
            assert!(run.table[MASKS..] == masks_of(&run.table), "{asked:?} by the {}", guard.name);
        }
    }
}

/// A bit too few and a bit too many, in the first mask and in the last, of a session in use and of an idle one, and of one
/// that has a user and no roles; a bit in the mask of another mode; and the masks of another session.
#[test]
fn masks_that_are_not_true() {
    let roles = "roles; above 5 3; permit 0 9; permit 7 63; permit 1 1; run; grant 3 0 9; grant 3 7 63; grant 4 1 1
        assign 2 5; assign 2 4; start 0 2 32; start 31 2 40; start 30 2 0; start 1 2 16; open 0 9 0";
    // level 0 reads label 0 and writes everything
    let labels = "lattice; clear 4 31; label 63 9; run; start 0 4 0; start 31 4 31; open 0 63 1";
    let damages: [Words; 14] = [
        &[(1096, 512)],
        &[(1096, 256)],
        &[(1103, 1 << 63)],
        &[(1344, 512)],
        &[(1351, 1 << 63)],
        &[(1351, 1)],
        &[(1350, 1 << 63)],
        &[(1105, 2)],
        &[(1104, 2)],
        &[(1336, 1)],
        &[(1343, 1 << 63)],
        &[(1136, 512)], // session 5 is idle
        &[(1143, 1 << 63)],
        &[(1096, 512), (1097, 512)],
    ];
    for guard in guards() {
        for (text, answers) in [(roles, [14, 0]), (labels, [1, 1])] {
            judge(&mut after(guard, text), guard, answers, true);
            for turned in damages {
                let mut run = after(guard, text);
                turned.iter().for_each(|(at, bits)| run.table[*at] ^= bits);
                judge(&mut run, guard, answers, false);
            }
            let mut run = after(guard, text);
            (1096..1104).for_each(|at| run.table.swap(at, at + 8)); // sessions 0 and 1 exchanged
            judge(&mut run, guard, answers, false);
        }
    }
}

/// A table of 1,096 words is refused for its length; with the masks worked out behind it, it is what the guard would have.
#[test]
fn tables_of_1096_words() {
    let mut random = Random::new(12);
    for guard in guards() {
        for layer in Layer::ALL {
            let mut run = Run::default();
            for step in &requests(&mut random, layer).0 {
                run.step(guard, step);
            }
            let whole = run.table.clone();
            run.step(guard, &Step::Keep);
            run.step(guard, &Step::Length(MASKS));
            let alike = |run: &mut Run| run.step(guard, &Step::Alike).map(|reply| reply.answers);
            assert_eq!(alike(&mut run), Some(vec![12, 12]), "{}", guard.name);
            run.table.extend(masks_of(&whole));
            assert_eq!(alike(&mut run), Some(vec![1, 1]), "{}", guard.name);
            assert!(run.table == whole, "{}", guard.name);
        }
    }
}

/// After every call of random histories the masks are what the other words lead to, and what the guard reads for each session;
/// the second implementation, whose readings take long, is asked for these at the end.
#[test]
fn masks_are_the_effective_permissions() {
    let mut random = Random::new(13);
    for _ in 0..12 {
        let cases = [requests(&mut random, Layer::Roles), requests(&mut random, Layer::Labels), links(&mut random)];
        for (guard, case) in guards().flat_map(|guard| cases.iter().map(move |case| (guard, case))) {
            let mut run = Run::default();
            let last = case.0.len() - 1;
            for (at, step) in case.0.iter().enumerate() {
                run.step(guard, step);
                assert!(run.table[MASKS..] == masks_of(&run.table), "step {} by the {}", at + 1, guard.name);
                if at == last || GUARDS.iter().any(|other| other.name == guard.name) {
                    check_readings(&run.table, guard);
                }
            }
        }
    }
}

/// Holds the reading of every session to its masks.
fn check_readings(table: &[u64], guard: &Guard) {
    for session in 0..32 {
        let mut masks = [LENT; 8];
        assert_eq!((guard.effective_permissions)(table, session, &mut masks), 1, "{}", guard.name);
        assert_eq!(table[MASKS + 8 * session as usize..][..8], masks, "session {session} by the {}", guard.name);
    }
}

/// What the Rust crate reads of the sessions: all of it off the words, and none of it off a table that is refused.
#[cfg(feature = "proved")]
#[test]
fn sessions_of_the_crate() {
    use compare::PLAIN;
    use sheetguard::{sessions, Refusal, Session};

    let mut random = Random::new(15);
    for _ in 0..40 {
        let mut run = Run::default();
        requests(&mut random, Layer::Roles).0.iter().for_each(|step| drop(run.step(&PLAIN, step)));
        let mut table = run.table;
        let words = |first: usize, s: usize| std::array::from_fn(|x| table[first + 8 * s + x]);
        let session = |s: usize| Session {
            user: table[648 + s] - 1,
            roles: table[680 + s],
            may_open: words(MASKS, s),
            open: words(712, s),
        };
        let expected = std::array::from_fn(|s| (table[648 + s] != 0).then(|| session(s)));
        assert_eq!(sessions(&table), Ok(expected));
        assert_eq!(sessions(&table[..WORDS - 1]), Err(Refusal::WrongLength));
        table[MASKS + random.below(256) as usize] ^= 1 << random.below(64);
        assert_eq!(sessions(&table), Err(Refusal::Unsound));
    }
}

/// The number of sessions whose masks differ in two tables.
fn changed(before: &[u64], after: &[u64]) -> usize {
    before[MASKS..].chunks(8).zip(after[MASKS..].chunks(8)).filter(|(one, other)| one != other).count()
}

/// What a request that is answered yes and changes the table does to the masks.
fn kind_of_change(step: &Step, sessions: usize) -> Option<&'static str> {
    Some(match (step, sessions) {
        (Step::Role([3, ..]), 1) => "start",
        (Step::Role([4, ..]), 1) => "end",
        (Step::Role([5, ..]), 0) => "activate, no mask",
        (Step::Role([5, ..]), _) => "activate",
        (Step::Role([6, ..]), 0) => "drop, no mask",
        (Step::Role([6, ..]), _) => "drop",
        (Step::Role([9, ..]), 0) => "grant, no mask",
        (Step::Role([9, ..]), 1) => "grant, one session",
        (Step::Role([9, ..]), _) => "grant, several sessions",
        (Step::Role([10, ..]), 0) => "revoke, no mask",
        (Step::Role([10, ..]), 1) => "revoke, one session",
        (Step::Role([10, ..]), _) => "revoke, several sessions",
        (Step::Role([13, ..]), 0) => "link, no mask",
        (Step::Role([13, ..]), 1) => "link, one session",
        (Step::Role([13, ..]), _) => "link, several sessions",
        (Step::Role([14, ..]), 0) => "unlink, no mask",
        (Step::Role([14, ..]), _) => "unlink, some session",
        (Step::Label([3, ..]), 1) => "label start",
        (Step::Label([4, ..]), 1) => "label end",
        _ => return None,
    })
}

/// The call that meets masks that are not true in a table that is sound but for them, and in which way they are not.
fn kind_of_fault(table: &[u64], step: &Step) -> Option<[&'static str; 2]> {
    let anew = masks_of(table);
    let mended = [&table[..MASKS], &anew[..]].concat();
    let call = match step {
        Step::Role(_) => "13, role request",
        Step::Label(_) => "13, label request",
        Step::Tallied(_) => "13, tallied opening",
        Step::Alike => "13, likeness",
        Step::Permissions(_) => "13, permissions",
        Step::Authorised(_) => "13, authorised roles",
        _ => return None,
    };
    let is_idle = |at: &usize| table[648 + at / 8] == 0;
    let differing: Vec<usize> = (0..256).filter(|at| table[MASKS + at] != anew[*at]).collect();
    let fault = match differing[..] {
        [at] if is_idle(&at) => "13, a mask of an idle session",
        [at] if table[MASKS + at] & !anew[at] == 0 => "13, a bit too few",
        [at] if anew[at] & !table[MASKS + at] == 0 => "13, a bit too many",
        _ => return None,
    };
    is_sound(&mended).then_some([call, fault])
}

/// Counts what the calls of a case do to the masks, and the faults of masks that they meet.
fn count(case: &Case, counts: &mut Counts) {
    watch(case, |before, step, answer, after| match answer {
        1 if before != after && before.len() == WORDS => {
            kind_of_change(step, changed(before, after)).into_iter().for_each(|kind| counts.add(kind));
        }
        13 if before.len() == WORDS => {
            kind_of_fault(before, step).into_iter().flatten().for_each(|kind| counts.add(kind));
        }
        _ => {}
    });
}

#[test]
fn every_kind_of_change_and_fault() {
    let cases = |random: &mut Random| vec![requests(random, Layer::Roles), links(random), damaged(random)];
    every_kind([28, 20], 14, 500, cases, count);
}
