//! A role table: a session starts with a role, opens one column of a sheet through a junior of it and is refused another; who
//! edits may not release; and a new shift lead comes above two roles. Prints each answer, and stops where it is not the one
//! that is expected.
//!
//! `cargo run --offline -p sheetguard --example column`

use sheetguard::{role_request, set_up_roles, Answer, Refusal, RoleRequest, WORDS};

fn main() -> Result<(), Refusal> {
    // role 5 above 3, 3 above 1; reading columns 9 and 10 are permissions
    let (mut juniors, mut permissions) = ([0; 64], [0; 8]);
    juniors[5] = 1 << 3;
    juniors[3] = 1 << 1;
    permissions[0] = 1 << 9 | 1 << 10;
    let mut table = [0; WORDS];
    set_up_roles(&mut table, &juniors, &permissions)?;

    let requests = [
        (RoleRequest::Grant { role: 1, mode: 0, object: 9 }, Ok(Answer::Yes)),
        (RoleRequest::Assign { user: 2, role: 3 }, Ok(Answer::Yes)),
        (RoleRequest::Start { session: 0, user: 2, roles: 1 << 5 | 1 << 3 }, Ok(Answer::No)),
        (RoleRequest::Start { session: 0, user: 2, roles: 1 << 3 }, Ok(Answer::Yes)),
        (RoleRequest::Open { session: 0, object: 9, mode: 0 }, Ok(Answer::Yes)),
        (RoleRequest::Open { session: 0, object: 10, mode: 0 }, Ok(Answer::No)),
        (RoleRequest::Activate { session: 0, role: 1 }, Ok(Answer::Yes)),
        (RoleRequest::Revoke { role: 1, mode: 0, object: 9 }, Ok(Answer::No)),
        (RoleRequest::Grant { role: 1, mode: 1, object: 9 }, Err(Refusal::NoPermission)),
        // role 6 edits, role 7 releases: nobody may have two of these two
        (RoleRequest::StaticSet { set: 0, roles: 1 << 6 | 1 << 7, bound: 2 }, Ok(Answer::Yes)),
        (RoleRequest::Assign { user: 3, role: 6 }, Ok(Answer::Yes)),
        (RoleRequest::Assign { user: 3, role: 7 }, Ok(Answer::No)),
        (RoleRequest::Assign { user: 4, role: 7 }, Ok(Answer::Yes)),
        // role 8 leads the shift: above 3 and so above 1, and above 6, but not above 7 too
        (RoleRequest::Assign { user: 5, role: 8 }, Ok(Answer::Yes)),
        (RoleRequest::Link { senior: 8, junior: 3 }, Ok(Answer::Yes)),
        (RoleRequest::Link { senior: 8, junior: 6 }, Ok(Answer::Yes)),
        (RoleRequest::Link { senior: 8, junior: 7 }, Ok(Answer::No)),
        (RoleRequest::Link { senior: 1, junior: 8 }, Ok(Answer::No)),
        (RoleRequest::Start { session: 1, user: 5, roles: 1 << 8 }, Ok(Answer::Yes)),
        (RoleRequest::Open { session: 1, object: 9, mode: 0 }, Ok(Answer::Yes)),
        (RoleRequest::Unlink { senior: 8, junior: 3 }, Ok(Answer::No)),
        (RoleRequest::Unlink { senior: 8, junior: 6 }, Ok(Answer::Yes)),
    ];
    for (request, expected) in requests {
        let answer = role_request(&mut table, request);
        match answer {
            Ok(Answer::Yes) => println!("{request:?}: yes"),
            Ok(Answer::No) => println!("{request:?}: no"),
            Err(refusal) => println!("{request:?}: {refusal}"),
        }
        assert_eq!(answer, expected);
    }
    Ok(())
}
