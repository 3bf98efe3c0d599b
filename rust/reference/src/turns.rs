//! Wrong turns that the scope warns of or that a start with roles, the standing of two labels, separation of duties, a change of
//! seniority, kept masks, likeness or a tally invite, so that the comparison can be seen to catch them. The feature `wrong-turn`
//! builds all of them in, and a run takes the one that the environment variable `WRONG_TURN` names.

/// Whether the wrong turns are built in. No test is built then; `rust/wrong-turns` counts what the comparison finds.
pub const WRONG: bool = cfg!(feature = "wrong-turn");

/// The names of the wrong turns that are built in: none.
#[cfg(not(feature = "wrong-turn"))]
pub const TURNS: &[&str] = &[];

#[cfg(test)]
const _: () = assert!(!WRONG, "tests are built without wrong turns");

/// The right expression; in a build with wrong turns the wrong one, where the turn is taken.
macro_rules! turn {
    ($turn:ident, $right:expr, $wrong:expr) => {{
        #[cfg(not(feature = "wrong-turn"))]
        {
            $right
        }
        #[cfg(feature = "wrong-turn")]
        {
            if crate::turns::taken().$turn {
                $wrong
            } else {
                $right
            }
        }
    }};
}

pub(crate) use turn;

/// The turns of the list: one that stands in the code and not here, or here and not in the code, is an error.
#[cfg(feature = "wrong-turn")]
macro_rules! turns {
    ($($(#[$what:meta])* $turn:ident,)*) => {
        /// The turns, of which a run takes one.
        #[deny(dead_code)]
        pub struct Turns {
            $($(#[$what])* pub $turn: bool,)*
        }

        /// The names of the wrong turns that are built in.
        pub const TURNS: &[&str] = &[$(stringify!($turn)),*];

        /// The turn of this run. It ends here where `WRONG_TURN` names none.
        pub fn taken() -> &'static Turns {
            static TAKEN: std::sync::OnceLock<Turns> = std::sync::OnceLock::new();
            TAKEN.get_or_init(|| {
                let name = std::env::var("WRONG_TURN").unwrap_or_default();
                assert!(TURNS.contains(&name.as_str()), "WRONG_TURN={name} is no wrong turn");
                Turns { $($turn: name == stringify!($turn)),* }
            })
        }
    };
}

#[cfg(feature = "wrong-turn")]
turns! {
    /// Write roles ordered like read roles.
    write_like_read,
    /// Authorised roles gathered upwards.
    authorised_upwards,
    /// Permissions from seniors.
    permissions_from_seniors,
    /// Deassigning looked at by direct assignment only.
    deassign_direct,
    /// Reclearing to the same label by adding and removing.
    reclear_same,
    /// A start judged by the roles assigned, without their juniors.
    start_by_assigned,
    /// A start that needs one authorised role of its mask and not all.
    start_some_role,
    /// A start that makes the juniors of its roles active too.
    start_with_juniors,
    /// A label start with the reading role alone.
    start_reads_only,
    /// A label start that spends 3 where the session is idle.
    start_spends_three,
    /// A label that is not below another taken to dominate it: labels apart pass.
    not_below,
    /// Above only with a higher class: a label of the same class with more brands stands apart.
    above_by_class,
    /// Static sets judged by the roles assigned, without their juniors.
    static_by_assigned,
    /// A set that holds with as many of its roles as the bound.
    bound_reached,
    /// Dynamic sets judged by the active roles and their juniors.
    dynamic_with_juniors,
    /// The pair of a set looked at before the set's number.
    pair_before_range,
    /// A bound equal to the number of roles refused.
    bound_of_all_refused,
    /// A set that is answered no and leaves its bound.
    bound_left,
    /// Static sets judged by users 0 to 62.
    last_user_left_out,
    /// A link that gives the juniors to its senior alone, and not to the roles above that.
    link_row_alone,
    /// A link refused where the role is an indirect junior already.
    link_indirect_refused,
    /// A link that is not recorded where the role is a junior already.
    link_unrecorded,
    /// A link judged by the sets of the users who are assigned its senior, without those who have it through another role.
    link_assigned_users,
    /// A link that is answered no and leaves its direct junior.
    link_left,
    /// An unlink that leaves seniority as it was.
    unlink_keeps_rows,
    /// An unlink of what is no direct link answered yes.
    unlink_absent,
    /// An unlink that does not look at openings.
    unlink_openings,
    /// An unlink refused where another chain leads to the role.
    unlink_other_chain,
    /// A role that is its own direct junior taken for sound.
    own_link_sound,
    /// Seniority that is more than the closure of the direct juniors taken for sound.
    rows_beyond_closure,
    /// Seniority that is less than the closure taken for sound.
    rows_short_of_closure,
    /// A label table with other direct juniors taken for an image.
    image_any_links,
    /// A role set-up that keeps a role's own bit as a direct junior.
    setup_own_links,
    /// A role set-up that writes all juniors as direct ones.
    setup_all_juniors,
    /// Masks in the order of modes, the 32 of a mode together.
    masks_by_mode,
    /// Masks worked out from the active roles without their juniors.
    masks_without_juniors,
    /// Masks worked out from the authorised roles of the session's user.
    masks_of_authorised,
    /// Masks that lack what is effective taken for sound.
    masks_short,
    /// Masks that have more than what is effective taken for sound.
    masks_beyond,
    /// Any masks of an idle session taken for sound.
    idle_masks,
    /// A label image without masks.
    image_without_masks,
    /// A changed table judged with the masks from before the change.
    judged_with_old_masks,
    /// A drop judged by the masks from before it.
    drop_by_old_masks,
    /// A start that works the masks out before it makes its roles active.
    start_masks_early,
    /// An activation that does.
    activate_masks_early,
    /// An end that leaves the masks.
    end_keeps_masks,
    /// A grant that works out the masks of one session alone.
    grant_one_session,
    /// A grant that works out the masks of the sessions that have its role active, without those that have it through a senior.
    grant_without_seniors,
    /// A revoke that takes the pair from the masks of every session.
    revoke_takes_all,
    /// A link that leaves the masks.
    link_keeps_masks,
    /// An unlink that leaves the masks.
    unlink_keeps_masks,
    /// Masks worked out for sessions 0 to 30.
    last_session_masks,
    /// Likeness that asks for the assigned roles of users.
    likeness_by_assigned,
    /// Likeness that asks of the users who have a session in the first table.
    likeness_of_sessions,
    /// Likeness that asks of users 0 to 62.
    likeness_last_user,
    /// Likeness of openings and effective permissions alone.
    likeness_without_users,
    /// Likeness that asks for the same user of each session too.
    likeness_by_owner,
    /// An opening counted for the user after the session's.
    count_next_user,
    /// An opening counted by the number of its session.
    count_by_session,
    /// An opening already held not counted.
    held_not_counted,
    /// An opening answered no that counts.
    no_counted,
    /// A tally that is left as it was.
    tally_left,
    /// A full count looked at before the answer: a no and a bad argument become 23.
    full_before_answer,
    /// A full count of any user taken for that of the session's.
    full_of_anyone,
    /// An opening already held answered yes at a full count.
    full_if_held_yes,
    /// An opening that is refused for a full count and made.
    full_opens,
    /// A count taken for full that can be advanced once more.
    full_one_early,
    /// The largest rate refused.
    rate_one_early,
    /// Half a cent rounded down.
    halves_down,
    /// A total that is rounded once, from the sum of the counts.
    total_rounded_once,
    /// A refused rate that leaves 0 for the charges and the total.
    bad_rate_clears,
}
