//! The roles of a question as the C ABI has them, with the faults 84 to 102 but
//! 86, which is of the names beside them as 104 is; 103 is of a register.

use crate::fault;
use paper::{Question, ROLES, ROLE_BYTES};

/// All roles one behind the other, and the length of each.
pub struct Given<'a> {
    pub bytes: &'a [u8],
    pub lengths: &'a [u8],
}

impl Given<'_> {
    /// Each role; one that passes the bytes is too long.
    fn parts(&self) -> Vec<Vec<u8>> {
        let (mut left, mut roles) = (self.bytes, Vec::new());
        for (i, length) in self.lengths.iter().enumerate() {
            let last = i + 1 == self.lengths.len();
            let (role, rest) = match left.split_at_checked(usize::from(*length)) {
                _ if fault(95) && last => (left.to_vec(), &[][..]), // up to the end of the bytes
                Some((role, rest)) => (role.to_vec(), rest),
                None if fault(92) => (left.to_vec(), &[][..]), // taken as far as it goes
                None => (vec![b'x'; ROLE_BYTES + 1], &[][..]),
            };
            roles.push(role);
            left = rest;
        }
        roles
    }

    /// 26 before 21, or before 20.
    pub fn refused_early(&self, question: &Question) -> bool {
        refused(question.roles) && (fault(89) && question.level > 1 || fault(93))
    }

    /// The roles, with the faults that take others.
    pub fn roles(&self, question: &Question, checked: bool) -> Vec<Vec<u8>> {
        let mut roles = self.parts();
        if fault(87) && roles.len() == ROLES + 1 {
            roles.pop(); // one more than there may be
        }
        if fault(88) {
            roles.retain(|role| role.len() != ROLE_BYTES + 1); // one byte more
        }
        if fault(94) && roles.len() == ROLES {
            roles.push(Vec::new()); // the most refused
        }
        if fault(97) && roles.iter().any(|role| role.len() == ROLE_BYTES) {
            roles.push(vec![b'x'; ROLE_BYTES + 1]); // the longest refused
        }
        if fault(99) && roles.len() > 256 {
            roles.truncate(roles.len() % 256); // their number cut to a byte
        }
        if refused(&roles) {
            return roles;
        }
        if checked && fault(98) {
            return Vec::new(); // not passed on
        }
        other(roles, question)
    }
}

fn refused(roles: &[Vec<u8>]) -> bool {
    roles.len() > ROLES || roles.iter().any(|role| role.len() > ROLE_BYTES)
}

/// Roles that are in order, with the faults that match others with members.
fn other(mut roles: Vec<Vec<u8>>, question: &Question) -> Vec<Vec<u8>> {
    let behind = |name: &[u8]| name.strip_prefix(b"role/").map(<[u8]>::to_vec);
    if fault(85) {
        return roles.iter().filter_map(|role| behind(role)).collect(); // compared with its prefix
    }
    if fault(90) {
        roles.truncate(1); // the first alone
    }
    if fault(91) {
        roles.iter_mut().for_each(|role| role.make_ascii_lowercase()); // in any case
    }
    if fault(96) {
        roles.truncate(ROLES - 1); // the last not looked at
    }
    if fault(100) {
        roles.retain(|role| !role.is_empty()); // the empty one matches nothing
    }
    if fault(101) {
        roles.retain(|role| !role.starts_with(b"role/")); // one that looks like a member
    }
    let room = roles.len() < ROLES;
    if fault(84) && room {
        roles.extend(behind(question.user)); // a role member matches a user's name too
    }
    if fault(102) && room {
        roles.push(question.user.iter().take(ROLE_BYTES).copied().collect()); // the name is a role
    }
    roles
}
