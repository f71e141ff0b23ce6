//! Too little room: what is refused for it changes no lent byte.

use replay_form::List;

/// Of each function that writes, arguments that it takes and how many bytes it
/// writes of them.
const WRITES: [(&str, &[u8], usize); 29] = [
    ("ghj_access", &[0x22, 0x04], 5),
    ("ghj_info", &INFO, 11),
    ("ghj_capabilities", &CAPABILITIES, 18),
    ("ghj_challenge", &[0x01; 20], 20),
    (
        "ghj_activation",
        &[0x02, 0x01, 0, 0, 0, 0x05, 0, 0, 0, 0x04],
        10,
    ),
    ("ghj_suites", &[0xC0, 0x03], 2),
    ("ghj_suite_numbers", &[0xC0, 0x03, 0x01, 0x41, 0x81], 1),
    ("access_written", &[0x22, 0x04], 2),
    ("info_written", &INFO, 9),
    ("capabilities_written", &CAPABILITIES, 8),
    ("suites_part", &[0xC0, 0x03], 2),
    ("suites_written", &[0xC0, 0x03], 2),
    ("challenge_read", b"\x02operator\0\0\0\0\0\0\0\0", 8),
    ("activation_read", &[0x04; 22], 16),
    ("ghj_channel_text", &[0x0E], 15),
    ("ghj_mode_text", &[0x02], 16),
    ("ghj_limit_text", &[0x04], 13),
    ("ghj_medium_text", &[0x04], 9),
    ("ghj_protocol_text", &[0x01], 8),
    ("ghj_session_support_text", &[0x02], 13),
    ("ghj_auth_type_name", &[0x02], 3),
    ("ghj_info_request", &[0x01], 1),
    ("ghj_suite_algorithms", &[0x03], 3),
    ("ghj_access_request", &[0x01, 1], 2),
    ("ghj_capabilities_request", &[0x01, 0x04], 2),
    ("ghj_suites_request", &[0x01, 0x02], 3),
    ("ghj_challenge_request", b"\x02operator", 17),
    ("challenge_name", b"\x02operator", 8),
    ("ghj_activation_request", &[0x04; 22], 22),
];

const INFO: [u8; 9] = [0x01, 0x04, 0x01, 0x81, 0xF2, 0x1B, 0x00, 0x00, 0x00];
const CAPABILITIES: [u8; 8] = [0x01, 0x96, 0x04, 0x03, 0x00, 0x00, 0x00, 0x00];

pub fn questions(list: &mut List) {
    list.heading("too little room, and just enough");
    for (name, arguments, length) in WRITES {
        list.scarce(name, arguments, length);
    }
}

#[cfg(test)]
mod tests {
    use super::*;

    /// The second of the three is refused 11, the third is taken.
    #[test]
    fn one_byte_decides() {
        let mut list = List::new(crate::rows());
        questions(&mut list);
        for lines in list.lines[1..].chunks(3) {
            let answer = |line: &String| crate::answer(line.as_bytes());
            assert!(answer(&lines[1]).starts_with(" 0B 00 00 00 00 00 00 80"));
            assert!(!answer(&lines[2]).contains(" 80 "), "{lines:?}");
        }
    }
}
