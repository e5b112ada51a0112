//! The example messages of documents 000 and 002, and those that document 01 makes of them.

use crate::hex;

/// Parts in hex, each filled with NULs to its width: the printed texts have lost some of theirs.
fn filled(parts: &[(&str, usize)]) -> Vec<u8> {
    let mut message = Vec::new();
    for (digits, width) in parts {
        let mut part = hex::read(digits).expect("hex");
        assert!(part.len() <= *width);
        part.resize(*width, 0);
        message.extend(part);
    }
    message
}

/// Table 25; P5.
pub fn new_order() -> Vec<u8> {
    filled(&[
        ("BABA4A00380064000000", 10),
        ("414243313233", 20),
        ("31E8030000", 5),
        ("0304C101", 4),
        ("44D6120000000000", 8),
        ("4D534654", 8),
        ("50", 1),
        ("52", 4),
        ("44454647", 16),
    ])
}

/// P6: the same with the length that the notes of table 25 give.
pub fn new_order_of_the_notes() -> Vec<u8> {
    let mut message = new_order();
    message[2] = 73;
    message
}

/// Document 002's New Order of an options market; the header, ClOrdID, Side and OrderQty are made up.
pub fn options_order() -> Vec<u8> {
    filled(&[
        ("BABA5900380001000000", 10),
        ("414243313233", 20),
        ("310A000000", 5),
        ("0404C10117", 5),
        ("7017000000000000", 8),
        ("4D534654", 8),
        ("43", 1),
        ("52", 4),
        ("44454647", 16),
        ("EFDB3201", 4),
        ("98AB020000000000", 8),
        ("314F", 2),
    ])
}

/// Table 27; P7.
pub fn cancel() -> Vec<u8> {
    filled(&[
        ("BABA2200390064000000", 10),
        ("414243313233", 20),
        ("0101", 2),
        ("54455354", 4),
    ])
}

/// P8.
pub fn cancel_without_bitfields() -> Vec<u8> {
    filled(&[
        ("BABA1D00390064000000", 10),
        ("414243313233", 20),
        ("00", 1),
    ])
}

/// P9.
pub fn cancel_of_another_bit() -> Vec<u8> {
    let mut message = cancel();
    message[31] = 2;
    message
}

/// P10: three bitfields, and the length that fits them.
pub fn cancel_of_three_bitfields() -> Vec<u8> {
    filled(&[
        ("BABA2400390064000000", 10),
        ("414243313233", 20),
        ("03010000", 4),
        ("54455354", 4),
    ])
}

/// Table 34.
pub fn acknowledgment() -> Vec<u8> {
    filled(&[
        ("BABA4E00250364000000", 10),
        ("E0FA20F73671F811", 8),
        ("414243313233", 20),
        ("05101EB75E392F02", 8),
        ("0003004105", 5),
        ("4D534654", 8),
        ("50", 1),
        ("414243", 16),
        ("-", 4),
    ])
}

/// Table 35.
pub fn least_acknowledgment() -> Vec<u8> {
    filled(&[
        ("BABA2E00250364000000", 10),
        ("E0FA20F73671F811", 8),
        ("414243313233", 20),
        ("05101EB75E392F02", 8),
        ("0000", 2),
    ])
}

/// The acknowledgment in document 01's example of a book, its time and OrderID zero.
pub fn booked_acknowledgment() -> Vec<u8> {
    filled(&[
        ("BABA3700250101000000", 10),
        ("-", 8),
        ("414243313233", 20),
        ("-", 8),
        ("000104", 3),
        ("44D6120000000000", 8),
    ])
}

/// Table 50.
pub fn execution() -> Vec<u8> {
    filled(&[
        ("BABA53002C0364000000", 10),
        ("E0FA20F73671F811", 8),
        ("414243313233", 20),
        ("01F0B7D971210000", 8),
        ("64000000", 4),
        ("08E2010000000000", 8),
        ("14000000", 4),
        ("4100", 2),
        ("42415453", 4),
        ("0003000046", 5),
        ("54455354", 4),
        ("31323343", 4),
        ("78000000", 4),
    ])
}

/// Table 37.
pub fn order_rejected() -> Vec<u8> {
    filled(&[
        ("BABA7600260000000000", 10),
        ("E0FA20F73671F811", 8),
        ("414243313233", 20),
        ("44", 1),
        ("4475706C696361746520436C4F72644944", 60),
        ("0003000106", 5),
        ("4D534654", 8),
        ("54455354", 4),
        ("-", 4),
    ])
}

/// Table 43.
pub fn modify_rejected() -> Vec<u8> {
    filled(&[
        ("BABA6300290000000000", 10),
        ("E0FA20F73671F811", 8),
        ("414243313233", 20),
        ("50", 1),
        ("50656E64696E67", 60),
        ("0000", 2),
    ])
}

/// Table 47.
pub fn cancel_rejected() -> Vec<u8> {
    filled(&[
        ("BABA63002B0000000000", 10),
        ("E0FA20F73671F811", 8),
        ("414243313233", 20),
        ("4A", 1),
        ("544F4F204C415445", 60),
        ("0000", 2),
    ])
}

/// Table 29.
pub fn modify() -> Vec<u8> {
    filled(&[
        ("BABA3E003A0064000000", 10),
        ("414243313234", 20),
        ("414243313233", 20),
        ("010C", 2),
        ("E02E0000", 4),
        ("08E2010000000000", 8),
    ])
}

/// Table 31: its length is fifteen less than what its counts and fields take.
pub fn purge_by_ids() -> Vec<u8> {
    filled(&[
        ("BABA2900470064000000", 10),
        ("000115", 3),
        ("02BFBEC0BE", 5),
        ("54455354", 4),
        ("46534C", 16),
        ("414243313233", 20),
    ])
}

/// The same with the length of its bytes.
pub fn purge_by_ids_with_its_length() -> Vec<u8> {
    let mut message = purge_by_ids();
    message[2] = 0x38;
    message
}

/// Table 32: its length is two more than what its counts and fields take.
pub fn purge_by_symbol() -> Vec<u8> {
    filled(&[
        ("BABA3F00470064000000", 10),
        ("00021501", 4),
        ("00", 1),
        ("54455354", 4),
        ("46534C", 16),
        ("414243313233", 20),
        ("4142434445", 8),
    ])
}

/// The same with the length of its bytes.
pub fn purge_by_symbol_with_its_length() -> Vec<u8> {
    let mut message = purge_by_symbol();
    message[2] = 0x3D;
    message
}

// Session messages.

/// The groups that table 11 sends and table 17 gives back.
const GROUPS: [(&str, usize); 8] = [
    ("1400800103", 5),
    ("014ABB0100", 5),
    ("0200000000", 5),
    ("0479A10000", 5),
    ("0800812503", 5),
    ("004105", 3),
    ("0C00812C07", 5),
    ("00410700400001", 7),
];

/// Table 11.
pub fn login() -> Vec<u8> {
    let mut parts = vec![
        ("BABA4300370000000000", 10),
        ("30303031", 4),
        ("54455354", 4),
        ("54455354494E47", 10),
        ("03", 1),
    ];
    parts.extend(GROUPS);
    filled(&parts)
}

/// The login of document 002; P14.
pub fn options_login() -> Vec<u8> {
    filled(&[
        ("BABA3D00370000000000", 10),
        ("30303031", 4),
        ("54455354", 4),
        ("54455354494E47", 10),
        ("03", 1),
        ("0F00800102", 5),
        ("014ABB0100", 5),
        ("0200000000", 5),
        ("0800812503", 5),
        ("004105", 3),
        ("0B00812C06", 5),
        ("004107004000", 6),
    ])
}

/// Table 17, its lost status and flag put back: it gives unit 2 three times.
pub fn login_response() -> Vec<u8> {
    let mut parts = vec![
        ("BABA8800240000000000", 10),
        ("41", 1),
        ("4163636570746564", 60),
        ("01", 1),
        ("544A0200", 4),
        ("04", 1),
        ("014ABB0100", 5),
        ("0200000000", 5),
        ("0200000000", 5),
        ("0279A10000", 5),
        ("03", 1),
    ];
    parts.extend(GROUPS);
    filled(&parts)
}

/// The same with the units that the notes of table 17 give.
pub fn login_response_of_the_notes() -> Vec<u8> {
    let mut message = login_response();
    message[87] = 3;
    message[92] = 4;
    message
}

/// Table 19: its length is four less than what its three pairs take.
pub fn logout() -> Vec<u8> {
    filled(&[
        ("BABA5500080000000000", 10),
        ("55", 1),
        ("55736572", 60),
        ("545A0200", 4),
        ("03", 1),
        ("014ABB0100", 5),
        ("0200000000", 5),
        ("0479A10000", 5),
    ])
}

/// The same with the length of its bytes.
pub fn logout_with_its_length() -> Vec<u8> {
    let mut message = logout();
    message[2] = 89;
    message
}

/// Table 15.
pub fn client_heartbeat() -> Vec<u8> {
    filled(&[("BABA0800030000000000", 10)])
}

/// Table 21.
pub fn server_heartbeat() -> Vec<u8> {
    filled(&[("BABA0800090000000000", 10)])
}

/// Table 23.
pub fn replay_complete() -> Vec<u8> {
    filled(&[("BABA0800130000000000", 10)])
}

/// Table 13: a type that no direction has.
pub fn logout_request() -> Vec<u8> {
    filled(&[("BABA0800020000000000", 10)])
}

#[cfg(test)]
mod tests {
    use super::*;

    #[test]
    fn lengths() {
        for message in [
            new_order(),
            options_order(),
            cancel(),
            cancel_without_bitfields(),
            cancel_of_three_bitfields(),
            acknowledgment(),
            least_acknowledgment(),
            booked_acknowledgment(),
            execution(),
            order_rejected(),
            modify_rejected(),
            cancel_rejected(),
            modify(),
            purge_by_ids_with_its_length(),
            purge_by_symbol_with_its_length(),
            login(),
            options_login(),
            login_response(),
            login_response_of_the_notes(),
            logout_with_its_length(),
            client_heartbeat(),
            server_heartbeat(),
            replay_complete(),
            logout_request(),
        ] {
            assert_eq!(message.len(), usize::from(message[2]) + 2);
        }
        assert_eq!(logout().len(), usize::from(logout()[2]) + 2 + 4);
        assert_eq!(options_login().len(), 63);
        assert_eq!(new_order().len(), 76);
        assert_eq!(new_order_of_the_notes().len(), 76);
        assert_eq!(options_order().len(), 91);
        assert_eq!(cancel().len(), 36);
        assert_eq!(cancel_without_bitfields().len(), 31);
        assert_eq!(booked_acknowledgment().len(), 57);
        assert_eq!(order_rejected().len(), 120);
        assert_eq!(modify_rejected().len(), 101);
        assert_eq!(cancel_rejected().len(), 101);
        assert_eq!(modify().len(), 64);
        assert_eq!(purge_by_ids().len(), 58);
        assert_eq!(purge_by_symbol().len(), 63);
    }
}
