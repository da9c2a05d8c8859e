//! The words of documents 01 and 02 that a refusal quotes.  Nothing here decides.

/// "Numbers a refusal carries", the second column, from 1 on.
pub const NUMBERS: [&str; 18] = [
    "question out of range",
    "response longer than 16,384 octets",
    "octets don't fit the layout below, its limits included",
    "response status is 1, 2, 3, 5 or 6; the status goes with the number",
    "response type is not the basic one",
    "verdict is not 1",
    "responder id is not the signer's",
    "role is 2 and one of the three marks is missing",
    "a critical response extension is not understood",
    "no entry is for this card",
    "two or more entries are for this card",
    "a critical extension of that entry is not understood",
    "that entry has no nextUpdate",
    "nextUpdate is before thisUpdate",
    "thisUpdate is after now",
    "now is after nextUpdate plus tolerance",
    "a slip, or an answer to be written as one, breaks the slip rules",
    "a buffer to be written is too short",
];

// "Elements (X.690)" and "Times".
pub const TAG: &str = "Number 31 is refused, and universal number 0.";
pub const FORM: &str = "No other form is accepted.";
pub const FILLED: &str =
    "An element ends inside what holds it, and every sequence is filled exactly.";
pub const ENVELOPE: &str = "Envelope: 30, ENUMERATED status of one octet.";
pub const NOTHING_FOLLOWS: &str = "Nothing follows the envelope.";
pub const STATUS_0: &str =
    "Status 0 is followed by A0 holding 30 of the type's OID and an OCTET STRING";
pub const STATUS_BY_NOTHING: &str = "status 1, 2, 3, 5, 6 by nothing.";
pub const OTHER_STATUS: &str = "Any other status doesn't fit.";
pub const OID_RULE: &str =
    "An OID has content; each part's first octet is not 80 hex, and the last octet is below 80 hex.";
pub const BASIC: &str = "The string holds one 30 of: signed part, signature algorithm, BIT STRING \
(first content octet 00, at least one more), and maybe A0 holding 30 of 0 to 8 certificates, each a \
free element with tag 30.";
pub const SIGNED: &str =
    "Signed part, a 30: responder id, producedAt, 30 of 0 to 64 entries, maybe A1 \
extensions.";
// Document 02, C-12.
pub const VERSION: &str = "Accept a written version 0; any other version still gives 3.";
pub const RESPONDER: &str =
    "Responder id: A1 with a Name (free element, tag 30), or A2 with an OCTET \
STRING of 20.";
pub const ENTRY: &str =
    "Entry, a 30: CertID, status, thisUpdate, maybe A0 with nextUpdate, maybe A1 \
extensions.";
pub const CERT_ID: &str =
    "CertID, a 30: algorithm identifier, two OCTET STRINGs of 1 to 64, INTEGER \
serial by the rule above.";
pub const STATUS: &str =
    "Status: 80 00 good; 82 00 unknown; A1 with revocationTime and maybe A0 holding \
ENUMERATED reason of one octet, 0 to 10 but not 7.";
pub const EXTENSIONS: &str =
    "Extensions: 30 of 1 to 16, no OID twice. Each is a 30: OID, maybe 01 01 FF \
(critical), OCTET STRING.";
pub const WRITTEN_FALSE: &str = "A written FALSE doesn't fit.";
pub const ALGORITHM: &str =
    "An algorithm identifier is a sequence (30) of an OID and at most one free \
element.";
pub const DEPTH: &str =
    "Counting the free element itself as the first, at most 16 lie one inside the \
other.";
pub const TIME: &str =
    "Only GeneralizedTime of 15 octets, YYYYMMDDHHMMSSZ, years 1970 to 9999, real \
Gregorian dates, hours to 23, minutes and seconds to 59.";
