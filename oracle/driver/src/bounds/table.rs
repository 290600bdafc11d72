//! The bounds of the operations on one record and of those on stores.

use super::Bound;

const CREATIONS: &[&str] = &["new_uac", "new_uas"];
const REQUEST: &[&str] = &["image_update_from_request", "request"];
const RESPONSE: &[&str] = &["image_update_from_response", "response"];
const NEXT: &[&str] = &["image_next_local_cseq", "next_local_cseq"];
const SET: &[&str] = &["image_set_session_expires", "set_session_expires"];
const MATCHES: &[&str] = &["image_matches_request"];
const REFRESH: &[&str] = &["image_needs_refresh"];
const LISTING: &[&str] = &["listing"];
const CONTEST: &[&str] = &["interval_contest"];

/// All that read the tags of From and To.
const TAGGED: &[&str] = &[
    "extract_tag",
    "from_request",
    "from_response_uac",
    "from_response_uas",
    "new_uac",
    "new_uas",
    "image_matches_request",
    "request",
    "find_by_request",
];

/// The changes of an image, and those of them that can make it larger.
const CHANGES: &[&str] = &[
    "image_update_from_request",
    "image_update_from_response",
    "image_confirm",
    "image_terminate",
    "image_next_local_cseq",
    "image_set_session_expires",
];
const GROWING: &[&str] = &[
    "image_update_from_request",
    "image_update_from_response",
    "image_next_local_cseq",
    "image_set_session_expires",
];
const STEADY: &[&str] = &["image_confirm", "image_terminate"];

/// All that take an image.
const IMAGES: &[&str] = &[
    "image_update_from_request",
    "image_update_from_response",
    "image_confirm",
    "image_terminate",
    "image_next_local_cseq",
    "image_set_session_expires",
    "image_matches_request",
    "image_needs_refresh",
    "image_id",
    "image_state",
    "image_uris",
    "image_numbers",
    "image_route_count",
    "image_route",
];

/// All that take a store; those that change a record; those of them that can make it larger; those by identifier.
const STORES: &[&str] = &[
    "put",
    "request",
    "response",
    "terminate",
    "next_local_cseq",
    "set_session_expires",
    "remove",
    "sweep",
    "get",
    "find_by_call_id",
    "find_by_request",
    "count",
    "all_ids",
];
const ROUNDS: &[&str] = &[
    "request",
    "response",
    "terminate",
    "next_local_cseq",
    "set_session_expires",
];
const GROWING_STORES: &[&str] = &["put", "request", "response", "next_local_cseq", "set_session_expires"];
const BY_ID: &[&str] = &[
    "response",
    "terminate",
    "next_local_cseq",
    "set_session_expires",
    "remove",
    "get",
];

/// All that take an RSeq store, and those by identifier.
const RSEQS: &[&str] = &["rseq_next", "rseq_current", "rseq_remove", "rseq_len", "rseq_is_empty"];
const RSEQS_BY_ID: &[&str] = &["rseq_next", "rseq_current", "rseq_remove"];

/// The numbers at which an RSeq number starts or ends.
const FIRSTS: &[&str] = &["0", "1", "2147483647", "2147483648", "2147483653", "4294967295"];
const HELD: &[&str] = &["1", "2147483647", "2147483648", "4294967294", "4294967295"];

/// Both that take a run of verdicts.
const VERDICTS: &[&str] = &["add_verdict", "worst_minute"];

/// All that take a PRACK store; those that clean; those by which a text's place matters.
const PRACKS: &[&str] = &[
    "prack_register",
    "prack_validate",
    "prack_is_pracked",
    "prack_get_pending",
    "prack_remove_dialog",
    "prack_remove_pracked",
];
const CLEANING: &[&str] = &["prack_register", "prack_validate", "prack_get_pending"];
const PRACKS_BY_PLACE: &[&str] = &[
    "prack_register",
    "prack_validate",
    "prack_get_pending",
    "prack_remove_dialog",
];

/// How a time compares with one that is held; the first response of an RSeq.
const AGO: &[&str] = &[
    "it is later",
    "now",
    "shorter",
    "300 s less 1 ns",
    "300 s",
    "300 s and 1 ns",
    "longer",
];
const FIRST_OF_RSEQ: &[&str] = &[
    "nothing held",
    "no list",
    "no such RSeq",
    "acknowledged",
    "not acknowledged",
    "the first of several acknowledged",
    "another of several acknowledged",
    "none of several acknowledged",
];

/// Where an entry stands among others.
const PLACES: &[&str] = &["the only one", "the first", "between others", "the last"];

/// The counts at which a rise ends.
const COUNTS: &[&str] = &["0", "18446744073709551614", "18446744073709551615"];

/// All that are given a site's settings; those of them that take a PRACK store, and of these those that clean.
const SITES: &[&str] = &[
    "image_id, any settings",
    "image_state, any settings",
    "image_uris, any settings",
    "image_numbers, any settings",
    "image_route_count, any settings",
    "image_route, any settings",
    "image_matches_request, any settings",
    "image_needs_refresh, any settings",
    "image_confirm, any settings",
    "image_terminate, any settings",
    "image_next_local_cseq, any settings",
    "image_set_session_expires, any settings",
    "image_update_from_request, any settings",
    "image_update_from_response, any settings",
    "listing, any settings",
    "put, any settings",
    "request, any settings",
    "response, any settings",
    "terminate, any settings",
    "next_local_cseq, any settings",
    "set_session_expires, any settings",
    "remove, any settings",
    "sweep, any settings",
    "get, any settings",
    "find_by_call_id, any settings",
    "find_by_request, any settings",
    "count, any settings",
    "all_ids, any settings",
    "prack_register, any settings",
    "prack_validate, any settings",
    "prack_is_pracked, any settings",
    "prack_get_pending, any settings",
    "prack_remove_dialog, any settings",
    "prack_remove_pracked, any settings",
];
const SITES_PRACKS: &[&str] = &[
    "prack_register, any settings",
    "prack_validate, any settings",
    "prack_is_pracked, any settings",
    "prack_get_pending, any settings",
    "prack_remove_dialog, any settings",
    "prack_remove_pracked, any settings",
];
const SITES_CLEANING: &[&str] = &[
    "prack_register, any settings",
    "prack_validate, any settings",
    "prack_get_pending, any settings",
];
const SITES_REQUEST: &[&str] = &["image_update_from_request, any settings", "request, any settings"];
const SITES_LISTS: &[&str] = &["prack_register, any settings", "prack_get_pending, any settings"];

/// Those of all sites that 1 can refuse, those that 2 can, and those that 18 can.
const SITES_1: &[&str] = &[
    "image_matches_request, any settings",
    "image_update_from_request, any settings",
    "image_update_from_response, any settings",
    "listing, any settings",
    "request, any settings",
    "response, any settings",
    "terminate, any settings",
    "next_local_cseq, any settings",
    "set_session_expires, any settings",
    "remove, any settings",
    "get, any settings",
    "find_by_call_id, any settings",
    "find_by_request, any settings",
    "prack_register, any settings",
    "prack_validate, any settings",
    "prack_is_pracked, any settings",
    "prack_get_pending, any settings",
    "prack_remove_dialog, any settings",
    "prack_remove_pracked, any settings",
];
const SITES_2: &[&str] = &[
    "image_matches_request, any settings",
    "image_update_from_request, any settings",
    "image_update_from_response, any settings",
    "request, any settings",
    "response, any settings",
    "find_by_request, any settings",
    "prack_validate, any settings",
];
const SITES_18: &[&str] = &[
    "image_next_local_cseq, any settings",
    "image_set_session_expires, any settings",
    "image_update_from_request, any settings",
    "image_update_from_response, any settings",
    "listing, any settings",
    "put, any settings",
    "request, any settings",
    "response, any settings",
    "next_local_cseq, any settings",
    "set_session_expires, any settings",
    "all_ids, any settings",
    "prack_register, any settings",
    "prack_validate, any settings",
    "prack_get_pending, any settings",
];

/// By how much a number is above a limit of the site.
const AROUND: &[&str] = &["-1", "0", "1"];

pub const BOUNDS: &[Bound] = &[
    (TAGGED, "tags said by", &["the Rust", "the run's own reading"]),
    (
        TAGGED,
        "semicolon held",
        &[
            "in quotes",
            "in quotes with a backslash",
            "in brackets",
            "by quotes left open",
            "by a bracket left open",
        ],
    ),
    (TAGGED, "semicolon held, answer", &["found", "none"]),
    (CREATIONS, "method, bytes", &["0", "8192", "8193"]),
    (CREATIONS, "request, bytes", &["0", "8192", "8193"]),
    (CREATIONS, "response, bytes", &["0", "8192", "8193"]),
    (CREATIONS, "local URI, bytes", &["8192", "8193"]),
    (CREATIONS, "remote URI, bytes", &["8192", "8193"]),
    (CREATIONS, "Call-ID, bytes", &["0", "256", "257"]),
    (CREATIONS, "local tag, bytes", &["0", "128", "129"]),
    (CREATIONS, "remote tag, bytes", &["0", "128", "129"]),
    (CREATIONS, "status", &["99", "100", "199", "200", "299", "300"]),
    (CREATIONS, "local URI, estimate", &["512", "513"]),
    (CREATIONS, "remote URI, estimate", &["512", "513"]),
    (CREATIONS, "target, estimate", &["512", "513"]),
    (CREATIONS, "target", &["Contact's", "the remote URI's"]),
    (CREATIONS, "route, estimate", &["512", "513"]),
    (CREATIONS, "routes", &["0", "50", "51"]),
    (CREATIONS, "CSeq", &["0", "1", "2147483647", "2147483648", "4294967295"]),
    (
        CREATIONS,
        "Session-Expires",
        &["0", "89", "90", "86400", "86401", "4294967295"],
    ),
    (CREATIONS, "lent bytes", &["0"]),
    (
        CREATIONS,
        "result",
        &["one byte less than lent", "as large as lent", "one byte more than lent"],
    ),
    (REQUEST, "method, bytes", &["0", "8192", "8193"]),
    (REQUEST, "block, bytes", &["0", "8192", "8193"]),
    (REQUEST, "CSeq", &["0", "1", "2147483647", "2147483648", "4294967295"]),
    (REQUEST, "CSeq minus remote number", &["-1", "0", "1", "1000", "1001"]),
    (
        REQUEST,
        "remote number",
        &["0", "2147483647", "2147483648", "4294967295"],
    ),
    (
        REQUEST,
        "ACK, CSeq",
        &["0", "1", "2147483647", "2147483648", "4294967295"],
    ),
    (
        REQUEST,
        "ACK equal to remote number",
        &["1", "2147483647", "2147483648", "4294967295"],
    ),
    (REQUEST, "ACK minus remote number", &["-1", "0", "1"]),
    (REQUEST, "Contact, estimate", &["512", "513"]),
    (
        REQUEST,
        "result",
        &["fits by its shorter target alone", "fits though its numbers grow"],
    ),
    (RESPONSE, "block, bytes", &["0", "8192", "8193"]),
    (RESPONSE, "status of an Early record", &["199", "200", "299", "300"]),
    (RESPONSE, "status of a Confirmed record", &["199", "200", "299", "300"]),
    (
        RESPONSE,
        "Session-Expires",
        &["0", "89", "86400", "86401", "4294967295"],
    ),
    (RESPONSE, "Contact, estimate", &["512", "513"]),
    (RESPONSE, "confirming, routes", &["0", "1", "50", "51"]),
    (RESPONSE, "confirming, route's estimate", &["512", "513"]),
    (
        RESPONSE,
        "result",
        &["fits by its shorter target alone", "fits though its numbers grow"],
    ),
    (NEXT, "local number", &["0", "1", "4294967294", "4294967295"]),
    (
        SET,
        "seconds",
        &[
            "0",
            "89",
            "90",
            "86400",
            "86401",
            "4294967295",
            "4294967296",
            "4294967386",
            "18446744073709551615",
        ],
    ),
    (
        GROWING,
        "result",
        &["one byte less than lent", "as large as lent", "one byte more than lent"],
    ),
    (STEADY, "result", &["one byte less than lent", "as large as lent"]),
    (CHANGES, "used bytes", &["as many as lent", "one more than lent"]),
    (CHANGES, "lent bytes", &["0"]),
    (CHANGES, "state", &["Early", "Confirmed", "Terminated"]),
    (MATCHES, "block, bytes", &["0", "8192", "8193"]),
    (REFRESH, "seconds", &["none", "0", "4294967295"]),
    (REFRESH, "elapsed minus two thirds", &["-1", "0", "1"]),
    (REFRESH, "elapsed", &["0", "18446744073709551615"]),
    (
        IMAGES,
        "image",
        &["a byte changed", "cut off", "a byte behind it", "empty", "51 routes"],
    ),
    (&["image_route"], "index minus count", &["-1", "0"]),
    (&["image_route", "image_route_count"], "routes", &["0", "1", "50"]),
    (&["image_numbers"], "last ACK", &["none", "0", "4294967295"]),
    (&["image_numbers"], "seconds", &["none", "0", "4294967295"]),
    (&["image_numbers"], "local number", &["0", "1", "4294967295"]),
    (&["image_numbers"], "remote number", &["0", "1", "4294967295"]),
    (LISTING, "records", &["0", "1", "2", "over 12"]),
    (LISTING, "store, bytes", &["65536", "65537"]),
    (
        LISTING,
        "store",
        &[
            "a byte changed",
            "cut off",
            "a byte behind it",
            "one identifier twice",
            "51 routes",
        ],
    ),
    (LISTING, "lent output", &["0"]),
    (
        LISTING,
        "result",
        &["one byte less than lent", "as large as lent", "one byte more than lent"],
    ),
    (
        CONTEST,
        "Min-SE",
        &["0", "89", "90", "86400", "86401", "18446744073709551615"],
    ),
    (
        CONTEST,
        "request",
        &["0", "89", "90", "86400", "86401", "18446744073709551615"],
    ),
    (CONTEST, "request above Min-SE", &["0", "1"]),
    (CONTEST, "request above Min-SE, refused", &["-1", "0"]),
    (CONTEST, "most above request", &["0", "1"]),
    (STORES, "records", &["0", "1", "2", "over 12", "10000"]),
    (STORES, "lent bytes", &["0"]),
    (
        STORES,
        "used bytes",
        &["as many as lent", "one more than lent", "the largest number"],
    ),
    (
        STORES,
        "store",
        &[
            "a byte changed",
            "cut off",
            "a byte behind it",
            "one identifier twice",
            "51 routes",
        ],
    ),
    (&["put"], "image", &["51 routes"]),
    (
        GROWING_STORES,
        "result",
        &["one byte less than lent", "as large as lent", "one byte more than lent"],
    ),
    (
        &["terminate"],
        "result",
        &["one byte less than lent", "as large as lent"],
    ),
    (ROUNDS, "state", &["Early", "Confirmed", "Terminated"]),
    (ROUNDS, "put back by the Rust's insert", &["yes", "no"]),
    (ROUNDS, "accepted, records", &["1", "10000", "10001"]),
    (
        &["request", "find_by_request"],
        "identifier",
        &["no part empty", "an empty tag", "an empty Call-ID", "a part absent"],
    ),
    (BY_ID, "Call-ID, bytes", &["0", "8192", "8193"]),
    (BY_ID, "local tag, bytes", &["0", "8192", "8193"]),
    (BY_ID, "remote tag, bytes", &["0", "8192", "8193"]),
    (&["put"], "records", &["9999", "10001"]),
    (
        &["put"],
        "in the place of",
        &["none", "Early", "Confirmed", "Terminated"],
    ),
    (
        &["put"],
        "at 10,000 in the place of",
        &["none", "Early", "Confirmed", "Terminated"],
    ),
    (&["put"], "new Early, other Early", &["0", "99", "100", "101"]),
    (&["put"], "Early over Early, other Early", &["0", "99", "100"]),
    (&["put"], "Early over another, other Early", &["99", "100"]),
    (&["put"], "no Early, other Early", &["99", "100"]),
    (&["put"], "created", COUNTS),
    (&["request"], "records", &["10001"]),
    (
        &["remove"],
        "record",
        &["the only one", "the first", "between others", "the last"],
    ),
    (&["remove"], "terminated", COUNTS),
    (&["sweep"], "swept", &["0", "1", "2", "all"]),
    (&["find_by_call_id"], "Call-ID, bytes", &["0", "8192", "8193"]),
    (&["find_by_call_id"], "of the Call-ID", &["0", "1", "2"]),
    (&["find_by_request"], "block, bytes", &["0", "8192", "8193"]),
    (&["all_ids"], "lent output", &["0"]),
    (
        &["all_ids"],
        "result",
        &["one byte less than lent", "as large as lent", "one byte more than lent"],
    ),
    (
        RSEQS,
        "entries",
        &["0", "1", "2", "over 12", "with a text over 8,192 bytes"],
    ),
    (RSEQS, "lent bytes", &["0"]),
    (
        RSEQS,
        "used bytes",
        &["as many as lent", "one more than lent", "the largest number"],
    ),
    (
        RSEQS,
        "store",
        &[
            "a byte changed",
            "cut off",
            "a byte behind it",
            "two entries swapped",
            "one identifier twice",
            "a number 0",
        ],
    ),
    (RSEQS_BY_ID, "Call-ID, bytes", &["0", "8192", "8193"]),
    (RSEQS_BY_ID, "local tag, bytes", &["0", "8192", "8193"]),
    (RSEQS_BY_ID, "remote tag, bytes", &["0", "8192", "8193"]),
    (RSEQS_BY_ID, "identifier", &["UTF-8", "other bytes"]),
    (
        &["rseq_next"],
        "result",
        &["one byte less than lent", "as large as lent", "one byte more than lent"],
    ),
    (&["rseq_next"], "n, none held", FIRSTS),
    (&["rseq_next"], "n, one held", FIRSTS),
    (&["rseq_next", "rseq_current"], "held number", HELD),
    (&["rseq_next", "rseq_remove"], "held, place", PLACES),
    (&["rseq_next", "rseq_remove"], "not held, place", PLACES),
    (
        PRACKS,
        "entries",
        &["0", "1", "2", "over 12", "with a text over 8,192 bytes"],
    ),
    (PRACKS, "said by", &["the Rust", "the run's own steps"]),
    (PRACKS, "lent bytes", &["0"]),
    (
        PRACKS,
        "used bytes",
        &["as many as lent", "one more than lent", "the largest number"],
    ),
    (
        PRACKS,
        "store",
        &[
            "a byte changed",
            "cut off",
            "a byte behind it",
            "two entries swapped",
            "one text twice",
            "eleven responses",
            "a flag 2",
            "a method 0 or 15",
            "a list byte 2",
        ],
    ),
    (PRACKS, "text, bytes", &["0", "8192", "8193"]),
    (PRACKS, "text", &["UTF-8", "other bytes"]),
    (PRACKS_BY_PLACE, "held, place", PLACES),
    (PRACKS_BY_PLACE, "not held, place", PLACES),
    (CLEANING, "time", &["0", "18446744073709551615"]),
    (CLEANING, "last cleanup", &["none"]),
    (CLEANING, "last cleanup", AGO),
    (CLEANING, "response at a cleanup", &["acknowledged"]),
    (CLEANING, "response at a cleanup", AGO),
    (
        CLEANING,
        "result",
        &["one byte less than lent", "as large as lent", "one byte more than lent"],
    ),
    (&["prack_register"], "method", &["0", "1", "14", "15", "255"]),
    (&["prack_register"], "RSeq", &["0", "1", "4294967295"]),
    (&["prack_register"], "CSeq", &["0", "1", "4294967295"]),
    (&["prack_register"], "code", &["0", "100", "180", "199", "65535"]),
    (
        &["prack_register", "prack_get_pending"],
        "list before",
        &["nothing held", "none", "empty", "9", "10"],
    ),
    (&["prack_validate"], "block, bytes", &["0", "8192", "8193"]),
    (
        &["prack_validate"],
        "RAck",
        &[
            "absent",
            "not three parts",
            "RSeq unreadable",
            "CSeq unreadable",
            "method unreadable",
            "readable",
        ],
    ),
    (
        &["prack_validate"],
        "accepted",
        &["the only one", "the first of several"],
    ),
    (&["prack_validate"], "accepted, RSeq", &["0", "1", "4294967295"]),
    (&["prack_validate"], "accepted, CSeq", &["0", "1", "4294967295"]),
    (
        &["prack_validate"],
        "accepted, method",
        &[
            "1", "2", "3", "4", "5", "6", "7", "8", "9", "10", "11", "12", "13", "14",
        ],
    ),
    (&["prack_validate"], "18 before", &["19", "20"]),
    (
        &["prack_validate"],
        "left with 19",
        &[
            "nothing changed",
            "a time stored",
            "the time alone changed",
            "responses dropped",
        ],
    ),
    (
        &["prack_validate"],
        "left with 20",
        &["nothing changed", "a time stored", "the time alone changed"],
    ),
    (
        &["prack_validate"],
        "left with 21",
        &["nothing changed", "the time alone changed", "responses dropped"],
    ),
    (
        &["prack_validate"],
        "left with 22",
        &["nothing changed", "the time alone changed", "responses dropped"],
    ),
    (
        &["prack_validate"],
        "left with 23",
        &["nothing changed", "the time alone changed", "responses dropped"],
    ),
    (&["prack_validate"], "left with 24", &["nothing changed"]),
    (&["prack_get_pending"], "lent output", &["0"]),
    (
        &["prack_get_pending"],
        "output",
        &["one byte less than lent", "as large as lent", "one byte more than lent"],
    ),
    (&["prack_is_pracked", "prack_remove_pracked"], "response", FIRST_OF_RSEQ),
    (&["prack_remove_pracked"], "dropped", &["0", "1", "2", "all"]),
    (VERDICTS, "verdicts", &["0", "1", "2", "4095", "4096"]),
    (VERDICTS, "lent bytes", &["0"]),
    (
        VERDICTS,
        "used bytes",
        &["as many as lent", "one more than lent", "the largest number"],
    ),
    (
        VERDICTS,
        "store",
        &[
            "a byte changed",
            "cut off",
            "a byte behind it",
            "two entries swapped",
            "4,097 verdicts",
        ],
    ),
    (
        &["add_verdict"],
        "result",
        &["one byte less than lent", "as large as lent", "one byte more than lent"],
    ),
    (
        &["add_verdict"],
        "time",
        &["0", "60000000000", "18446744073709551614", "18446744073709551615"],
    ),
    (
        &["add_verdict"],
        "time and the last one",
        &["below the last one", "the last one", "above it"],
    ),
    (&["worst_minute"], "starts that have the most", &["one", "several"]),
    (
        &["worst_minute"],
        "the start",
        &["no refusal at all", "at an accepted verdict", "at a refusal"],
    ),
    (
        &["worst_minute"],
        "from the start to a refusal",
        &["0", "59999999999", "60000000000", "60000000001"],
    ),
    (SITES, "CSeq jump", &["0", "1", "65535", "65536", "4294967295"]),
    (SITES, "pending", &["0", "1", "32", "33", "4294967295"]),
    (SITES, "cleanup", &["0", "1", "3600", "3601", "4294967295"]),
    (SITES, "timeout", &["0", "1", "3600", "3601", "4294967295"]),
    (SITES, "Early cap", &["0", "1", "100", "101", "4294967295"]),
    (SITES, "30 before", &["0", "3"]),
    (SITES_1, "30 before", &["1"]),
    (SITES_2, "30 before", &["2"]),
    (SITES_18, "30 before", &["18"]),
    (SITES_REQUEST, "30 before", &["4", "9", "10", "11", "12"]),
    (&["prack_register, any settings"], "30 before", &["28"]),
    (&["put, any settings"], "30 before", &["16", "17"]),
    (
        &["prack_validate, any settings"],
        "30 before",
        &["19", "20", "21", "22", "23", "24"],
    ),
    (SITES_REQUEST, "CSeq above a jump of 1", &["0", "1"]),
    (SITES_REQUEST, "CSeq above a jump of 65,535", AROUND),
    (SITES_REQUEST, "CSeq above another jump", AROUND),
    (&["put, any settings"], "other Early above a cap of 1", AROUND),
    (&["put, any settings"], "other Early above a cap of 100", AROUND),
    (&["put, any settings"], "other Early above another cap", AROUND),
    (SITES_LISTS, "list beside 1 pending", &["-1", "0"]),
    (SITES_LISTS, "list beside 32 pending", &["-1", "0"]),
    (SITES_LISTS, "list beside another number", &["-1", "0"]),
    (SITES_CLEANING, "beside a cleanup of 1 s", AROUND),
    (SITES_CLEANING, "beside a cleanup of 3,600 s", AROUND),
    (SITES_CLEANING, "beside another cleanup", AROUND),
    (SITES_CLEANING, "beside a timeout of 1 s", AROUND),
    (SITES_CLEANING, "beside a timeout of 3,600 s", AROUND),
    (SITES_CLEANING, "beside another timeout", AROUND),
    (
        SITES_CLEANING,
        "cleanup beside timeout",
        &["the shorter", "as long", "the longer"],
    ),
    (
        SITES_PRACKS,
        "store",
        &["its own list too long", "another's list too long"],
    ),
];
