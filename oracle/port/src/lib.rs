//! Safe wrappers over the C functions of the Rattle port. Each hands its arguments on and answers the function's own
//! number (0 accepted, else document 01's refusal); an out number is lent as `&mut`, so the caller sees whether it was
//! kept. Byte runs are lent as slices, which cannot overlap a lent out number or each other where one is changed.

mod c;
pub mod prack;
pub mod rseq;
pub mod store;
pub mod verdicts;

pub use c::Settings;

/// A found part: the flag, and place and length in the caller's bytes.
#[derive(Debug, Clone, Copy)]
pub struct Part {
    pub found: u8,
    pub place: usize,
    pub length: usize,
}

/// A part of a list, and where to ask for the next one.
#[derive(Debug, Clone, Copy)]
pub struct ListPart {
    pub found: u8,
    pub place: usize,
    pub length: usize,
    pub next: usize,
}

/// The parts of a SIP URI.
#[derive(Debug, Clone, Copy)]
pub struct Uri {
    pub secure: u8,
    pub user: usize,
    pub user_length: usize,
    pub host: usize,
    pub host_length: usize,
    pub has_port: u8,
    pub port: u16,
}

/// Places and lengths of an identifier's three parts: Call-ID, local tag, remote tag.
pub type Identifier = [usize; 6];

/// What a Session-Expires value says: refresher 0 none, 1 uac, 2 uas.
#[derive(Debug, Clone, Copy)]
pub struct SessionExpires {
    pub found: u8,
    pub seconds: u32,
    pub refresher: u8,
}

/// What a RAck value says.
#[derive(Debug, Clone, Copy)]
pub struct Rack {
    pub rseq: u32,
    pub cseq: u32,
    pub method: u8,
}

impl Settings {
    /// The Rust's own figures.
    pub const RUST: Settings = Settings {
        cseq_jump: 1000,
        pending: 10,
        cleanup_seconds: 300,
        timeout_seconds: 300,
        early_cap: 100,
    };
}

impl Default for Settings {
    fn default() -> Settings {
        Settings::RUST
    }
}

/// Whether the bytes are a header block.
pub fn check_block(block: &[u8]) -> u8 {
    unsafe { c::sip_dialog_check_block(block.as_ptr(), block.len()) }
}

/// The first line of a name.
pub fn header(block: &[u8], name: &[u8], part: &mut Part) -> u8 {
    unsafe {
        c::sip_dialog_header(
            block.as_ptr(),
            block.len(),
            name.as_ptr(),
            name.len(),
            &mut part.found,
            &mut part.place,
            &mut part.length,
        )
    }
}

/// The first line of a name that starts at `from` or after it.
pub fn next_header(block: &[u8], name: &[u8], from: usize, part: &mut ListPart) -> u8 {
    unsafe {
        c::sip_dialog_next_header(
            block.as_ptr(),
            block.len(),
            name.as_ptr(),
            name.len(),
            from,
            &mut part.found,
            &mut part.place,
            &mut part.length,
            &mut part.next,
        )
    }
}

/// 1xx.
pub fn is_informational(code: u16) -> bool {
    unsafe { c::sip_dialog_is_informational(code) }
}

/// 2xx.
pub fn is_success(code: u16) -> bool {
    unsafe { c::sip_dialog_is_success(code) }
}

/// 3xx.
pub fn is_redirection(code: u16) -> bool {
    unsafe { c::sip_dialog_is_redirection(code) }
}

/// 4xx.
pub fn is_client_error(code: u16) -> bool {
    unsafe { c::sip_dialog_is_client_error(code) }
}

/// 5xx.
pub fn is_server_error(code: u16) -> bool {
    unsafe { c::sip_dialog_is_server_error(code) }
}

/// 6xx.
pub fn is_global_failure(code: u16) -> bool {
    unsafe { c::sip_dialog_is_global_failure(code) }
}

/// 4xx, 5xx or 6xx.
pub fn is_error(code: u16) -> bool {
    unsafe { c::sip_dialog_is_error(code) }
}

/// The parts of a SIP URI.
pub fn sip_uri(text: &[u8], uri: &mut Uri) -> u8 {
    unsafe {
        c::sip_dialog_sip_uri(
            text.as_ptr(),
            text.len(),
            &mut uri.secure,
            &mut uri.user,
            &mut uri.user_length,
            &mut uri.host,
            &mut uri.host_length,
            &mut uri.has_port,
            &mut uri.port,
        )
    }
}

/// A SIP URI's estimated length.
pub fn uri_estimate(text: &[u8], estimate: &mut usize) -> u8 {
    unsafe { c::sip_dialog_uri_estimate(text.as_ptr(), text.len(), estimate) }
}

/// The URI in a header value.
pub fn parse_uri_from_header(value: &[u8], part: &mut Part) -> u8 {
    unsafe {
        c::sip_dialog_parse_uri_from_header(
            value.as_ptr(),
            value.len(),
            &mut part.found,
            &mut part.place,
            &mut part.length,
        )
    }
}

/// The tag of a From or To value.
pub fn extract_tag(value: &[u8], place: &mut usize, length: &mut usize) -> u8 {
    unsafe { c::sip_dialog_extract_tag(value.as_ptr(), value.len(), place, length) }
}

/// Whether three texts make an identifier.
pub fn dialog_id_new(call_id: &[u8], local_tag: &[u8], remote_tag: &[u8]) -> u8 {
    unsafe {
        c::sip_dialog_dialog_id_new(
            call_id.as_ptr(),
            call_id.len(),
            local_tag.as_ptr(),
            local_tag.len(),
            remote_tag.as_ptr(),
            remote_tag.len(),
        )
    }
}

/// A request's identifier: From's tag is the local one.
pub fn from_request(block: &[u8], parts: &mut Identifier) -> u8 {
    let [call_id, call_id_length, local, local_length, remote, remote_length] = parts;
    unsafe {
        c::sip_dialog_from_request(
            block.as_ptr(),
            block.len(),
            call_id,
            call_id_length,
            local,
            local_length,
            remote,
            remote_length,
        )
    }
}

/// A response's identifier for uac: From's tag is the local one.
pub fn from_response_uac(block: &[u8], parts: &mut Identifier) -> u8 {
    let [call_id, call_id_length, local, local_length, remote, remote_length] = parts;
    unsafe {
        c::sip_dialog_from_response_uac(
            block.as_ptr(),
            block.len(),
            call_id,
            call_id_length,
            local,
            local_length,
            remote,
            remote_length,
        )
    }
}

/// A response's identifier for uas: To's tag is the local one.
pub fn from_response_uas(block: &[u8], parts: &mut Identifier) -> u8 {
    let [call_id, call_id_length, local, local_length, remote, remote_length] = parts;
    unsafe {
        c::sip_dialog_from_response_uas(
            block.as_ptr(),
            block.len(),
            call_id,
            call_id_length,
            local,
            local_length,
            remote,
            remote_length,
        )
    }
}

/// The first comma part at `from` or after it.
pub fn next_header_value(value: &[u8], from: usize, part: &mut ListPart) -> u8 {
    unsafe {
        c::sip_dialog_next_header_value(
            value.as_ptr(),
            value.len(),
            from,
            &mut part.found,
            &mut part.place,
            &mut part.length,
            &mut part.next,
        )
    }
}

/// The Contact's URI.
pub fn contact(block: &[u8], part: &mut Part) -> u8 {
    unsafe {
        c::sip_dialog_contact(
            block.as_ptr(),
            block.len(),
            &mut part.found,
            &mut part.place,
            &mut part.length,
        )
    }
}

/// How many routes the Record-Route lines have.
pub fn route_count(block: &[u8], count: &mut usize) -> u8 {
    unsafe { c::sip_dialog_route_count(block.as_ptr(), block.len(), count) }
}

/// One route, counted from the front or the back.
pub fn route(block: &[u8], reversed: bool, index: usize, part: &mut Part) -> u8 {
    unsafe {
        c::sip_dialog_route(
            block.as_ptr(),
            block.len(),
            reversed,
            index,
            &mut part.found,
            &mut part.place,
            &mut part.length,
        )
    }
}

/// The CSeq's number.
pub fn cseq_number(block: &[u8], number: &mut u32) -> u8 {
    unsafe { c::sip_dialog_cseq_number(block.as_ptr(), block.len(), number) }
}

/// The CSeq's method, as a number.
pub fn cseq_method(block: &[u8], method: &mut u8) -> u8 {
    unsafe { c::sip_dialog_cseq_method(block.as_ptr(), block.len(), method) }
}

/// The RSeq.
pub fn rseq(block: &[u8], number: &mut u32) -> u8 {
    unsafe { c::sip_dialog_rseq(block.as_ptr(), block.len(), number) }
}

/// Whether a response is a reliable provisional.
pub fn is_reliable_provisional(status: u16, block: &[u8], reliable: &mut u8) -> u8 {
    unsafe { c::sip_dialog_is_reliable_provisional(status, block.as_ptr(), block.len(), reliable) }
}

/// What a Session-Expires value says.
pub fn parse_session_expires(value: &[u8], said: &mut SessionExpires) -> u8 {
    unsafe {
        c::sip_dialog_parse_session_expires(
            value.as_ptr(),
            value.len(),
            &mut said.found,
            &mut said.seconds,
            &mut said.refresher,
        )
    }
}

/// What a block's Session-Expires says.
pub fn session_expires(block: &[u8], said: &mut SessionExpires) -> u8 {
    unsafe {
        c::sip_dialog_session_expires(
            block.as_ptr(),
            block.len(),
            &mut said.found,
            &mut said.seconds,
            &mut said.refresher,
        )
    }
}

/// The number of a method text.
pub fn method_number(text: &[u8], found: &mut u8, method: &mut u8) -> u8 {
    unsafe { c::sip_dialog_method_number(text.as_ptr(), text.len(), found, method) }
}

/// The text of a method number, into the lent output.
pub fn method_text(method: u8, out: &mut [u8], length: &mut usize) -> u8 {
    unsafe { c::sip_dialog_method_text(method, out.as_mut_ptr(), out.len(), length) }
}

/// What a RAck value says.
pub fn parse_rack(value: &[u8], rack: &mut Rack) -> u8 {
    unsafe {
        c::sip_dialog_parse_rack(
            value.as_ptr(),
            value.len(),
            &mut rack.rseq,
            &mut rack.cseq,
            &mut rack.method,
        )
    }
}

/// A RAck value, into the lent output.
pub fn format_rack(rack: &Rack, out: &mut [u8], length: &mut usize) -> u8 {
    unsafe { c::sip_dialog_format_rack(rack.rseq, rack.cseq, rack.method, out.as_mut_ptr(), out.len(), length) }
}

/// Without a minimum, `absent` is the number handed over in its place.
pub fn validate_session_expires(interval: u64, minimum: Option<u64>, absent: u64, least: &mut u64) -> u8 {
    let given = minimum.unwrap_or(absent);
    unsafe { c::sip_dialog_validate_session_expires(interval, minimum.is_some(), given, least) }
}

/// An offer of a session interval; `absent` stands where a number isn't given.
#[derive(Debug, Clone, Copy)]
pub struct Offer {
    pub requested: u64,
    pub local_minimum: u64,
    pub remote_minimum: Option<u64>,
    pub preference: Option<u64>,
    pub absent: u64,
}

/// The interval that an offer comes to.
pub fn negotiate_session_expires(offer: &Offer, interval: &mut u64, least: &mut u64) -> u8 {
    unsafe {
        c::sip_dialog_negotiate_session_expires(
            offer.requested,
            offer.local_minimum,
            offer.remote_minimum.is_some(),
            offer.remote_minimum.unwrap_or(offer.absent),
            offer.preference.is_some(),
            offer.preference.unwrap_or(offer.absent),
            interval,
            least,
        )
    }
}

/// When the side that does not refresh gives up.
pub fn non_refresher_expiry(interval: u64) -> u64 {
    unsafe { c::sip_dialog_non_refresher_expiry(interval) }
}

/// When to refresh.
pub fn calculate_refresh_time(interval: u64) -> u64 {
    unsafe { c::sip_dialog_calculate_refresh_time(interval) }
}

/// Without an interval, `absent` is the number handed over in its place.
pub fn needs_refresh(seconds: Option<u32>, absent: u32, elapsed: u64) -> bool {
    let given = seconds.unwrap_or(absent);
    unsafe { c::sip_dialog_needs_refresh(seconds.is_some(), given, elapsed) }
}

/// Without a text, `absent` is the text handed over in its place.
pub fn determine_refresher_role(text: Option<&[u8]>, absent: &[u8], is_uac: bool, refresher: &mut u8) -> u8 {
    let given = text.unwrap_or(absent);
    unsafe { c::sip_dialog_determine_refresher_role(text.is_some(), given.as_ptr(), given.len(), is_uac, refresher) }
}

/// The created count after one more.
pub fn record_created(created: u64) -> u64 {
    unsafe { c::sip_dialog_record_created(created) }
}

/// The terminated count after one more.
pub fn record_terminated(terminated: u64) -> u64 {
    unsafe { c::sip_dialog_record_terminated(terminated) }
}

/// What the callee can force of an offer: at its first answer, at the retry's, and whether only the request or 13 is left to it.
#[derive(Debug, Clone, Copy)]
pub struct Contest {
    pub has_first: u8,
    pub first: [u64; 2],
    pub has_retry: u8,
    pub retry: [u64; 2],
    pub only_requested: u8,
    pub least: u64,
}

/// What the callee can make of an offer.
pub fn interval_contest(requested: u64, min_se: u64, contest: &mut Contest) -> u8 {
    let [first_least, first_most] = &mut contest.first;
    let [retry_least, retry_most] = &mut contest.retry;
    unsafe {
        c::sip_dialog_interval_contest(
            requested,
            min_se,
            &mut contest.has_first,
            first_least,
            first_most,
            &mut contest.has_retry,
            retry_least,
            retry_most,
            &mut contest.only_requested,
            &mut contest.least,
        )
    }
}

/// What a record is made from: the request's method and block, the response's status and block, the two URIs.
#[derive(Debug, Clone, Copy)]
pub struct Creation<'a> {
    pub method: &'a [u8],
    pub request: &'a [u8],
    pub status: u16,
    pub response: &'a [u8],
    pub local_uri: &'a [u8],
    pub remote_uri: &'a [u8],
}

/// A record of a call that we made, as an image at the front of the lent output.
pub fn new_uac(given: &Creation, out: &mut [u8], length: &mut usize, least: &mut u64) -> u8 {
    unsafe {
        c::sip_dialog_new_uac(
            given.method.as_ptr(),
            given.method.len(),
            given.request.as_ptr(),
            given.request.len(),
            given.status,
            given.response.as_ptr(),
            given.response.len(),
            given.local_uri.as_ptr(),
            given.local_uri.len(),
            given.remote_uri.as_ptr(),
            given.remote_uri.len(),
            out.as_mut_ptr(),
            out.len(),
            length,
            least,
        )
    }
}

/// A record of a call that we received, as an image at the front of the lent output.
pub fn new_uas(given: &Creation, out: &mut [u8], length: &mut usize, least: &mut u64) -> u8 {
    unsafe {
        c::sip_dialog_new_uas(
            given.method.as_ptr(),
            given.method.len(),
            given.request.as_ptr(),
            given.request.len(),
            given.status,
            given.response.as_ptr(),
            given.response.len(),
            given.local_uri.as_ptr(),
            given.local_uri.len(),
            given.remote_uri.as_ptr(),
            given.remote_uri.len(),
            out.as_mut_ptr(),
            out.len(),
            length,
            least,
        )
    }
}

/// A request on the record whose image the first `used` of the lent bytes are.
pub fn image_update_from_request(
    settings: Settings,
    method: &[u8],
    block: &[u8],
    image: &mut [u8],
    used: &mut usize,
) -> u8 {
    unsafe {
        c::sip_dialog_image_update_from_request(
            settings,
            method.as_ptr(),
            method.len(),
            block.as_ptr(),
            block.len(),
            image.as_mut_ptr(),
            image.len(),
            used,
        )
    }
}

/// A response on the record.
pub fn image_update_from_response(
    settings: Settings,
    status: u16,
    block: &[u8],
    image: &mut [u8],
    used: &mut usize,
) -> u8 {
    unsafe {
        c::sip_dialog_image_update_from_response(
            settings,
            status,
            block.as_ptr(),
            block.len(),
            image.as_mut_ptr(),
            image.len(),
            used,
        )
    }
}

/// Early becomes Confirmed.
pub fn image_confirm(settings: Settings, image: &mut [u8], used: &mut usize) -> u8 {
    unsafe { c::sip_dialog_image_confirm(settings, image.as_mut_ptr(), image.len(), used) }
}

/// The record becomes Terminated.
pub fn image_terminate(settings: Settings, image: &mut [u8], used: &mut usize) -> u8 {
    unsafe { c::sip_dialog_image_terminate(settings, image.as_mut_ptr(), image.len(), used) }
}

/// The local number rises by one.
pub fn image_next_local_cseq(settings: Settings, image: &mut [u8], used: &mut usize, number: &mut u32) -> u8 {
    unsafe { c::sip_dialog_image_next_local_cseq(settings, image.as_mut_ptr(), image.len(), used, number) }
}

/// Another session interval.
pub fn image_set_session_expires(
    settings: Settings,
    image: &mut [u8],
    used: &mut usize,
    seconds: u64,
    least: &mut u64,
) -> u8 {
    unsafe { c::sip_dialog_image_set_session_expires(settings, image.as_mut_ptr(), image.len(), used, seconds, least) }
}

/// Whether a request belongs to the record.
pub fn image_matches_request(settings: Settings, block: &[u8], image: &[u8], matches: &mut u8) -> u8 {
    unsafe {
        c::sip_dialog_image_matches_request(
            settings,
            block.as_ptr(),
            block.len(),
            image.as_ptr(),
            image.len(),
            matches,
        )
    }
}

/// Whether the record's session is to be refreshed.
pub fn image_needs_refresh(settings: Settings, image: &[u8], elapsed: u64, due: &mut u8) -> u8 {
    unsafe { c::sip_dialog_image_needs_refresh(settings, image.as_ptr(), image.len(), elapsed, due) }
}

/// The record's identifier: places in the image.
pub fn image_id(settings: Settings, image: &[u8], parts: &mut Identifier) -> u8 {
    let [call_id, call_id_length, local, local_length, remote, remote_length] = parts;
    unsafe {
        c::sip_dialog_image_id(
            settings,
            image.as_ptr(),
            image.len(),
            call_id,
            call_id_length,
            local,
            local_length,
            remote,
            remote_length,
        )
    }
}

/// The record's state (1 Early, 2 Confirmed, 3 Terminated), side and security.
pub fn image_state(settings: Settings, image: &[u8], state: &mut u8, we_are_uac: &mut u8, secure: &mut u8) -> u8 {
    unsafe { c::sip_dialog_image_state(settings, image.as_ptr(), image.len(), state, we_are_uac, secure) }
}

/// The record's target, local URI and remote URI: places and lengths in the image.
pub fn image_uris(settings: Settings, image: &[u8], parts: &mut [usize; 6]) -> u8 {
    let [target, target_length, local, local_length, remote, remote_length] = parts;
    unsafe {
        c::sip_dialog_image_uris(
            settings,
            image.as_ptr(),
            image.len(),
            target,
            target_length,
            local,
            local_length,
            remote,
            remote_length,
        )
    }
}

/// A record's numbers; refresher 0 none, 1 uac, 2 uas.
#[derive(Debug, Clone, Copy)]
pub struct Numbers {
    pub local: u32,
    pub remote: u32,
    pub has_last_ack: u8,
    pub last_ack: u32,
    pub has_seconds: u8,
    pub seconds: u32,
    pub refresher: u8,
}

/// The record's numbers.
pub fn image_numbers(settings: Settings, image: &[u8], numbers: &mut Numbers) -> u8 {
    unsafe {
        c::sip_dialog_image_numbers(
            settings,
            image.as_ptr(),
            image.len(),
            &mut numbers.local,
            &mut numbers.remote,
            &mut numbers.has_last_ack,
            &mut numbers.last_ack,
            &mut numbers.has_seconds,
            &mut numbers.seconds,
            &mut numbers.refresher,
        )
    }
}

/// How many routes the record has.
pub fn image_route_count(settings: Settings, image: &[u8], count: &mut usize) -> u8 {
    unsafe { c::sip_dialog_image_route_count(settings, image.as_ptr(), image.len(), count) }
}

/// One route of the record.
pub fn image_route(settings: Settings, image: &[u8], index: usize, part: &mut Part) -> u8 {
    unsafe {
        c::sip_dialog_image_route(
            settings,
            image.as_ptr(),
            image.len(),
            index,
            &mut part.found,
            &mut part.place,
            &mut part.length,
        )
    }
}
