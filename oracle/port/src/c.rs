//! The C declarations of the Rattle functions, in the order of include/sip_dialog.h. A byte run is a pointer and a
//! length.
//! Made by `tools/face write` from crates/sip_dialog/src, not by hand.

#[derive(Debug, Clone, Copy, PartialEq, Eq, PartialOrd, Ord)]
#[repr(C)]
pub struct Settings {
    pub cseq_jump: u32,
    pub pending: u32,
    pub cleanup_seconds: u32,
    pub timeout_seconds: u32,
    pub early_cap: u32,
}

#[rustfmt::skip]
extern "C" {
    // Header blocks and status codes
    pub fn sip_dialog_check_block(block: *const u8, block_len: usize) -> u8;
    pub fn sip_dialog_header(
        block: *const u8,
        block_len: usize,
        name: *const u8,
        name_len: usize,
        found: *mut u8,
        place: *mut usize,
        length: *mut usize,
    ) -> u8;
    pub fn sip_dialog_next_header(
        block: *const u8,
        block_len: usize,
        name: *const u8,
        name_len: usize,
        from: usize,
        found: *mut u8,
        place: *mut usize,
        length: *mut usize,
        next: *mut usize,
    ) -> u8;
    pub fn sip_dialog_is_informational(code: u16) -> bool;
    pub fn sip_dialog_is_success(code: u16) -> bool;
    pub fn sip_dialog_is_redirection(code: u16) -> bool;
    pub fn sip_dialog_is_client_error(code: u16) -> bool;
    pub fn sip_dialog_is_server_error(code: u16) -> bool;
    pub fn sip_dialog_is_global_failure(code: u16) -> bool;
    pub fn sip_dialog_is_error(code: u16) -> bool;

    // URIs
    pub fn sip_dialog_sip_uri(
        text: *const u8,
        text_len: usize,
        secure: *mut u8,
        user: *mut usize,
        user_length: *mut usize,
        host: *mut usize,
        host_length: *mut usize,
        has_port: *mut u8,
        port: *mut u16,
    ) -> u8;
    pub fn sip_dialog_uri_estimate(text: *const u8, text_len: usize, estimate: *mut usize) -> u8;
    pub fn sip_dialog_parse_uri_from_header(
        value: *const u8,
        value_len: usize,
        found: *mut u8,
        place: *mut usize,
        length: *mut usize,
    ) -> u8;

    // Identifiers
    pub fn sip_dialog_extract_tag(value: *const u8, value_len: usize, place: *mut usize, length: *mut usize) -> u8;
    pub fn sip_dialog_dialog_id_new(
        call_id: *const u8,
        call_id_len: usize,
        local_tag: *const u8,
        local_tag_len: usize,
        remote_tag: *const u8,
        remote_tag_len: usize,
    ) -> u8;
    pub fn sip_dialog_from_request(
        block: *const u8,
        block_len: usize,
        call_id: *mut usize,
        call_id_length: *mut usize,
        local_tag: *mut usize,
        local_tag_length: *mut usize,
        remote_tag: *mut usize,
        remote_tag_length: *mut usize,
    ) -> u8;
    pub fn sip_dialog_from_response_uac(
        block: *const u8,
        block_len: usize,
        call_id: *mut usize,
        call_id_length: *mut usize,
        local_tag: *mut usize,
        local_tag_length: *mut usize,
        remote_tag: *mut usize,
        remote_tag_length: *mut usize,
    ) -> u8;
    pub fn sip_dialog_from_response_uas(
        block: *const u8,
        block_len: usize,
        call_id: *mut usize,
        call_id_length: *mut usize,
        local_tag: *mut usize,
        local_tag_length: *mut usize,
        remote_tag: *mut usize,
        remote_tag_length: *mut usize,
    ) -> u8;

    // Header values and routes
    pub fn sip_dialog_next_header_value(
        value: *const u8,
        value_len: usize,
        from: usize,
        found: *mut u8,
        place: *mut usize,
        length: *mut usize,
        next: *mut usize,
    ) -> u8;
    pub fn sip_dialog_contact(
        block: *const u8,
        block_len: usize,
        found: *mut u8,
        place: *mut usize,
        length: *mut usize,
    ) -> u8;
    pub fn sip_dialog_route_count(block: *const u8, block_len: usize, count: *mut usize) -> u8;
    pub fn sip_dialog_route(
        block: *const u8,
        block_len: usize,
        reversed: bool,
        index: usize,
        found: *mut u8,
        place: *mut usize,
        length: *mut usize,
    ) -> u8;
    pub fn sip_dialog_parse_session_expires(
        value: *const u8,
        value_len: usize,
        found: *mut u8,
        seconds: *mut u32,
        refresher: *mut u8,
    ) -> u8;
    pub fn sip_dialog_session_expires(
        block: *const u8,
        block_len: usize,
        found: *mut u8,
        seconds: *mut u32,
        refresher: *mut u8,
    ) -> u8;

    // CSeq, RSeq, RAck and methods
    pub fn sip_dialog_cseq_number(block: *const u8, block_len: usize, number: *mut u32) -> u8;
    pub fn sip_dialog_cseq_method(block: *const u8, block_len: usize, method: *mut u8) -> u8;
    pub fn sip_dialog_rseq(block: *const u8, block_len: usize, number: *mut u32) -> u8;
    pub fn sip_dialog_is_reliable_provisional(status: u16, block: *const u8, block_len: usize, reliable: *mut u8) -> u8;
    pub fn sip_dialog_method_number(text: *const u8, text_len: usize, found: *mut u8, method: *mut u8) -> u8;
    pub fn sip_dialog_method_text(method: u8, out: *mut u8, out_len: usize, written: *mut usize) -> u8;
    pub fn sip_dialog_parse_rack(
        value: *const u8,
        value_len: usize,
        rseq: *mut u32,
        cseq: *mut u32,
        method: *mut u8,
    ) -> u8;
    pub fn sip_dialog_format_rack(
        rseq: u32,
        cseq: u32,
        method: u8,
        out: *mut u8,
        out_len: usize,
        written: *mut usize,
    ) -> u8;

    // Session intervals: nanoseconds where nothing is said of seconds. A value whose has_.. is false isn't looked at.
    pub fn sip_dialog_validate_session_expires(interval: u64, has_minimum: bool, minimum: u64, least: *mut u64) -> u8;
    pub fn sip_dialog_negotiate_session_expires(
        requested: u64,
        local_minimum: u64,
        has_remote_minimum: bool,
        remote_minimum: u64,
        has_preference: bool,
        preference: u64,
        interval: *mut u64,
        least: *mut u64,
    ) -> u8;
    pub fn sip_dialog_non_refresher_expiry(interval: u64) -> u64;
    pub fn sip_dialog_calculate_refresh_time(interval: u64) -> u64;
    pub fn sip_dialog_needs_refresh(has_interval: bool, seconds: u32, elapsed: u64) -> bool;
    pub fn sip_dialog_determine_refresher_role(
        given: bool,
        text: *const u8,
        text_len: usize,
        is_uac: bool,
        we_refresh: *mut u8,
    ) -> u8;
    pub fn sip_dialog_image_id(
        settings: Settings,
        image: *const u8,
        image_len: usize,
        call_id: *mut usize,
        call_id_length: *mut usize,
        local_tag: *mut usize,
        local_tag_length: *mut usize,
        remote_tag: *mut usize,
        remote_tag_length: *mut usize,
    ) -> u8;
    pub fn sip_dialog_image_state(
        settings: Settings,
        image: *const u8,
        image_len: usize,
        state: *mut u8,
        we_are_uac: *mut u8,
        secure: *mut u8,
    ) -> u8;
    pub fn sip_dialog_image_uris(
        settings: Settings,
        image: *const u8,
        image_len: usize,
        target: *mut usize,
        target_length: *mut usize,
        local_uri: *mut usize,
        local_uri_length: *mut usize,
        remote_uri: *mut usize,
        remote_uri_length: *mut usize,
    ) -> u8;
    pub fn sip_dialog_image_numbers(
        settings: Settings,
        image: *const u8,
        image_len: usize,
        local: *mut u32,
        remote: *mut u32,
        has_last_ack: *mut u8,
        last_ack: *mut u32,
        has_seconds: *mut u8,
        seconds: *mut u32,
        refresher: *mut u8,
    ) -> u8;
    pub fn sip_dialog_image_route_count(
        settings: Settings,
        image: *const u8,
        image_len: usize,
        count: *mut usize,
    ) -> u8;
    pub fn sip_dialog_image_route(
        settings: Settings,
        image: *const u8,
        image_len: usize,
        index: usize,
        found: *mut u8,
        place: *mut usize,
        length: *mut usize,
    ) -> u8;
    pub fn sip_dialog_image_matches_request(
        settings: Settings,
        block: *const u8,
        block_len: usize,
        image: *const u8,
        image_len: usize,
        matches: *mut u8,
    ) -> u8;
    pub fn sip_dialog_image_needs_refresh(
        settings: Settings,
        image: *const u8,
        image_len: usize,
        elapsed: u64,
        due: *mut u8,
    ) -> u8;
    pub fn sip_dialog_new_uac(
        method: *const u8,
        method_len: usize,
        request: *const u8,
        request_len: usize,
        status: u16,
        response: *const u8,
        response_len: usize,
        local_uri: *const u8,
        local_uri_len: usize,
        remote_uri: *const u8,
        remote_uri_len: usize,
        out: *mut u8,
        out_len: usize,
        written: *mut usize,
        least: *mut u64,
    ) -> u8;
    pub fn sip_dialog_new_uas(
        method: *const u8,
        method_len: usize,
        request: *const u8,
        request_len: usize,
        status: u16,
        response: *const u8,
        response_len: usize,
        local_uri: *const u8,
        local_uri_len: usize,
        remote_uri: *const u8,
        remote_uri_len: usize,
        out: *mut u8,
        out_len: usize,
        written: *mut usize,
        least: *mut u64,
    ) -> u8;
    pub fn sip_dialog_image_confirm(settings: Settings, image: *mut u8, image_len: usize, used: *mut usize) -> u8;
    pub fn sip_dialog_image_terminate(settings: Settings, image: *mut u8, image_len: usize, used: *mut usize) -> u8;
    pub fn sip_dialog_image_next_local_cseq(
        settings: Settings,
        image: *mut u8,
        image_len: usize,
        used: *mut usize,
        number: *mut u32,
    ) -> u8;
    pub fn sip_dialog_image_set_session_expires(
        settings: Settings,
        image: *mut u8,
        image_len: usize,
        used: *mut usize,
        seconds: u64,
        least: *mut u64,
    ) -> u8;
    pub fn sip_dialog_image_update_from_request(
        settings: Settings,
        method: *const u8,
        method_len: usize,
        block: *const u8,
        block_len: usize,
        image: *mut u8,
        image_len: usize,
        used: *mut usize,
    ) -> u8;
    pub fn sip_dialog_image_update_from_response(
        settings: Settings,
        status: u16,
        block: *const u8,
        block_len: usize,
        image: *mut u8,
        image_len: usize,
        used: *mut usize,
    ) -> u8;
    pub fn sip_dialog_put(
        settings: Settings,
        image: *const u8,
        image_len: usize,
        store: *mut u8,
        store_len: usize,
        used: *mut usize,
        created: *mut u64,
    ) -> u8;
    pub fn sip_dialog_request(
        settings: Settings,
        method: *const u8,
        method_len: usize,
        block: *const u8,
        block_len: usize,
        store: *mut u8,
        store_len: usize,
        used: *mut usize,
    ) -> u8;
    pub fn sip_dialog_response(
        settings: Settings,
        call_id: *const u8,
        call_id_len: usize,
        local_tag: *const u8,
        local_tag_len: usize,
        remote_tag: *const u8,
        remote_tag_len: usize,
        status: u16,
        block: *const u8,
        block_len: usize,
        store: *mut u8,
        store_len: usize,
        used: *mut usize,
    ) -> u8;
    pub fn sip_dialog_terminate(
        settings: Settings,
        call_id: *const u8,
        call_id_len: usize,
        local_tag: *const u8,
        local_tag_len: usize,
        remote_tag: *const u8,
        remote_tag_len: usize,
        store: *mut u8,
        store_len: usize,
        used: *mut usize,
    ) -> u8;
    pub fn sip_dialog_next_local_cseq(
        settings: Settings,
        call_id: *const u8,
        call_id_len: usize,
        local_tag: *const u8,
        local_tag_len: usize,
        remote_tag: *const u8,
        remote_tag_len: usize,
        store: *mut u8,
        store_len: usize,
        used: *mut usize,
        number: *mut u32,
    ) -> u8;
    pub fn sip_dialog_set_session_expires(
        settings: Settings,
        call_id: *const u8,
        call_id_len: usize,
        local_tag: *const u8,
        local_tag_len: usize,
        remote_tag: *const u8,
        remote_tag_len: usize,
        seconds: u64,
        store: *mut u8,
        store_len: usize,
        used: *mut usize,
        least: *mut u64,
    ) -> u8;
    pub fn sip_dialog_remove(
        settings: Settings,
        call_id: *const u8,
        call_id_len: usize,
        local_tag: *const u8,
        local_tag_len: usize,
        remote_tag: *const u8,
        remote_tag_len: usize,
        store: *mut u8,
        store_len: usize,
        used: *mut usize,
        terminated: *mut u64,
    ) -> u8;
    pub fn sip_dialog_sweep(settings: Settings, store: *mut u8, store_len: usize, used: *mut usize) -> u8;
    pub fn sip_dialog_get(
        settings: Settings,
        call_id: *const u8,
        call_id_len: usize,
        local_tag: *const u8,
        local_tag_len: usize,
        remote_tag: *const u8,
        remote_tag_len: usize,
        store: *const u8,
        store_len: usize,
        used: usize,
        place: *mut usize,
        length: *mut usize,
    ) -> u8;
    pub fn sip_dialog_find_by_call_id(
        settings: Settings,
        call_id: *const u8,
        call_id_len: usize,
        store: *const u8,
        store_len: usize,
        used: usize,
        place: *mut usize,
        length: *mut usize,
    ) -> u8;
    pub fn sip_dialog_find_by_request(
        settings: Settings,
        block: *const u8,
        block_len: usize,
        store: *const u8,
        store_len: usize,
        used: usize,
        place: *mut usize,
        length: *mut usize,
    ) -> u8;
    pub fn sip_dialog_count(
        settings: Settings,
        store: *const u8,
        store_len: usize,
        used: usize,
        count: *mut usize,
    ) -> u8;
    pub fn sip_dialog_all_ids(
        settings: Settings,
        store: *const u8,
        store_len: usize,
        used: usize,
        out: *mut u8,
        out_len: usize,
        written: *mut usize,
    ) -> u8;
    pub fn sip_dialog_listing(
        settings: Settings,
        bytes: *const u8,
        bytes_len: usize,
        out: *mut u8,
        out_len: usize,
        written: *mut usize,
    ) -> u8;
    pub fn sip_dialog_rseq_next(
        call_id: *const u8,
        call_id_len: usize,
        local_tag: *const u8,
        local_tag_len: usize,
        remote_tag: *const u8,
        remote_tag_len: usize,
        n: u32,
        store: *mut u8,
        store_len: usize,
        used: *mut usize,
        rseq: *mut u32,
    ) -> u8;
    pub fn sip_dialog_rseq_current(
        call_id: *const u8,
        call_id_len: usize,
        local_tag: *const u8,
        local_tag_len: usize,
        remote_tag: *const u8,
        remote_tag_len: usize,
        store: *const u8,
        store_len: usize,
        used: usize,
        rseq: *mut u32,
    ) -> u8;
    pub fn sip_dialog_rseq_remove(
        call_id: *const u8,
        call_id_len: usize,
        local_tag: *const u8,
        local_tag_len: usize,
        remote_tag: *const u8,
        remote_tag_len: usize,
        store: *mut u8,
        store_len: usize,
        used: *mut usize,
    ) -> u8;
    pub fn sip_dialog_rseq_len(store: *const u8, store_len: usize, used: usize, count: *mut usize) -> u8;
    pub fn sip_dialog_rseq_is_empty(store: *const u8, store_len: usize, used: usize, empty: *mut u8) -> u8;
    pub fn sip_dialog_prack_register(
        settings: Settings,
        id: *const u8,
        id_len: usize,
        rseq: u32,
        cseq: u32,
        method: u8,
        code: u16,
        time: u64,
        store: *mut u8,
        store_len: usize,
        used: *mut usize,
    ) -> u8;
    pub fn sip_dialog_prack_validate(
        settings: Settings,
        id: *const u8,
        id_len: usize,
        block: *const u8,
        block_len: usize,
        time: u64,
        store: *mut u8,
        store_len: usize,
        used: *mut usize,
        rseq: *mut u32,
        cseq: *mut u32,
        method: *mut u8,
    ) -> u8;
    pub fn sip_dialog_prack_is_pracked(
        settings: Settings,
        id: *const u8,
        id_len: usize,
        rseq: u32,
        store: *const u8,
        store_len: usize,
        used: usize,
        pracked: *mut u8,
    ) -> u8;
    pub fn sip_dialog_prack_get_pending(
        settings: Settings,
        id: *const u8,
        id_len: usize,
        time: u64,
        store: *mut u8,
        store_len: usize,
        used: *mut usize,
        out: *mut u8,
        out_len: usize,
        written: *mut usize,
    ) -> u8;
    pub fn sip_dialog_prack_remove_dialog(
        settings: Settings,
        id: *const u8,
        id_len: usize,
        store: *mut u8,
        store_len: usize,
        used: *mut usize,
    ) -> u8;
    pub fn sip_dialog_prack_remove_pracked(
        settings: Settings,
        id: *const u8,
        id_len: usize,
        rseq: u32,
        store: *mut u8,
        store_len: usize,
        used: *mut usize,
    ) -> u8;

    // Counts of dialogs
    pub fn sip_dialog_record_created(created: u64) -> u64;
    pub fn sip_dialog_record_terminated(terminated: u64) -> u64;
    pub fn sip_dialog_interval_contest(
        requested: u64,
        min_se: u64,
        has_first: *mut u8,
        first_least: *mut u64,
        first_most: *mut u64,
        has_retry: *mut u8,
        retry_least: *mut u64,
        retry_most: *mut u64,
        only_requested: *mut u8,
        least: *mut u64,
    ) -> u8;
    pub fn sip_dialog_add_verdict(time: u64, number: u8, run: *mut u8, run_len: usize, used: *mut usize) -> u8;
    pub fn sip_dialog_worst_minute(
        run: *const u8,
        run_len: usize,
        used: usize,
        refusals: *mut usize,
        found: *mut u8,
        start: *mut u64,
    ) -> u8;
}
