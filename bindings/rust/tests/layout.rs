//! The structs and numbers of `rr::raw` against those of `rr.h`, as the system's C compiler has them.

use rr::raw;
use std::mem::{align_of, offset_of, size_of};
use std::path::Path;
use std::process::Command;

/// A struct of `rr.h`: its name, its size and alignment, and its fields with their offsets.
type Layout = (&'static str, usize, usize, Vec<(&'static str, usize)>);

macro_rules! layout {
    ($name:literal $type:ty { $($field:ident)* }) => {
        ($name, size_of::<$type>(), align_of::<$type>(), vec![$((stringify!($field), offset_of!($type, $field))),*])
    };
}

fn structs() -> Vec<Layout> {
    vec![
        layout!("rr_hub_t" raw::Hub { at }),
        layout!("rr_id_t" raw::Id { number row index }),
        layout!("rr_limits_t" raw::Limits {
            max_clients max_servers max_loaned_requests max_active_requests_per_client max_response_buffer_size
            max_borrowed_responses_per_pending_response client_expired_connection_buffer server_expired_connection_buffer
            enable_safe_overflow_for_requests enable_safe_overflow_for_responses enable_fire_and_forget_requests
        }),
        layout!("rr_client_settings_t" raw::ClientSettings {
            initial_max_slice_len preallocated_requests backpressure_strategy allocation_strategy
        }),
        layout!("rr_server_settings_t" raw::ServerSettings {
            initial_max_slice_len preallocated_responses max_loaned_responses_per_request backpressure_strategy
            allocation_strategy
        }),
        layout!("rr_header_t" raw::Header { port_id request_id number_of_elements node_id is_response }),
        layout!("rr_user_header_t" raw::UserHeader { bytes }),
    ]
}

macro_rules! constants {
    ($($name:ident)*) => {
        vec![$((stringify!($name), raw::$name)),*]
    };
}

/// The numbers of `rr.h` that are no codes.
fn constants() -> Vec<(&'static str, u32)> {
    constants! {
        RR_BACKPRESSURE_RETRY_UNTIL_DELIVERED RR_BACKPRESSURE_DISCARD_DATA
        RR_ALLOCATION_STATIC RR_ALLOCATION_BEST_FIT RR_ALLOCATION_POWER_OF_TWO
        RR_KIND_CLIENT RR_KIND_SERVER RR_KIND_REQUEST_MUT_UNINIT RR_KIND_REQUEST_MUT RR_KIND_PENDING_RESPONSE
        RR_KIND_ACTIVE_REQUEST RR_KIND_RESPONSE_MUT_UNINIT RR_KIND_RESPONSE_MUT RR_KIND_RESPONSE
    }
}

/// A C program that returns the number of the first line that does not hold, of those that compare `rr.h` with
/// `rr::raw`.
fn program(checks: &[String]) -> String {
    let lines: String = checks
        .iter()
        .enumerate()
        .map(|(index, check)| format!("    if (!({check})) return {};\n", index + 1))
        .collect();
    format!(
        "#include <stddef.h>\n#include <string.h>\n#include \"rr.h\"\nint main(void) {{\n{lines}    return 0;\n}}\n"
    )
}

fn struct_checks() -> Vec<String> {
    let mut checks = Vec::new();
    for (name, size, align, fields) in structs() {
        checks.push(format!("sizeof({name}) == {size} && _Alignof({name}) == {align}"));
        checks.extend(fields.iter().map(|(field, at)| format!("offsetof({name}, {field}) == {at}")));
    }
    checks
}

fn number_checks() -> Vec<String> {
    let codes = raw::CODES
        .iter()
        .map(|(code, name)| format!("{name} == {code} && !strcmp(rr_code_name({code}), {name:?})"));
    let others = constants().into_iter().map(|(name, number)| format!("{name} == {number}"));
    codes
        .chain(others)
        .chain([format!("!strcmp(rr_code_name(99), {:?})", raw::code_name(99))])
        .collect()
}

fn default_checks() -> Vec<String> {
    let (limits, client, server) =
        (raw::limits_default(), raw::client_settings_default(5), raw::server_settings_default(6));
    vec![
        format!("rr_limits_default().max_clients == {}", limits.max_clients),
        format!("rr_limits_default().max_servers == {}", limits.max_servers),
        format!("rr_limits_default().max_loaned_requests == {}", limits.max_loaned_requests),
        format!("rr_limits_default().max_active_requests_per_client == {}", limits.max_active_requests_per_client),
        format!("rr_limits_default().max_response_buffer_size == {}", limits.max_response_buffer_size),
        format!(
            "rr_limits_default().max_borrowed_responses_per_pending_response == {}",
            limits.max_borrowed_responses_per_pending_response
        ),
        format!("rr_limits_default().client_expired_connection_buffer == {}", limits.client_expired_connection_buffer),
        format!("rr_limits_default().server_expired_connection_buffer == {}", limits.server_expired_connection_buffer),
        format!(
            "rr_limits_default().enable_safe_overflow_for_requests == {}",
            limits.enable_safe_overflow_for_requests
        ),
        format!(
            "rr_limits_default().enable_safe_overflow_for_responses == {}",
            limits.enable_safe_overflow_for_responses
        ),
        format!("rr_limits_default().enable_fire_and_forget_requests == {}", limits.enable_fire_and_forget_requests),
        format!("rr_client_settings_default(5).initial_max_slice_len == {}", client.initial_max_slice_len),
        format!("rr_client_settings_default(5).preallocated_requests == {}", client.preallocated_requests),
        format!("rr_client_settings_default(5).backpressure_strategy == {}", client.backpressure_strategy),
        format!("rr_client_settings_default(5).allocation_strategy == {}", client.allocation_strategy),
        format!("rr_server_settings_default(6).initial_max_slice_len == {}", server.initial_max_slice_len),
        format!("rr_server_settings_default(6).preallocated_responses == {}", server.preallocated_responses),
        format!(
            "rr_server_settings_default(6).max_loaned_responses_per_request == {}",
            server.max_loaned_responses_per_request
        ),
        format!("rr_server_settings_default(6).backpressure_strategy == {}", server.backpressure_strategy),
        format!("rr_server_settings_default(6).allocation_strategy == {}", server.allocation_strategy),
    ]
}

/// Compiles and runs the program of some checks.
fn holds(name: &str, checks: &[String]) {
    let folder = Path::new(env!("CARGO_TARGET_TMPDIR"));
    let (source, binary) = (folder.join(format!("{name}.c")), folder.join(name));
    std::fs::write(&source, program(checks)).unwrap();
    let include = Path::new(env!("CARGO_MANIFEST_DIR")).join("../c/include");
    let mut compiler = Command::new("cc");
    compiler
        .args(["-std=c11", "-Wall", "-Werror", "-I"])
        .arg(include)
        .arg(&source)
        .arg("-o")
        .arg(&binary);
    assert!(compiler.status().expect("a C compiler, `cc`").success());
    let failed = Command::new(&binary).status().unwrap().code().expect("a number") as usize;
    assert_eq!(failed, 0, "{}", checks[failed.max(1) - 1]);
}

#[test]
fn structs_are_those_of_the_header() {
    let checks = struct_checks();
    assert_eq!(checks.len(), 7 + 1 + 3 + 11 + 4 + 5 + 5 + 1);
    holds("structs", &checks);
}

#[test]
fn numbers_are_those_of_the_header() {
    let checks = number_checks();
    assert_eq!(checks.len(), 23 + 14 + 1);
    holds("numbers", &checks);
}

#[test]
fn defaults_are_those_of_the_header() {
    holds("defaults", &default_checks());
}

/// Returns the functions that lines of a text declare, each with the number of its commas, in alphabetical order.
fn declared(text: &str, begins: &[&str]) -> Vec<(String, usize)> {
    let lines = text.lines().map(str::trim_start);
    let declarations = lines.filter(|line| begins.iter().any(|begin| line.starts_with(begin)) && line.ends_with(';'));
    let name_of = |line: &str| line[line.find("rr_").unwrap()..line.find('(').unwrap()].to_string();
    let mut declared: Vec<_> = declarations.map(|line| (name_of(line), line.matches(',').count())).collect();
    declared.sort();
    declared
}

/// Each function that `rr.h` declares has a name here, and takes as many parameters.
#[test]
fn functions_are_those_of_the_header() {
    let header = std::fs::read_to_string(Path::new(env!("CARGO_MANIFEST_DIR")).join("../c/include/rr.h")).unwrap();
    let raw = std::fs::read_to_string(Path::new(env!("CARGO_MANIFEST_DIR")).join("src/raw.rs")).unwrap();
    // A declaration that is too long for a line stands on several.
    let raw = raw
        .replace("(\n        ", "(")
        .replace(",\n        ", ", ")
        .replace(",\n    )", ")");
    let in_header = declared(&header, &["uint32_t rr_", "void rr_"]);
    let in_raw = declared(&raw, &["pub fn rr_"]);
    assert_eq!(in_header, in_raw);
    assert!(in_header.len() >= 35);
}
