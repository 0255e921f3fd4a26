//! The declarations of the exported functions: those of both bindings against the library's own, parameter for parameter; and the sizes
//! of the buffers.

const LIBRARY: &str = include_str!("../../crates/field_axes_c/src/lib.rt");
const RUST: &str = include_str!("../../bindings/rust/src/lib.rs");
const C: &str = include_str!("../../bindings/c/field_axes.h");

/// The most that an answer has, in C's words and as Rust has it; that Rust's is enough is seen where the buffer is Rust's own; of job text by the
/// longest one, in `writing`.
const MOST: [(&str, usize); 7] = [
    ("NUMBERS", field_axes::MOST_NUMBERS),
    ("TABLE_NUMBERS", field_axes::MOST_TABLE_NUMBERS),
    ("JOB_BYTES", field_axes::MOST_JOB_BYTES),
    ("REPORT_BYTES", field_axes::MOST_REPORT_BYTES),
    ("ANSWER_BYTES", field_axes::MOST_ANSWER_BYTES),
    ("SEASON_BYTES", field_axes::MOST_SEASON_BYTES),
    ("PANELS_BYTES", field_axes::MOST_PANELS_BYTES),
];

/// How many functions are declared alike, or the first difference.
pub fn compare() -> Result<usize, String> {
    for (name, most) in MOST {
        if !C.contains(&format!("#define FIELD_AXES_MOST_{name} {most}\n")) {
            return Err(format!("C does not have {most} for {name}"));
        }
    }
    let library = declared(LIBRARY, "fn field_axes_", of_library);
    for (language, bound) in [
        ("Rust", declared(RUST, "fn field_axes_", of_rust)),
        ("C", declared(C, "\nint64_t field_axes_", of_c)),
    ] {
        if bound.len() != library.len() {
            let (here, there) = (bound.len(), library.len());
            return Err(format!(
                "{language} declares {here} functions, the library {there}"
            ));
        }
        if let Some((bound, own)) = bound.iter().zip(&library).find(|(bound, own)| bound != own) {
            return Err(format!(
                "{language} declares {bound}, and the library {own}"
            ));
        }
    }
    Ok(library.len())
}

/// Each function whose declaration begins with the marker, as Rust declares a foreign one; by name.
fn declared(text: &str, marker: &str, parameter: fn(&str) -> String) -> Vec<String> {
    let mut functions: Vec<String> = text
        .split(marker)
        .skip(1)
        .map(|rest| {
            let (name, rest) = rest.split_once('(').unwrap_or((rest, ""));
            let (parameters, rest) = rest.split_once(')').unwrap_or((rest, ""));
            let parameters: Vec<String> = parameters
                .split(',')
                .map(|field| field.split_whitespace().collect::<Vec<_>>().join(" "))
                .filter(|field| !field.is_empty())
                .map(|field| parameter(&field))
                .collect();
            // The marker of a declaration in C has its result.
            let result = if rest.starts_with(" -> i64") || rest.starts_with(';') {
                " -> i64"
            } else {
                ""
            };
            format!("field_axes_{name}({}){result}", parameters.join(", "))
        })
        .collect();
    functions.sort();
    functions
}

/// A slice is a pointer and a length.
fn of_library(field: &str) -> String {
    let (name, kind) = field.split_once(": ").unwrap_or((field, ""));
    let slice = |pointer: &str, element: &str| {
        format!("{name}: *{pointer} {element}, {name}_length: usize")
    };
    let element = |of: &'static str| kind.strip_prefix(of)?.strip_suffix(']');
    match (element("&["), element("&mut ["), kind.strip_prefix("&mut ")) {
        (Some(element), _, _) => slice("const", element),
        (_, Some(element), _) => slice("mut", element),
        (_, _, Some(one)) => format!("{name}: *mut {one}"),
        _ => field.to_string(),
    }
}

fn of_rust(field: &str) -> String {
    field.to_string()
}

fn of_c(field: &str) -> String {
    let (kind, name) = field.rsplit_once(' ').unwrap_or(("", field));
    match (kind.strip_prefix("const "), name.strip_prefix('*')) {
        (Some(kind), Some(name)) => format!("{name}: *const {}", number_of_c(kind)),
        (None, Some(name)) => format!("{name}: *mut {}", number_of_c(kind)),
        _ => format!("{name}: {}", number_of_c(kind)),
    }
}

fn number_of_c(kind: &str) -> &str {
    match kind {
        "int64_t" => "i64",
        "uint64_t" => "u64",
        "uint32_t" => "u32",
        "uint8_t" => "u8",
        "size_t" => "usize",
        other => other,
    }
}
