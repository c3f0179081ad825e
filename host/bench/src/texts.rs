//! Names as compilers of several languages write them, and text of a given kind.

use comparison::random::Random;

const GO_PACKAGES: [&str; 14] = [
    "fmt",
    "net/http",
    "encoding/json",
    "crypto/tls",
    "internal/reflectlite",
    "go.opentelemetry.io/otel/sdk/trace",
    "golang.org/x/text/unicode/norm",
    "golang.org/x/net/http2/hpack",
    "github.com/example/service/store",
    "github.com/prometheus/client_golang",
    "google.golang.org/protobuf/types",
    "runtime/internal/atomic",
    "vendor/golang.org/x/crypto/chacha20",
    "k8s.io/apimachinery/pkg/runtime",
];

const WORDS: [&str; 24] = [
    "read",
    "buffer",
    "flush",
    "encode",
    "state",
    "header",
    "insert",
    "value",
    "resolve",
    "stream",
    "counter",
    "locked",
    "window",
    "marshal",
    "iterator",
    "range",
    "append",
    "node",
    "visit",
    "block",
    "channel",
    "limit",
    "transport",
    "slice",
];

/// Words joined as identifiers are: `readBufferFlush`.
fn words(r: &mut Random, count: usize) -> String {
    let mut text = r.one_of(&WORDS).to_string();
    for _ in 1..count {
        let word = r.one_of(&WORDS);
        text.push_str(&word[..1].to_uppercase());
        text.push_str(&word[1..]);
    }
    text
}

pub fn identifier(r: &mut Random) -> String {
    let count = 1 + r.below(2);
    words(r, count)
}

/// A package path with a method or a closure: `net/http.(*streamReader).flush.func1`.
pub fn go(r: &mut Random) -> String {
    let package = r.one_of(&GO_PACKAGES);
    let receiver = words(r, 1);
    let method = words(r, 2);
    match r.below(3) {
        0 => format!("{package}.{method}"),
        1 => format!("{package}.(*{receiver}).{method}"),
        _ => format!("{package}.{method}.func{}", 1 + r.below(12)),
    }
}

/// An identifier with its length before it, as mangled names have it.
fn with_length(identifier: &str) -> String {
    format!("{}{identifier}", identifier.len())
}

/// A member of a class template: `_ZN4absl12lts_2024011618container_internal5rangeINS_4nodeENS_5valueEE6appendERKS2_`.
pub fn cpp(r: &mut Random) -> String {
    let mut text = String::from("_ZN4absl12lts_2024011618container_internal");
    text.push_str(&with_length(&words(r, 2)));
    text.push('I');
    while text.len() < 138 {
        let argument = with_length(&words(r, 2));
        text.push_str(&format!("NS_{argument}E"));
    }
    text.push('E');
    text.push_str(&with_length(&words(r, 2)));
    text.push_str("ERKS2_");
    text
}

/// A function generic over a type of another crate:
/// `_RINvNtCs.._4core3ptr4readNtNtCs.._5alloc6string6StringE`.
pub fn rust_v0(r: &mut Random) -> String {
    let (function, of_type) = (rust_path(r), rust_path(r));
    format!("_RINv{function}Nt{of_type}E")
}

/// What a module of a crate defines. The crate has its hash in base 62.
fn rust_path(r: &mut Random) -> String {
    const DIGITS: &[u8; 62] = b"0123456789abcdefghijklmnopqrstuvwxyzABCDEFGHIJKLMNOPQRSTUVWXYZ";
    let hash: String = (0..11).map(|_| char::from(r.one_of(DIGITS))).collect();
    let in_crate = with_length(&words(r, 1));
    let (module, defined) = (with_length(&words(r, 2)), with_length(&words(r, 2)));
    format!("NtCs{hash}_{in_crate}{module}{defined}")
}

pub fn letter(r: &mut Random) -> String {
    ascii(r, 1)
}

/// Words in ASCII but for one letter of two bytes between them: `readBufferÄflushState`.
pub fn one_letter_beyond(r: &mut Random) -> String {
    let (before, behind) = (4 + r.below(9), 4 + r.below(9));
    let letter = characters(r, 'À', 'ÿ', 1);
    [words(r, before), letter, words(r, behind)].concat()
}

pub fn ascii(r: &mut Random, length: usize) -> String {
    characters(r, 'a', 'z', length)
}

/// Characters from a range, which holds no surrogate.
pub fn characters(r: &mut Random, first: char, last: char, count: usize) -> String {
    let choices = last as usize - first as usize + 1;
    let one = |_| {
        let code = first as u32 + r.below(choices) as u32;
        char::from_u32(code).expect("the range holds characters alone")
    };
    (0..count).map(one).collect()
}
