//! The files that are taken of the Rust, each with the checksum that it has at commit 614c9f3608.

use crate::sha256::checksum;

/// A file below crates/ace/src, and its SHA-256.
pub type Source = (&'static str, &'static str);

/// The files mounted whole.
pub const MODULES: [Source; 10] = [
    ("encode.rs", "ca72c0bbd4e54ee46bc989a701e1775cc5f57f03ac0558ec0a7b4341f0a68bb9"),
    ("instruction.rs", "b57dbd6099122bafe92189be79156dff91d767eea9bdb6b9ade1a1eaa191ffca"),
    ("layout/keys.rs", "a6f162b4e0dd57d7749a9a166009d1b7c4908442b989a9cc101dee5130377569"),
    ("layout/plan.rs", "c2aa0ed35f103819be3b6dfe96409f4d3562246b8d16050834f527547a2d652d"),
    ("compiler/circuit.rs", "38806b6b0255170c7c1ba00a8925baaff47adb1d50be2fd2f9c0fc1a73e922f3"),
    ("compiler/encode.rs", "327027384c10b25f140ee500d4e20559ba589b1daa9b0cebfe50016fa8e1008b"),
    ("compiler/dag/builder.rs", "54a4901ba8381e2626630ee8cf661061ac8e844da33fd4b10e485278b232b0f2"),
    ("compiler/dag/ir.rs", "b9d113034fd0787e839bb556ecd075cbffed1ba181be6a738db508f032703d3e"),
    (
        "compiler/dag/normalize.rs",
        "cc391c4104f0dabdccc179ddd628017e87f02e0888c168bcc42fecc58b009262",
    ),
    (
        "compiler/dag/periodic.rs",
        "020fc358dfd26281706bd278a65281c9307674a2c558b353fa7ff985c59ecf89",
    ),
];

/// The file that `eval_dag` is cut out of.
pub const TESTING: Source =
    ("compiler/testing.rs", "e9ae12cfd03433eeff1712b7cfe8fee6cfba62e620b4dd7e6a98a39562cdb622");

/// What is wrong with these bytes as this file, if they are not the commit's.
pub fn refused((name, expected): Source, bytes: &[u8]) -> Option<String> {
    let found = checksum(bytes);
    let refusal = format!(
        "{name} is not the file of commit 614c9f3608: its SHA-256 is {found}, not {expected}"
    );
    (found != expected).then_some(refusal)
}
