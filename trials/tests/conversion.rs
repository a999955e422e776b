//! The look at the conversion's source and machine code finds what it looks for:
//! a division, a remainder or a multiplication that is put back, in whatever form,
//! a function of another source, a second copy of the formula.

use std::fs;
use std::path::Path;
use trials::conversion::{copied, in_machine_code, in_source, EXPORTED, SOURCE};

/// A line of the source before which another one is planted.
const USE: &str = "use crate::refusals::Refusal;\n";

fn source(name: &str) -> String {
    let crates = Path::new(env!("CARGO_MANIFEST_DIR")).join("../crates");
    fs::read_to_string(crates.join(name)).expect("a source")
}

/// A source with one place changed, which stands there once.
fn planted(text: &str, old: &str, new: &str) -> String {
    assert_eq!(text.matches(old).count(), 1, "{old}");
    text.replace(old, new)
}

#[test]
fn source_as_it_stands() {
    assert_eq!(in_source(&source(SOURCE)), [""; 0]);
    for name in ["mmc/src/sheet.rt", "mmc/src/order.rt"] {
        assert_eq!(copied(&source(name)), [""; 0], "{name}");
    }
}

#[test]
fn operators_put_back() {
    let text = source(SOURCE);
    for (old, new, what) in [
        ("in_512ths(n) >> 9", "n / 75", "a division"),
        (
            "frame_at(past(in_512ths(n), 9)) as u8",
            "(n % 75) as u8",
            "a remainder",
        ),
        (
            "second_at(past(in_256ths(n), 8)) as u8",
            "(n%60) as u8",
            "a remainder",
        ),
        ("    x + x + x\n", "    x * 3\n", "a multiplication"),
        (
            "    x + x + x\n",
            "    let mut y = x;\n    y *= 3;\n    y\n",
            "a multiplication",
        ),
        (
            "nine((m << 6) - m + s)",
            "9*((m << 6) - m + s)",
            "a multiplication",
        ),
        (
            "const LEAD_IN_FRAMES: i64 = 450150;",
            "const LEAD_IN_FRAMES: i64 = 6002 * 75;",
            "a multiplication",
        ),
        ("x - (x >> 5)", "x - (x /* by 32 */ / 32)", "a division"),
        ("x - (x >> 5)", "x - x / 32 // a shift", "a division"),
        ("x - (x >> 5)", "x - w(b\"//\") / 32", "a text"),
    ] {
        let faults = in_source(&planted(&text, old, new));
        assert!(
            faults.iter().any(|fault| fault.contains(what)),
            "{new}: {faults:?}"
        );
    }
}

#[test]
fn functions_of_other_sources() {
    let text = source(SOURCE);
    for (old, new) in [
        ("in_512ths(n) >> 9", "crate::bytes::quotient(n)"),
        ("in_512ths(n) >> 9", "std::num::quotient(n)"),
        (USE, "use crate::bytes::quotient;\n"),
        (USE, "use crate::bytes;\n"),
        (USE, "use crate::bytes::quotient as Quotient;\n"),
        (USE, "use crate::bytes::{Bytes, quotient};\n"),
        (USE, "use crate::bytes::{\n    Bytes,\n    quotient,\n};\n"),
        (USE, "#[derive(Copy)] use crate::bytes::quotient;\n"),
    ] {
        let new = if old == USE {
            format!("{new}{USE}")
        } else {
            new.to_string()
        };
        let faults = in_source(&planted(&text, old, &new));
        assert!(
            faults.iter().any(|fault| fault.contains("another source")),
            "{new}: {faults:?}"
        );
    }
}

#[test]
fn comments_and_contracts_are_no_code() {
    let text = source(SOURCE);
    let contract = "    ensures { result ≡ n / 75 }\n";
    assert!(text.contains("13981 / 2048") && text.contains(contract));
    let parted = planted(&text, contract, "    ensures {\n        result ≡ n / 75\n    }\n");
    assert!(
        !in_source(&parted).is_empty(),
        "a contract on several lines"
    );
    for parted in [
        "    #[tactic(auto, unfolding(crate::specs::Times::clock))]\n    ensures { result ≡ n / 75 }\n",
        "    #[tactic(\n        auto,\n    )]\n    ensures { result ≡ n / 75 }\n",
    ] {
        assert_eq!(in_source(&planted(&text, contract, parted)), [""; 0], "{parted}");
    }
    for hidden in [
        "    ensures { result ≡ n / 75 } { n / 75 }\n",
        "    ensures quotient {\n        result ≡ n / 75\n    } { n / 75 }\n",
        "    ensures {\n    ensures { result ≡ n / 75 }\n",
        "    #[tactic(auto)] n / 75;\n    ensures { result ≡ n / 75 }\n",
        "    ghost use a; n / 75;\n    ensures { result ≡ n / 75 }\n",
    ] {
        assert!(
            !in_source(&planted(&text, contract, hidden)).is_empty(),
            "{hidden}"
        );
    }
}

#[test]
fn second_copy_of_the_formula() {
    let text = source("mmc/src/sheet.rt");
    for formula in [
        "let s = (at.0 + 150) as u32 / 75;",
        "let m = (at.0 + 150) / 4500;",
        "let m = (at.0 + 150) as u32 / 4_500u32;",
        "let s = (at.0 + 150) as u32 / 0x4Bu32;",
        "let mut n = at.0; while 75 <= n { n = n - 75; }",
    ] {
        let copy = planted(
            &text,
            "    let t = time_at(at);\n",
            &format!("    {formula}\n"),
        );
        assert_eq!(copied(&copy).len(), 1, "{formula}");
    }
}

/// The two functions with one more line in each, as `objdump` prints them.
fn machine_code(line: &str) -> String {
    let function = |name: &str| {
        format!("0000000000000000 <{name}>:\n   0:\tlea    0xb05e(%rdi),%rcx\n{line}\n  10:\tja     8a <{name}+0x8a>\n  8a:\tret\n")
    };
    EXPORTED.map(function).concat()
}

#[test]
fn machine_code_as_it_should_be() {
    for line in [
        "",
        "   7:\tshr    $0x6,%eax",
        "   7:\tlea    (%rax,%rax,4),%eax",
        "   7:\txor    %eax,%eax",
    ] {
        assert_eq!(in_machine_code(&machine_code(line)), [""; 0]);
    }
}

/// The first five are what the compiler made of the conversion that divided.
#[test]
fn machine_code_that_divides() {
    for line in [
        "   7:\timul   %rdx,%rcx",
        "   7:\timul   $0x1b4e81b5,%rdx,%rdi",
        "   7:\timul   $0x4444445,%rdi,%r8",
        "   7:\timul   $0x3c,%r8d,%r8d",
        "   7:\timul   $0x4b,%edi,%r9d",
        "   7:\tmul    %rcx",
        "   7:\tdiv    %ecx",
        "   7:\tidivl  0x8(%rsp)",
        "   7:\tvpmuludq %xmm1,%xmm0,%xmm0",
        "   7:\tcall   c <conversion_time+0xc>\n\t\t\t8: R_X86_64_PLT32\t__udivdi3-0x4",
        "   7:\tbnd call *%rax",
        "   7:\tjmp    40 <quotient>",
        "   7:\tlea    0x0(%rip),%rax\n\t\t\t8: R_X86_64_PC32\t.rodata-0x4",
    ] {
        assert!(
            in_machine_code(&machine_code(line)).len() >= EXPORTED.len(),
            "{line}"
        );
    }
}

#[test]
fn machine_code_that_is_not_there() {
    let whole = machine_code("");
    for text in [
        "",
        &whole.replace(EXPORTED[0], "other"),
        &whole.replace("ret", "nop"),
    ] {
        assert!(!in_machine_code(text).is_empty());
    }
}
