//! Input at the edges for a bench: that for one end with its leads, and lines of the bench alone.

use crate::odd;
use crate::script::Script;
use reference::bench::{REQUEST_A, REQUEST_B};

/// A run in which A calls, B answers, a block is carried, and a line is none.
const RUN: &[u8] = b"5141\n5040\n520000\n520001\n520002\n5044026162\n520003\n520004\nzz\n";

/// All scripts of this sort.
pub fn scripts() -> Vec<Script> {
    let mut scripts = odd::of(RUN, &[&[], &[REQUEST_A], &[REQUEST_B]]);
    scripts.push(Script(odd::RUN.to_vec()));
    scripts.push(refused());
    scripts
}

/// Lines that are refused, each about the end that its refusal names, while the two differ.
fn refused() -> Script {
    let lines = [
        "",
        "\r",
        "5",
        "50",
        "51",
        "52",
        "53",
        "5352",
        "53ff",
        "535200",
        "535050",
        "535150",
        "53500000",
        "535",
        "53z0",
        "5153",
        "515351",
        "5350",
        "5100",
        "5150",
        "5151",
        "5152",
        "5101",
        "5140ff",
        "5146",
        "514600",
        "5147",
        "5046",
        "5144",
        "514400",
        "514401",
        "51440161ff",
        "5143",
        "515",
        "51zz",
        "51 40",
        "5140\r",
        "5200",
        "520000",
        "52000000",
        "520001",
        "5200ff",
        "52ffff",
        "52zz",
        "5040",
        "5042",
        "50440161",
        "5A40",
        "5G40",
        "5@40",
        "5`40",
        "5140Ff",
        "52FFff",
        "53fF",
        "54",
        "5141",
        "5140",
    ];
    let starts = ["", "5140\n", "5041\n", "5041\n5140\n520000\n"];
    let mut script = Script::default();
    for start in starts {
        script.0.extend(start.as_bytes());
        for line in lines {
            script.push_line(line.as_bytes());
        }
    }
    script
}
