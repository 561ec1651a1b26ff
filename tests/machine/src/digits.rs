//! The loops that write digits.
//!
//! A digit is 48 + n, and 39 more for a letter. The product by 39 tells such a loop where the writer
//! stands within other functions, as it does in the programs.

use crate::listing::{Function, Instruction};

/// The call that is the digit writer and question 11: whatever its loops are, they write digits.
const WRITER: &str = "codec_write_line";

/// A loop that writes digits, from the instruction that it begins with to the jump back.
#[derive(Debug)]
pub struct Loop<'a> {
    pub function: &'a str,
    pub instructions: &'a [Instruction],
}

impl Loop<'_> {
    /// Its conditional jumps. One of them is its own: the one that ends it.
    pub fn jumps(&self) -> Vec<&Instruction> {
        let all = self.instructions.iter();
        all.filter(|found| found.is_conditional_jump()).collect()
    }

    pub fn moves(&self) -> usize {
        let all = self.instructions.iter();
        all.filter(|found| found.is_conditional_move()).count()
    }

    fn multiplies_by_39(&self) -> bool {
        self.instructions.iter().any(|found| {
            found.name == "pmullw"
                || found.name.starts_with("imul") && found.operands.starts_with("$0x27,")
        })
    }
}

/// The loops of these functions that write digits. What jumps back without any condition is none: it is
/// code that stands behind what it goes on to.
pub fn loops(functions: &[Function]) -> Vec<Loop<'_>> {
    let all = functions.iter().flat_map(innermost);
    all.filter(|found| found.function == WRITER || found.multiplies_by_39())
        .filter(|found| !found.jumps().is_empty())
        .collect()
}

/// The loops of a function that have no other loop within.
fn innermost(function: &Function) -> Vec<Loop<'_>> {
    let all = ranges(&function.instructions);
    let holds = |(first, last): (usize, usize)| {
        let within = move |&&(start, end): &&(usize, usize)| first <= start && end <= last;
        all.iter().filter(within).count()
    };
    let inner = all.iter().filter(|&&range| holds(range) == 1);
    inner
        .map(|&(first, last)| Loop {
            function: &function.name,
            instructions: &function.instructions[first..=last],
        })
        .collect()
}

/// From each place that a later jump goes back to, the first and the last instruction of the loop.
fn ranges(instructions: &[Instruction]) -> Vec<(usize, usize)> {
    let back = |(last, jump): (usize, &Instruction)| {
        let target = jump.target()?;
        let first = instructions
            .iter()
            .position(|found| found.address == target)?;
        (first <= last).then_some((first, last))
    };
    instructions.iter().enumerate().filter_map(back).collect()
}

#[cfg(test)]
mod tests {
    use super::*;
    use crate::listing::functions;

    /// A writer that the compiler made of 48 + n + 39 * ((n + 6) / 16).
    const PLAIN: &str = "\
0000000000000000 <main>:
   0:\tjmp    2f <main+0x2f>
   5:\tmovzbl (%rdi,%rax,1),%ecx
   9:\tand    $0xf,%cl
   c:\tlea    0x6(%rcx),%r8d
  10:\tshr    $0x4,%r8b
  14:\tmovzbl %r8b,%r8d
  18:\timul   $0x27,%r8d,%r8d
  1c:\tadd    %cl,%r8b
  1f:\tadd    $0x30,%r8b
  23:\tmov    %r8b,(%rdx,%rax,1)
  27:\tinc    %rax
  2f:\tcmp    %rax,%rsi
  32:\tjne    5 <main+0x5>
  34:\tret
";

    /// One that it made of 48 + n + 39 * (n / 10).
    const BRANCHED: &str = "\
0000000000000000 <codec_write_line>:
  40:\tadd    %r9b,%r8b
  43:\tadd    $0x30,%r8b
  47:\tmov    %r8b,(%rdx,%rcx,1)
  4c:\tinc    %rcx
  4f:\tcmp    %rcx,%rsi
  52:\tje     99 <codec_write_line+0x99>
  81:\tmovzbl (%rdi,%rcx,1),%r9d
  86:\tand    $0xf,%r9b
  8a:\tcmp    $0xa,%r9b
  8e:\tjae    40 <codec_write_line+0x40>
  90:\txor    %r8d,%r8d
  93:\tjmp    40 <codec_write_line+0x40>
  99:\tret
";

    #[test]
    fn one_jump_is_the_loop_s_own() {
        let functions = functions(PLAIN);
        let found = loops(&functions);
        assert_eq!(found.len(), 1);
        assert_eq!(found[0].instructions.len(), 12);
        assert_eq!(found[0].jumps().len(), 1);
        assert_eq!(found[0].moves(), 0);
    }

    #[test]
    fn a_jump_on_a_digit_is_one_more() {
        let functions = functions(BRANCHED);
        let found = loops(&functions);
        let jumps: Vec<_> = found[0].jumps().iter().map(|jump| jump.address).collect();
        assert_eq!(jumps, [0x52, 0x8e]);
    }

    #[test]
    fn what_stands_behind_is_no_loop() {
        let listing = PLAIN.replace("jne ", "jmp ");
        assert!(loops(&functions(&listing)).is_empty());
    }

    #[test]
    fn other_loops_are_none_of_ours() {
        let listing = PLAIN.replace("imul   $0x27", "imul   $0x28");
        assert!(loops(&functions(&listing)).is_empty());
    }
}
