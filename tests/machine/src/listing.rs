//! What `objdump -d --no-show-raw-insn` prints, read as functions of instructions.

/// One function of a program or library.
#[derive(Debug, PartialEq)]
pub struct Function {
    pub name: String,
    pub instructions: Vec<Instruction>,
}

/// One instruction: where it stands, its name and its operands.
#[derive(Clone, Debug, PartialEq)]
pub struct Instruction {
    pub address: u64,
    pub name: String,
    pub operands: String,
}

impl Instruction {
    fn is_jump(&self) -> bool {
        self.name.starts_with('j')
    }

    pub fn is_conditional_jump(&self) -> bool {
        self.is_jump() && !self.name.starts_with("jmp")
    }

    /// A move, or a byte set, by the outcome of a comparison.
    pub fn is_conditional_move(&self) -> bool {
        self.name.starts_with("cmov") || self.name.starts_with("set")
    }

    /// Where a jump goes, if the instruction itself says so.
    pub fn target(&self) -> Option<u64> {
        let place = self.operands.split_whitespace().next()?;
        self.is_jump()
            .then(|| u64::from_str_radix(place, 16).ok())?
    }
}

/// The functions of a listing, in its order.
pub fn functions(listing: &str) -> Vec<Function> {
    let mut functions: Vec<Function> = Vec::new();
    for line in listing.lines() {
        if let Some(name) = heading(line) {
            functions.push(Function {
                name: name.to_string(),
                instructions: Vec::new(),
            });
        } else if let (Some(function), Some(found)) = (functions.last_mut(), instruction(line)) {
            function.instructions.push(found);
        }
    }
    functions
}

/// The name in a line such as `0000000000001a60 <main>:`.
fn heading(line: &str) -> Option<&str> {
    let (address, name) = line.split_once(" <")?;
    let is_address = !address.is_empty() && address.bytes().all(|byte| byte.is_ascii_hexdigit());
    name.strip_suffix(">:").filter(|_| is_address)
}

/// The instruction in a line such as `    1a60:\tpush   %r15`.
fn instruction(line: &str) -> Option<Instruction> {
    let (address, text) = line.split_once(":\t")?;
    let (name, operands) = text.split_once(' ').unwrap_or((text, ""));
    Some(Instruction {
        address: u64::from_str_radix(address.trim(), 16).ok()?,
        name: name.to_string(),
        operands: operands.trim().to_string(),
    })
}

#[cfg(test)]
mod tests {
    use super::*;

    #[test]
    fn functions_and_their_instructions() {
        let listing = "\nDisassembly of section .text:\n\n0000000000000000 <a::b>:\n   0:\tshr    %rcx\n   3:\tret\n\n\
                       0000000000000010 <c>:\n  10:\tjne    3 <a::b+0x3>\n";
        let found = functions(listing);
        assert_eq!(found.len(), 2);
        assert_eq!(
            (found[0].name.as_str(), found[0].instructions.len()),
            ("a::b", 2)
        );
        assert_eq!(found[1].instructions[0].target(), Some(3));
    }

    #[test]
    fn jumps() {
        let read = |text| instruction(&format!("  10:\t{text}")).unwrap();
        let jump = read("jae    72 <f+0x72>");
        assert!(jump.is_conditional_jump() && jump.target() == Some(0x72));
        let always = read("jmp    40 <f+0x40>");
        assert!(!always.is_conditional_jump() && always.target() == Some(0x40));
        assert_eq!(read("jmp    *%rax").target(), None);
        assert_eq!(read("call   40 <f+0x40>").target(), None);
        assert!(read("cmovb  %ecx,%r8d").is_conditional_move());
    }
}
