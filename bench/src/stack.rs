//! The stack that a call of `fashlemor_arrive` needs, from its return address down.
//!
//! It is read off this program's own machine code, which `objdump` prints: in each function
//! reachable from there, how deep every instruction stands, and the deepest chain of calls. So it
//! bounds every call, not only those that some workload makes. Code whose need can't be told is an
//! error: recursion, or a stack pointer that is moved in ways not known here.

use std::collections::{BTreeMap, HashMap};
use std::env;
use std::process::Command;

const ENTRY: &str = "fashlemor_arrive";

/// A return address.
const ADDRESS: i64 = 8;

/// Functions of the C library that write no stack: a call of them needs its return address only.
const LEAVES: [&str; 6] = [
    "<memcpy@",
    "<memmove@",
    "<memset@",
    "<memcmp@",
    "<bcmp@",
    "<memchr@",
];

/// An instruction as `objdump` prints it, with AT&T operands.
struct Instruction {
    name: String,
    operands: String,
}

struct Function {
    name: String,
    code: BTreeMap<u64, Instruction>,
}

type Program = BTreeMap<u64, Function>;

/// Where control goes from an instruction.
enum Next {
    On,
    /// To an instruction, and on as well where the jump has a condition.
    Jump {
        to: u64,
        conditional: bool,
    },
    /// By a table, to instructions of the same function.
    Table,
    Call(u64),
    Leaf,
    Nowhere,
}

/// The octets of stack that a call of the gateway needs at most, or why nobody knows.
pub fn of_a_call() -> Result<u64, String> {
    let program = env::current_exe().map_err(|error| error.to_string())?;
    let output = Command::new("objdump")
        .args(["--disassemble", "--no-show-raw-insn"])
        .arg(program)
        .output()
        .map_err(|error| format!("objdump: {error}"))?;
    need_of(ENTRY, &read(&String::from_utf8_lossy(&output.stdout)))
}

fn need_of(entry: &str, program: &Program) -> Result<u64, String> {
    let mut functions = program.iter();
    let (&start, _) = functions
        .find(|(_, function)| function.name == entry)
        .ok_or_else(|| format!("there is no {entry}"))?;
    let need = ADDRESS + Needs::new(program).of(start)?;
    u64::try_from(need).map_err(|error| error.to_string())
}

/// The functions of a disassembly by their first address.
fn read(disassembly: &str) -> Program {
    let mut program = Program::new();
    for line in disassembly.lines() {
        if let Some((start, name)) = heading(line) {
            let code = BTreeMap::new();
            program.insert(start, Function { name, code });
        } else if let (Some((address, read)), Some(mut function)) =
            (instruction(line), program.last_entry())
        {
            function.get_mut().code.insert(address, read);
        }
    }
    program
}

/// `0000000000001234 <name>:`
fn heading(line: &str) -> Option<(u64, String)> {
    let (address, name) = line.strip_suffix(">:")?.split_once(" <")?;
    Some((u64::from_str_radix(address, 16).ok()?, name.to_string()))
}

/// `    1234:\tpush   %rbp`
fn instruction(line: &str) -> Option<(u64, Instruction)> {
    let (address, text) = line.split_once(":\t")?;
    let address = u64::from_str_radix(address.trim(), 16).ok()?;
    let text = text
        .trim_start_matches("notrack ")
        .trim_start_matches("bnd ");
    let (name, operands) = text.split_once(' ').unwrap_or((text, ""));
    let (name, operands) = (name.to_string(), operands.trim().to_string());
    Some((address, Instruction { name, operands }))
}

impl Instruction {
    fn next(&self) -> Result<Next, String> {
        let to = self.operands.split(' ').next().unwrap_or("");
        let to = u64::from_str_radix(to, 16).ok();
        let leaf = LEAVES.iter().any(|leaf| self.operands.contains(leaf));
        match (self.name.as_str(), to) {
            ("ret" | "ud2" | "hlt" | "int3", _) => Ok(Next::Nowhere),
            ("call", _) if leaf => Ok(Next::Leaf),
            ("jmp", _) if leaf => Ok(Next::Nowhere),
            ("call", Some(to)) => Ok(Next::Call(to)),
            ("call", None) => Err(format!("a call of {}", self.operands)),
            ("jmp", None) => Ok(Next::Table),
            (name, Some(to)) if name.starts_with('j') => Ok(Next::Jump {
                to,
                conditional: name != "jmp",
            }),
            _ => Ok(Next::On),
        }
    }

    /// How much deeper the stack is after the instruction.
    fn deeper(&self) -> Result<i64, String> {
        let unknown = || format!("{} {}", self.name, self.operands);
        if self.name.starts_with("push") {
            return Ok(8);
        } else if self.name.starts_with("pop") {
            return Ok(-8);
        }
        let Some(source) = self.operands.strip_suffix(",%rsp") else {
            return Ok(0);
        };
        match self.name.as_str() {
            "cmp" | "test" => Ok(0),
            "sub" => immediate(source).ok_or_else(unknown),
            "add" => immediate(source).map(|up| -up).ok_or_else(unknown),
            _ => Err(unknown()),
        }
    }

    /// How far below the stack pointer the instruction reaches: a function that calls none may.
    fn below(&self) -> i64 {
        let Some((before, _)) = self.operands.split_once("(%rsp") else {
            return 0;
        };
        let offset = before.rsplit([',', ' ', '*']).next().unwrap_or("");
        let below = offset.strip_prefix("-0x");
        below.map_or(0, |digits| i64::from_str_radix(digits, 16).unwrap_or(0))
    }
}

/// `$0x18`; a negative one has all of its sixteen digits.
fn immediate(operand: &str) -> Option<i64> {
    let digits = operand.strip_prefix("$0x")?;
    u64::from_str_radix(digits, 16)
        .ok()
        .map(|value| value as i64)
}

/// What each function needs below its return address, as far as it is known yet.
struct Needs<'a> {
    program: &'a Program,
    known: HashMap<u64, i64>,
    /// The functions that are being looked at, each called by the one before.
    chain: Vec<u64>,
}

impl Needs<'_> {
    fn new(program: &Program) -> Needs<'_> {
        Needs {
            program,
            known: HashMap::new(),
            chain: Vec::new(),
        }
    }

    fn of(&mut self, start: u64) -> Result<i64, String> {
        if let Some(&need) = self.known.get(&start) {
            return Ok(need);
        }
        let function = self.program.get(&start);
        let function = function.ok_or_else(|| format!("there is no code at {start:x}"))?;
        if self.chain.contains(&start) {
            return Err(format!("{} calls itself", function.name));
        }
        self.chain.push(start);
        let need = self.of_function(start, function);
        self.chain.pop();
        let need = need.map_err(|reason| format!("{}: {reason}", function.name))?;
        self.known.insert(start, need);
        Ok(need)
    }

    fn of_function(&mut self, start: u64, function: &Function) -> Result<i64, String> {
        let mut need = 0;
        for (address, depth) in depths(start, function)? {
            let instruction = &function.code[&address];
            need = need.max(depth + instruction.deeper()?.max(instruction.below()));
            match instruction.next()? {
                Next::Call(to) => need = need.max(depth + ADDRESS + self.of(to)?),
                Next::Leaf => need = need.max(depth + ADDRESS),
                Next::Jump { to, .. } if !function.code.contains_key(&to) => {
                    need = need.max(depth + self.of(to)?);
                }
                _ => {}
            }
        }
        Ok(need)
    }
}

/// How deep the stack is before each instruction that is reached. A jump by a table may lead to
/// any instruction that is reached in no other way, and does not change the depth.
fn depths(start: u64, function: &Function) -> Result<BTreeMap<u64, i64>, String> {
    let mut depths = BTreeMap::new();
    let mut table = None;
    let mut reached = vec![(start, 0)];
    loop {
        while let Some((address, depth)) = reached.pop() {
            let Some(instruction) = function.code.get(&address) else {
                continue;
            };
            if let Some(before) = depths.insert(address, depth) {
                if before != depth {
                    return Err(format!("{address:x} has two depths"));
                }
                continue;
            }
            let after = depth + instruction.deeper()?;
            let following = function.code.range(address + 1..).next();
            let following = following.map(|(&next, _)| (next, after));
            match instruction.next()? {
                Next::On | Next::Call(_) | Next::Leaf => reached.extend(following),
                Next::Jump { to, conditional } => {
                    reached.push((to, after));
                    reached.extend(following.filter(|_| conditional));
                }
                Next::Table => table = Some(after),
                Next::Nowhere => {}
            }
        }
        let left = function
            .code
            .keys()
            .find(|address| !depths.contains_key(address));
        match (left, table) {
            (Some(&address), Some(depth)) => reached.push((address, depth)),
            _ => return Ok(depths),
        }
    }
}

#[cfg(test)]
mod tests {
    use super::*;

    const CODE: &str = "
0000000000001000 <fashlemor_arrive>:
    1000:\tpush   %rbp
    1001:\tsub    $0x20,%rsp
    1005:\tcmp    $0x1,%rdi
    1009:\tje     1015 <fashlemor_arrive+0x15>
    100b:\tcall   2000 <deep>
    1010:\tadd    $0x20,%rsp
    1013:\tpop    %rbp
    1014:\tret
    1015:\tpush   %rax
    1016:\tcall   3000 <flat>
    101b:\tadd    $0xfffffffffffffff8,%rsp
    101f:\tjmp    *0x2fa0(%rip)        # 60000 <memcpy@GLIBC_2.14>

0000000000002000 <deep>:
    2000:\tsub    $0x100,%rsp
    2004:\tcall   *0x2fa0(%rip)        # 60000 <memcpy@GLIBC_2.14>
    200a:\tadd    $0x100,%rsp
    2011:\tjmp    3000 <flat>

0000000000003000 <flat>:
    3000:\tmov    %rax,-0x18(%rsp)
    3005:\tret
";

    #[test]
    fn the_deepest_chain_is_found() {
        // Its return address, %rbp, 32, the return address of deep, 256, that of memcpy.
        let need = 8 + 8 + 32 + 8 + 256 + 8;
        assert_eq!(need_of(ENTRY, &read(CODE)), Ok(need));
        assert_eq!(need_of("flat", &read(CODE)), Ok(8 + 24));
    }

    #[test]
    fn what_cannot_be_told_is_an_error() {
        let wild = CODE.replace("sub    $0x100,%rsp", "sub    %rax,%rsp");
        assert!(need_of(ENTRY, &read(&wild)).is_err());
        let again = CODE.replace("jmp    3000 <flat>", "call   2000 <deep>");
        assert!(need_of(ENTRY, &read(&again)).is_err());
        let pointer = CODE.replace("call   3000 <flat>", "call   *%rax");
        assert!(need_of(ENTRY, &read(&pointer)).is_err());
    }
}
