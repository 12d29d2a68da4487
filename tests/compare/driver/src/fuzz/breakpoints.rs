//! What inputs reach of the library's code: each block that a jump may lead to has a breakpoint, which its first run takes away.

use super::program::{Program, base};
use super::signals::handle;
use std::collections::{BTreeMap, BTreeSet};
use std::sync::OnceLock;
use std::sync::atomic::{AtomicBool, AtomicUsize, Ordering};

unsafe extern "C" {
    fn mprotect(start: *mut u8, length: usize, access: i32) -> i32;
}

/// A block of the library's code: where it begins, the function, and the byte that the breakpoint stands for.
struct Block {
    address: usize,
    function: String,
    byte: u8,
    hit: AtomicBool,
}

static BLOCKS: OnceLock<Vec<Block>> = OnceLock::new();
static HITS: AtomicUsize = AtomicUsize::new(0);

/// The blocks of the library's code that were run.
pub struct Blocks;

impl Blocks {
    /// Put a breakpoint at the start of each, as `objdump` shows them; none where there is no `objdump`.
    pub fn watched() -> Self {
        const TRAP: i32 = 5;
        const ALL_ACCESS: i32 = 7;
        const PAGE: usize = 4096;
        let program = Program::own();
        let functions = functions(&program);
        let text = disassembled(&functions);
        let blocks = starts(&text, &functions).into_iter().map(|(place, function)| {
            let address = base() + place;
            // SAFETY: the place is one of this program's code.
            let byte = unsafe { *(address as *const u8) };
            Block { address, function, byte, hit: AtomicBool::new(false) }
        });
        let blocks = BLOCKS.get_or_init(|| blocks.collect());
        if let (Some(first), Some(last)) = (blocks.first(), blocks.last()) {
            handle(TRAP, trapped);
            let start = first.address / PAGE * PAGE;
            // SAFETY: the pages are those of this program's code from the first block to the last.
            let allowed = unsafe { mprotect(start as *mut u8, last.address + 1 - start, ALL_ACCESS) };
            for block in blocks.iter().filter(|_| allowed == 0) {
                // SAFETY: an instruction begins here, and its first byte is put back when it is reached.
                unsafe { (block.address as *mut u8).write_volatile(0xcc) };
            }
        }
        Self
    }

    /// How many were run, and how many there are.
    pub fn hit(&self) -> (usize, usize) {
        (HITS.load(Ordering::Relaxed), BLOCKS.get().map_or(0, Vec::len))
    }

    /// How many of each function were not run.
    pub fn missed(&self) -> String {
        let mut missed = BTreeMap::<&str, u64>::new();
        for block in BLOCKS.get().into_iter().flatten().filter(|block| !block.hit.load(Ordering::Relaxed)) {
            *missed.entry(&block.function).or_default() += 1;
        }
        missed.iter().map(|(function, count)| format!(" {function}:{count}")).collect()
    }
}

/// Take the breakpoint away and go on where it was.
extern "C" fn trapped(_: i32, _: *const u8, state: *mut u8) {
    // where glibc's ucontext_t has the address of the next instruction
    const NEXT: usize = 40 + 16 * 8;
    // SAFETY: the state is the one that the kernel handed over, and blocks lie where this program's code is writable.
    unsafe {
        let next = state.add(NEXT).cast::<usize>();
        let address = next.read() - 1;
        let blocks = BLOCKS.get().map_or(&[][..], Vec::as_slice);
        let Ok(place) = blocks.binary_search_by_key(&address, |block| block.address) else {
            std::process::abort();
        };
        (address as *mut u8).write_volatile(blocks[place].byte);
        blocks[place].hit.store(true, Ordering::Relaxed);
        HITS.fetch_add(1, Ordering::Relaxed);
        next.write(address);
    }
}

/// The functions of the library, by their place: name and length. Rust's own are mangled.
fn functions(program: &Program) -> BTreeMap<usize, (String, usize)> {
    const FUNCTION: usize = 2;
    let (Some([_, symbols, length]), Some([_, names, _])) = (program.section(".symtab"), program.section(".strtab"))
    else {
        return BTreeMap::new();
    };
    let function = |symbol: usize| {
        let name = program.text(names + program.number(symbol, 4));
        let is_own = name.starts_with("kundatrezo_") || name.contains("::");
        let is_function = program.number(symbol + 4, 1) & 15 == FUNCTION && program.number(symbol + 6, 2) != 0;
        (is_own && is_function).then(|| (program.number(symbol + 8, 8), (name, program.number(symbol + 16, 8))))
    };
    (symbols..symbols + length).step_by(24).filter_map(function).collect()
}

fn disassembled(functions: &BTreeMap<usize, (String, usize)>) -> String {
    let (Some(first), Some(last)) = (functions.keys().next(), functions.keys().next_back()) else {
        return String::new();
    };
    let end = last + functions[last].1;
    let run = std::process::Command::new("objdump")
        .args(["-d", "--no-show-raw-insn", &format!("--start-address={first}"), &format!("--stop-address={end}")])
        .arg(std::env::current_exe().unwrap_or_default())
        .output();
    run.map_or_else(|_| String::new(), |output| String::from_utf8_lossy(&output.stdout).into_owned())
}

/// Where blocks begin: functions, what jumps lead to, and what stands behind a jump or a return.
fn starts(text: &str, functions: &BTreeMap<usize, (String, usize)>) -> Vec<(usize, String)> {
    let within = |place: usize| {
        let (start, (name, length)) = functions.range(..=place).next_back()?;
        (place < start + length).then(|| name.clone())
    };
    let hexadecimal = |digits: &str| usize::from_str_radix(digits.trim(), 16).ok();
    let (mut places, mut starts, mut behind) = (BTreeSet::new(), BTreeSet::new(), true);
    for line in text.lines() {
        let Some((place, instruction)) =
            line.split_once(":\t").and_then(|(place, rest)| Some((hexadecimal(place)?, rest)))
        else {
            continue;
        };
        let mut words = instruction.split_whitespace();
        let name = words.next().unwrap_or_default();
        let is_filler = instruction.contains("nop") || instruction.starts_with("xchg   %ax,%ax") || name == "int3";
        places.insert(place);
        if functions.contains_key(&place) || behind && !is_filler {
            starts.insert(place);
        }
        behind = behind && is_filler;
        if name.starts_with('j') || name.starts_with("ret") {
            behind = true;
            starts.extend(words.next().and_then(hexadecimal));
        }
    }
    let starts = starts.intersection(&places);
    starts.filter_map(|&place| within(place).map(|function| (place, function))).collect()
}
