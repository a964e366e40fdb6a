//! How much of the stack a call touches: what lies below the caller is painted, and looked at afterwards.
use std::arch::asm;
use std::ptr;

/// What is painted: the grid notes down some 73 KB there, and what goes deeper than this is found out.
const ROOM: usize = 192 << 10;

/// What is passed: six numbers or addresses in registers, and words on the stack for further ones, or for what goes by
/// value.
#[derive(Clone, Default)]
pub struct Arguments {
    registers: [u64; 6],
    on_stack: Vec<u64>,
}

impl Arguments {
    /// Numbers and addresses, each in a register as long as there are any, then what goes by value.
    pub fn new(words: &[u64], by_value: &[u64]) -> Self {
        let mut arguments = Arguments::default();
        let (first, further) = words.split_at(words.len().min(arguments.registers.len()));
        arguments.registers[..first.len()].copy_from_slice(first);
        arguments.on_stack = [further, by_value].concat();
        arguments
    }
}

/// Bytes below the caller's stack pointer that a call touches, its return address included.
///
/// # Safety
/// `function` must take these arguments by the C convention of x86-64.
pub unsafe fn touched(function: *const (), arguments: &Arguments) -> usize {
    // a byte that happens to be the paint is seen with the other paint
    let with = |paint| unsafe { touched_with(function, arguments, paint) };
    with(0xa5).max(with(0x3c))
}

#[inline(never)]
unsafe fn touched_with(function: *const (), arguments: &Arguments, paint: u8) -> usize {
    let top: usize;
    let Arguments { registers, on_stack } = arguments;
    unsafe {
        asm!(
            "mov r12, rsp",
            // room for what goes there, the stack in line as the convention wants it
            "lea rax, [8 * rcx]",
            "sub rsp, rax",
            "and rsp, -16",
            "mov rdi, rsp",
            "rep movsq",
            "mov eax, r13d",
            "lea rdi, [rsp - {room}]",
            "mov ecx, {room}",
            "rep stosb",
            "mov r13, rsp",
            "mov rdi, [r14]",
            "mov rsi, [r14 + 8]",
            "mov rdx, [r14 + 16]",
            "mov rcx, [r14 + 24]",
            "mov r8, [r14 + 32]",
            "mov r9, [r14 + 40]",
            "call r15",
            "mov rsp, r12",
            room = const ROOM,
            in("r14") registers.as_ptr(),
            in("r15") function,
            inout("rsi") on_stack.as_ptr() => _,
            inout("rcx") on_stack.len() => _,
            out("r12") _,
            inout("r13") usize::from(paint) => top,
            clobber_abi("C"),
        );
    }
    let mut lowest = top - ROOM;
    while lowest < top && unsafe { ptr::read_volatile(ptr::with_exposed_provenance::<u8>(lowest)) } == paint {
        lowest += 1;
    }
    assert!(lowest > top - ROOM, "a call went deeper than the paint");
    top - lowest
}
