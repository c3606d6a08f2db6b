//! The table of the 102 operation codes. Every other code is illegal.

/// How many halfwords an instruction has, and what its fields are.
#[derive(Clone, Copy, Debug, PartialEq, Eq)]
pub enum Form {
    /// Register and register: one halfword.
    Rr,
    /// Register and a short number: one halfword.
    Sf,
    /// Register and an address: two or three halfwords.
    Rx,
    /// Register and an immediate halfword: two halfwords.
    Ri1,
    /// Register and an immediate fullword: three halfwords.
    Ri2,
}

/// What an instruction takes as its operand, always made into 32 bits.
#[derive(Clone, Copy, Debug, PartialEq, Eq)]
pub enum Operand {
    /// The second register.
    Register,
    /// The field r2 as a number.
    Number,
    /// The address 2N before the instruction.
    Backward,
    /// The address 2N after the start of the instruction.
    Forward,
    /// The address itself; what stands there is the operation's affair.
    Address,
    /// The fullword at the address.
    Fullword,
    /// The halfword at the address, sign-extended.
    Halfword,
    /// The halfword at the address, zero-extended.
    LogicalHalfword,
    /// The byte at the address, zero-extended.
    Byte,
    /// The immediate operand.
    Immediate,
}

/// What an instruction does. Codes that do the same to different operands share one.
#[derive(Clone, Copy, Debug, PartialEq, Eq)]
pub enum Operation {
    And,
    CompareLogical,
    Or,
    ExclusiveOr,
    Load,
    Compare,
    Add,
    Subtract,
    Test,
    LoadComplement,
    LoadAddress,
    LoadByte,
    CompareByte,
    Multiply,
    Divide,
    ShiftRight,
    ShiftLeft,
    ShiftRightArithmetic,
    ShiftLeftArithmetic,
    RotateRight,
    RotateLeft,
    BranchAndLink,
    BranchIfTrue,
    BranchIfFalse,
    BranchIfHigh,
    BranchIfNotHigh,
    ExchangeHalfwords,
    ExchangeBytes,
    StoreByteInRegister,
    StoreHalfword,
    StoreFullword,
    StoreByte,
    StoreMultiple,
    LoadMultiple,
    AddToFullword,
    AddToHalfword,
    TestAndSet,
    TestBit,
    SetBit,
    ResetBit,
    ComplementBit,
    LoadPswFromRegisters,
    LoadPsw,
    ExchangeStatus,
    SupervisorCall,
    WriteData,
    ReadData,
    SenseStatus,
    OutputCommand,
    WriteDataFromRegister,
    ReadDataToRegister,
    SenseStatusToRegister,
    OutputCommandFromRegister,
}

/// One row of the table.
#[derive(Clone, Copy, Debug, PartialEq, Eq)]
pub struct Code {
    pub number: u8,
    pub name: &'static str,
    pub form: Form,
    pub operand: Operand,
    pub operation: Operation,
    pub privileged: bool,
}

impl Code {
    const fn privileged(mut self) -> Code {
        self.privileged = true;
        self
    }
}

const fn code(
    number: u8,
    name: &'static str,
    form: Form,
    operand: Operand,
    operation: Operation,
) -> Code {
    Code {
        number,
        name,
        form,
        operand,
        operation,
        privileged: false,
    }
}

/// A code of register and register.
const fn rr(number: u8, name: &'static str, operation: Operation) -> Code {
    code(number, name, Form::Rr, Operand::Register, operation)
}

/// A code of register and number.
const fn sf(number: u8, name: &'static str, operation: Operation) -> Code {
    code(number, name, Form::Sf, Operand::Number, operation)
}

/// A short branch.
const fn short(number: u8, name: &'static str, way: Operand, operation: Operation) -> Code {
    code(number, name, Form::Sf, way, operation)
}

/// A code with an address.
const fn rx(number: u8, name: &'static str, operand: Operand, operation: Operation) -> Code {
    code(number, name, Form::Rx, operand, operation)
}

const fn ri1(number: u8, name: &'static str, operation: Operation) -> Code {
    code(number, name, Form::Ri1, Operand::Immediate, operation)
}

const fn ri2(number: u8, name: &'static str, operation: Operation) -> Code {
    code(number, name, Form::Ri2, Operand::Immediate, operation)
}

/// All operation codes, in rising order.
pub const TABLE: [Code; 102] = {
    use Operand::*;
    use Operation::*;
    [
        rr(0x01, "BALR", BranchAndLink),
        rr(0x02, "BTCR", BranchIfTrue),
        rr(0x03, "BFCR", BranchIfFalse),
        rr(0x04, "NR", And),
        rr(0x05, "CLR", CompareLogical),
        rr(0x06, "OR", Or),
        rr(0x07, "XR", ExclusiveOr),
        rr(0x08, "LR", Load),
        rr(0x09, "CR", Compare),
        rr(0x0A, "AR", Add),
        rr(0x0B, "SR", Subtract),
        sf(0x10, "SRLS", ShiftRight),
        sf(0x11, "SLLS", ShiftLeft),
        rr(0x18, "LPSWR", LoadPswFromRegisters).privileged(),
        rr(0x1C, "MR", Multiply),
        rr(0x1D, "DR", Divide),
        short(0x20, "BTBS", Backward, BranchIfTrue),
        short(0x21, "BTFS", Forward, BranchIfTrue),
        short(0x22, "BFBS", Backward, BranchIfFalse),
        short(0x23, "BFFS", Forward, BranchIfFalse),
        sf(0x24, "LIS", Load),
        sf(0x25, "LCS", LoadComplement),
        sf(0x26, "AIS", Add),
        sf(0x27, "SIS", Subtract),
        rr(0x34, "EXHR", ExchangeHalfwords),
        rx(0x40, "STH", Address, StoreHalfword),
        rx(0x41, "BAL", Address, BranchAndLink),
        rx(0x42, "BTC", Address, BranchIfTrue),
        rx(0x43, "BFC", Address, BranchIfFalse),
        rx(0x44, "NH", Halfword, And),
        rx(0x45, "CLH", Halfword, CompareLogical),
        rx(0x46, "OH", Halfword, Or),
        rx(0x47, "XH", Halfword, ExclusiveOr),
        rx(0x48, "LH", Halfword, Load),
        rx(0x49, "CH", Halfword, Compare),
        rx(0x4A, "AH", Halfword, Add),
        rx(0x4B, "SH", Halfword, Subtract),
        rx(0x50, "ST", Address, StoreFullword),
        rx(0x51, "AM", Address, AddToFullword),
        rx(0x54, "N", Fullword, And),
        rx(0x55, "CL", Fullword, CompareLogical),
        rx(0x56, "O", Fullword, Or),
        rx(0x57, "X", Fullword, ExclusiveOr),
        rx(0x58, "L", Fullword, Load),
        rx(0x59, "C", Fullword, Compare),
        rx(0x5A, "A", Fullword, Add),
        rx(0x5B, "S", Fullword, Subtract),
        rx(0x5C, "M", Fullword, Multiply),
        rx(0x5D, "D", Fullword, Divide),
        rx(0x61, "AHM", Address, AddToHalfword),
        rx(0x73, "LHL", LogicalHalfword, Load),
        rx(0x74, "TBT", Address, TestBit),
        rx(0x75, "SBT", Address, SetBit),
        rx(0x76, "RBT", Address, ResetBit),
        rx(0x77, "CBT", Address, ComplementBit),
        rr(0x92, "STBR", StoreByteInRegister),
        rr(0x93, "LBR", LoadByte),
        rr(0x94, "EXBR", ExchangeBytes),
        rr(0x95, "EPSR", ExchangeStatus).privileged(),
        rr(0x9A, "WDR", WriteDataFromRegister).privileged(),
        rr(0x9B, "RDR", ReadDataToRegister).privileged(),
        rr(0x9D, "SSR", SenseStatusToRegister).privileged(),
        rr(0x9E, "OCR", OutputCommandFromRegister).privileged(),
        rx(0xC0, "BXH", Address, BranchIfHigh),
        rx(0xC1, "BXLE", Address, BranchIfNotHigh),
        rx(0xC2, "LPSW", Address, LoadPsw).privileged(),
        ri1(0xC3, "THI", Test),
        ri1(0xC4, "NHI", And),
        ri1(0xC5, "CLHI", CompareLogical),
        ri1(0xC6, "OHI", Or),
        ri1(0xC7, "XHI", ExclusiveOr),
        ri1(0xC8, "LHI", Load),
        ri1(0xC9, "CHI", Compare),
        ri1(0xCA, "AHI", Add),
        ri1(0xCB, "SHI", Subtract),
        rx(0xD0, "STM", Address, StoreMultiple),
        rx(0xD1, "LM", Address, LoadMultiple),
        rx(0xD2, "STB", Address, StoreByte),
        rx(0xD3, "LB", Byte, LoadByte),
        rx(0xD4, "CLB", Byte, CompareByte),
        rx(0xDA, "WD", Address, WriteData).privileged(),
        rx(0xDB, "RD", Address, ReadData).privileged(),
        rx(0xDD, "SS", Address, SenseStatus).privileged(),
        rx(0xDE, "OC", Address, OutputCommand).privileged(),
        rx(0xE0, "TS", Address, TestAndSet),
        rx(0xE1, "SVC", Address, SupervisorCall),
        rx(0xE6, "LA", Address, LoadAddress),
        ri1(0xEA, "RRL", RotateRight),
        ri1(0xEB, "RLL", RotateLeft),
        ri1(0xEC, "SRL", ShiftRight),
        ri1(0xED, "SLL", ShiftLeft),
        ri1(0xEE, "SRA", ShiftRightArithmetic),
        ri1(0xEF, "SLA", ShiftLeftArithmetic),
        ri2(0xF3, "TI", Test),
        ri2(0xF4, "NI", And),
        ri2(0xF5, "CLI", CompareLogical),
        ri2(0xF6, "OI", Or),
        ri2(0xF7, "XI", ExclusiveOr),
        ri2(0xF8, "LI", Load),
        ri2(0xF9, "CI", Compare),
        ri2(0xFA, "AI", Add),
        ri2(0xFB, "SI", Subtract),
    ]
};

/// For each of the 256 numbers, its row in the table.
const ROWS: [Option<&Code>; 256] = {
    let mut rows: [Option<&Code>; 256] = [None; 256];
    let mut row = 0;
    while row < TABLE.len() {
        rows[TABLE[row].number as usize] = Some(&TABLE[row]);
        row += 1;
    }
    rows
};

/// The row of a code; None if the code is illegal.
pub fn find(number: u8) -> Option<&'static Code> {
    static LOOKUP: [Option<&Code>; 256] = ROWS;
    LOOKUP[usize::from(number)]
}
