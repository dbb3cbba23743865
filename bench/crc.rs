//! CRC-32C, for the programs here: by one table, by sixteen, or by the processor's instruction.

const fn table() -> [u32; 256] {
    let mut table = [0; 256];
    let mut byte = 0;
    while byte < 256 {
        let mut register = byte as u32;
        let mut bit = 0;
        while bit < 8 {
            register = if register & 1 == 1 { (register >> 1) ^ 0x82f6_3b78 } else { register >> 1 };
            bit += 1;
        }
        table[byte] = register;
        byte += 1;
    }
    table
}

const TABLE: [u32; 256] = table();

pub fn by_table(bytes: &[u8]) -> u32 {
    !bytes.iter().fold(!0, |register, byte| (register >> 8) ^ TABLE[((register ^ u32::from(*byte)) & 0xff) as usize])
}

const fn sixteen_tables() -> [[u32; 256]; 16] {
    let mut tables = [TABLE; 16];
    let mut behind = 1;
    while behind < 16 {
        let mut byte = 0;
        while byte < 256 {
            let before = tables[behind - 1][byte];
            tables[behind][byte] = (before >> 8) ^ TABLE[(before & 0xff) as usize];
            byte += 1;
        }
        behind += 1;
    }
    tables
}

static SIXTEEN_TABLES: [[u32; 256]; 16] = sixteen_tables();

/// Sixteen bytes a step, as kbroker does it.
#[allow(dead_code)]
pub fn by_sixteen_tables(bytes: &[u8]) -> u32 {
    let (blocks, rest) = bytes.as_chunks::<16>();
    let register = blocks.iter().fold(!0u32, |register, block| {
        let mixed = u128::from_le_bytes(*block) ^ u128::from(register);
        let bytes = mixed.to_le_bytes();
        (0..16).fold(0, |sum, at| sum ^ SIXTEEN_TABLES[15 - at][bytes[at] as usize])
    });
    !rest.iter().fold(register, |register, byte| (register >> 8) ^ TABLE[((register ^ u32::from(*byte)) & 0xff) as usize])
}

#[cfg(target_arch = "x86_64")]
#[allow(dead_code)]
pub fn by_instruction(bytes: &[u8]) -> u32 {
    use std::arch::x86_64::{_mm_crc32_u8, _mm_crc32_u64};

    #[target_feature(enable = "sse4.2")]
    fn feed(bytes: &[u8]) -> u32 {
        let mut words = bytes.chunks_exact(8);
        let register = words.by_ref().fold(!0u32 as u64, |register, word| {
            _mm_crc32_u64(register, u64::from_le_bytes(word.try_into().unwrap()))
        });
        !words.remainder().iter().fold(register as u32, |register, byte| _mm_crc32_u8(register, *byte))
    }
    assert!(is_x86_feature_detected!("sse4.2"));
    // The processor has the instruction.
    unsafe { feed(bytes) }
}
