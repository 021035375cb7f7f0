//! The archive's ten functions. All the unsafe code of this crate stands here.

mod archive {
    extern "C" {
        pub fn reduce(rule: *const u8, rule_len: usize, out: *mut u8, out_len: usize) -> u32;

        pub fn rebuild(formula: *const u8, formula_len: usize, out: *mut u8, out_len: usize)
            -> u32;

        pub fn judge(
            tables: *const u8,
            tables_len: usize,
            rule: *const u8,
            rule_len: usize,
            order: *const u8,
            order_len: usize,
            out: *mut u8,
            out_len: usize,
        ) -> u32;

        pub fn judge_page(
            tables: *const u8,
            tables_len: usize,
            page: *const u8,
            page_len: usize,
            out: *mut u8,
            out_len: usize,
        ) -> u32;

        pub fn rank_step(tables: *const u8, tables_len: usize) -> u32;

        pub fn forecast(
            tables: *const u8,
            tables_len: usize,
            rule: *const u8,
            rule_len: usize,
            out: *mut u8,
            out_len: usize,
        ) -> u32;

        pub fn sessions_start(
            tables: *const u8,
            tables_len: usize,
            rule: *const u8,
            rule_len: usize,
            out: *mut u8,
            out_len: usize,
        ) -> u32;

        pub fn session_open(
            state: *const u8,
            state_len: usize,
            user: u32,
            roles: u64,
            out: *mut u8,
            out_len: usize,
        ) -> u32;

        pub fn session_close(
            state: *const u8,
            state_len: usize,
            number: u32,
            out: *mut u8,
            out_len: usize,
        ) -> u32;

        pub fn sheet_line(
            tables: *const u8,
            tables_len: usize,
            reader: u64,
            rules: *const u8,
            rules_len: usize,
            place: usize,
            out: *mut u8,
            out_len: usize,
        ) -> u32;
    }
}

// SAFETY of the ten calls: the functions of the archive take a slice as a pointer and a length,
// ask nothing else of their arguments, read nothing but the inputs, write nothing but the first
// bytes of `out`, and keep no pointer; that is proved of them. Every pointer here is that of a
// Rust slice with its own length, so it is valid for that many bytes and never null, and `out`,
// borrowed mutably, overlaps no input. `build.rs` has seen that the archive has functions of these
// names and that they answer as functions with these arguments do.

pub fn reduce(rule: &[u8], out: &mut [u8]) -> u32 {
    unsafe { archive::reduce(rule.as_ptr(), rule.len(), out.as_mut_ptr(), out.len()) }
}

pub fn rebuild(formula: &[u8], out: &mut [u8]) -> u32 {
    unsafe { archive::rebuild(formula.as_ptr(), formula.len(), out.as_mut_ptr(), out.len()) }
}

pub fn judge(tables: &[u8], rule: &[u8], order: &[u8], out: &mut [u8]) -> u32 {
    unsafe {
        archive::judge(
            tables.as_ptr(),
            tables.len(),
            rule.as_ptr(),
            rule.len(),
            order.as_ptr(),
            order.len(),
            out.as_mut_ptr(),
            out.len(),
        )
    }
}

pub fn judge_page(tables: &[u8], page: &[u8], out: &mut [u8]) -> u32 {
    unsafe {
        archive::judge_page(
            tables.as_ptr(),
            tables.len(),
            page.as_ptr(),
            page.len(),
            out.as_mut_ptr(),
            out.len(),
        )
    }
}

pub fn rank_step(tables: &[u8]) -> u32 {
    unsafe { archive::rank_step(tables.as_ptr(), tables.len()) }
}

pub fn forecast(tables: &[u8], rule: &[u8], out: &mut [u8]) -> u32 {
    unsafe {
        archive::forecast(
            tables.as_ptr(),
            tables.len(),
            rule.as_ptr(),
            rule.len(),
            out.as_mut_ptr(),
            out.len(),
        )
    }
}

pub fn sessions_start(tables: &[u8], rule: &[u8], out: &mut [u8]) -> u32 {
    unsafe {
        archive::sessions_start(
            tables.as_ptr(),
            tables.len(),
            rule.as_ptr(),
            rule.len(),
            out.as_mut_ptr(),
            out.len(),
        )
    }
}

pub fn session_open(state: &[u8], user: u32, roles: u64, out: &mut [u8]) -> u32 {
    unsafe {
        archive::session_open(
            state.as_ptr(),
            state.len(),
            user,
            roles,
            out.as_mut_ptr(),
            out.len(),
        )
    }
}

pub fn session_close(state: &[u8], number: u32, out: &mut [u8]) -> u32 {
    unsafe {
        archive::session_close(
            state.as_ptr(),
            state.len(),
            number,
            out.as_mut_ptr(),
            out.len(),
        )
    }
}

pub fn sheet_line(tables: &[u8], reader: u64, rules: &[u8], place: usize, out: &mut [u8]) -> u32 {
    unsafe {
        archive::sheet_line(
            tables.as_ptr(),
            tables.len(),
            reader,
            rules.as_ptr(),
            rules.len(),
            place,
            out.as_mut_ptr(),
            out.len(),
        )
    }
}
