//! The limits as lupinanon.h lays them out. `examples/limits --write` writes the fields.

use crate::Limits;
use core::mem::size_of;

/// The limits after their size in bytes. A truth value is a byte that is 0 or 1.
#[repr(C)]
pub struct RawLimits {
    size: usize,
    min_types: usize,
    min_imports: usize,
    min_funcs: usize,
    min_memories: usize,
    max_types: usize,
    max_imports: usize,
    max_funcs: usize,
    max_exports: usize,
    max_globals: usize,
    max_tables: usize,
    max_tags: usize,
    max_memories: usize,
    max_modules: usize,
    max_components: usize,
    max_instances: usize,
    max_nesting_depth: usize,
    max_type_size: u32,
    multi_value_enabled: bool,
    exceptions_enabled: bool,
    reference_types_enabled: bool,
    simd_enabled: bool,
    allow_floats: bool,
    bulk_memory_enabled: bool,
    must_validate: bool,
    reserved: [u8; 5],
    finish_after: usize,
    max_name_length: usize,
    loop_bits: usize,
}

impl RawLimits {
    /// The limits as they are passed.
    pub fn of(limits: &Limits) -> RawLimits {
        RawLimits {
            size: size_of::<RawLimits>(),
            min_types: limits.min_types,
            min_imports: limits.min_imports,
            min_funcs: limits.min_funcs,
            min_memories: limits.min_memories,
            max_types: limits.max_types,
            max_imports: limits.max_imports,
            max_funcs: limits.max_funcs,
            max_exports: limits.max_exports,
            max_globals: limits.max_globals,
            max_tables: limits.max_tables,
            max_tags: limits.max_tags,
            max_memories: limits.max_memories,
            max_modules: limits.max_modules,
            max_components: limits.max_components,
            max_instances: limits.max_instances,
            max_nesting_depth: limits.max_nesting_depth,
            max_type_size: limits.max_type_size,
            multi_value_enabled: limits.multi_value_enabled,
            exceptions_enabled: limits.exceptions_enabled,
            reference_types_enabled: limits.reference_types_enabled,
            simd_enabled: limits.simd_enabled,
            allow_floats: limits.allow_floats,
            bulk_memory_enabled: limits.bulk_memory_enabled,
            must_validate: limits.must_validate,
            reserved: [0; 5],
            finish_after: limits.finish_after,
            max_name_length: limits.max_name_length,
            loop_bits: limits.loop_bits,
        }
    }

    /// The limits without their size.
    pub fn limits(&self) -> Limits {
        Limits {
            min_types: self.min_types,
            min_imports: self.min_imports,
            min_funcs: self.min_funcs,
            min_memories: self.min_memories,
            max_types: self.max_types,
            max_imports: self.max_imports,
            max_funcs: self.max_funcs,
            max_exports: self.max_exports,
            max_globals: self.max_globals,
            max_tables: self.max_tables,
            max_tags: self.max_tags,
            max_memories: self.max_memories,
            max_modules: self.max_modules,
            max_components: self.max_components,
            max_instances: self.max_instances,
            max_nesting_depth: self.max_nesting_depth,
            max_type_size: self.max_type_size,
            multi_value_enabled: self.multi_value_enabled,
            exceptions_enabled: self.exceptions_enabled,
            reference_types_enabled: self.reference_types_enabled,
            simd_enabled: self.simd_enabled,
            allow_floats: self.allow_floats,
            bulk_memory_enabled: self.bulk_memory_enabled,
            must_validate: self.must_validate,
            finish_after: self.finish_after,
            max_name_length: self.max_name_length,
            loop_bits: self.loop_bits,
        }
    }
}
