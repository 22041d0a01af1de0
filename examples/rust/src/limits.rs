//! The limits. `examples/limits --write` writes the fields.

/// The limits of what is made. Components nest at most 1000 deep. `Limits::default()` has the defaults: write
/// `..Limits::default()` after the ones that you set, since there may be more limits one day.
#[derive(Clone, Copy, Debug, PartialEq, Eq)]
pub struct Limits {
    /// The fewest types of a component. They can always be added.
    pub min_types: usize,
    /// The fewest imports of a component. If they cannot be added, it is refused with `MinimumNotMet`.
    pub min_imports: usize,
    /// The fewest functions of a component: imported ones, lifts and lowers together. If they cannot be added, it is
    /// refused with `MinimumNotMet`.
    pub min_funcs: usize,
    /// The fewest memories of a core module.
    pub min_memories: usize,
    /// The most types of a component, and the most core types.
    pub max_types: usize,
    /// The most imports of a component.
    pub max_imports: usize,
    /// The most functions of a component: imported ones, lifts and lowers together.
    pub max_funcs: usize,
    /// The most exports of a component. They are functions of it too, and are not counted against `max_funcs`.
    pub max_exports: usize,
    /// The most globals that a module type imports and exports.
    pub max_globals: usize,
    /// The most tables that a module type imports and exports.
    pub max_tables: usize,
    /// The most tags that a module type imports and exports.
    pub max_tags: usize,
    /// The most memories of a core module, and the most that a module type imports and exports.
    pub max_memories: usize,
    /// The most core modules of the whole tree, embedded and imported.
    pub max_modules: usize,
    /// The most components of the whole tree below the root, nested and imported.
    pub max_components: usize,
    /// The most instances that the whole tree imports.
    pub max_instances: usize,
    /// How deep components nest, the root at 1. A limit of 0 counts as 1.
    pub max_nesting_depth: usize,
    /// The fuel of a type: the most members and declarations that it has at all depths.
    pub max_type_size: u32,
    /// Whether a core function may have several results.
    pub multi_value_enabled: bool,
    /// Whether there are tags.
    pub exceptions_enabled: bool,
    /// Whether there are reference types as core value types.
    pub reference_types_enabled: bool,
    /// Whether there is the core value type v128.
    pub simd_enabled: bool,
    /// Whether there are the core value types f32 and f64.
    pub allow_floats: bool,
    /// Whether core modules count their data segments in a section.
    pub bulk_memory_enabled: bool,
    /// Whether a validator accepts each component: what it imports and exports is of types that it names, and effective
    /// sizes and counts are below the bounds of wasmparser.
    pub must_validate: bool,
    /// The fewest sections that a component has when the input finishes it. If no input is left, it is finished
    /// whatever it has.
    pub finish_after: usize,
    /// How many bytes of a name are read at most. Digits that make it new, and an `a` where a word is missing, come on
    /// top. At most 100. The name of a custom section does not count.
    pub max_name_length: usize,
    /// How many of the lowest bits of a byte are 0 where a loop ends, as one over types or fields: with 1 every second
    /// byte ends it, with 2 every fourth, with 8 one in 256. At most 8; a limit of 0 counts as 1.
    pub loop_bits: usize,
}
