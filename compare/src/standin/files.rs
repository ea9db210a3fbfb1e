// What both build scripts that lay the source out name: this package's and bench's `cycles`.

/// Where the source is looked for, seen from `compare/`, if MIMZ_SRC names no other folder.
const DEFAULT_SOURCE: &str = "../../shared/docs/src";

/// The part of the source repository that is used.
const CRATE_SOURCE: &str = "crates/mimz-core/src";

/// Compiled as they are.
const SOURCES: [&str; 9] = [
    "ast/expr.rs",
    "ast/foreach_lower.rs",
    "ast/mod.rs",
    "bits.rs",
    "checker/consteval.rs",
    "checker/drivers.rs",
    "checker/names/mod.rs",
    "span.rs",
    "width_rules.rs",
];

/// Written in this folder, in the place of source files that are not used.
const STAND_INS: [&str; 13] = [
    "ast/builtin_bundles.rs",
    "ast/sync_loop_lower.rs",
    "ast/sync_prim_lower.rs",
    "checker/mod.rs",
    "checker/names/exprs.rs",
    "checker/names/funcs.rs",
    "checker/names/insts.rs",
    "checker/names/items.rs",
    "checker/names/resolve.rs",
    "checker/widths.rs",
    "diag.rs",
    "root.rs",
    "wide.rs",
];

fn folder(variable: &str) -> Result<PathBuf, String> {
    env::var_os(variable)
        .map(PathBuf::from)
        .ok_or_else(|| format!("{variable} is not set"))
}
