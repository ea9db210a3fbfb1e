//! Stands in for checker/mod.rs of the source: the state of a run with the same fields, the way to
//! report, and, in the place of the earlier passes, a run of the driver check alone over names that
//! are already resolved.

pub mod consteval;
mod drivers;
mod names;
mod widths;

use std::collections::HashMap;
use std::rc::Rc;
use std::time::{Duration, Instant};

use crate::ast;
use crate::diag::Diag;
use crate::span::Span;

/// What a name of a module is.
#[derive(Clone, Copy, Debug, PartialEq, Eq)]
pub enum Kind {
    In,
    Out,
    Wire,
    Reg,
    Mem,
    Inst,
}

/// What the passes before the driver check leave to it. One file holds one module.
pub struct Project {
    pub files: Vec<ast::File>,
    /// For each file its constants.
    pub consts: Vec<consteval::Env>,
    /// For each file the kinds of its module's names.
    pub kinds: Vec<HashMap<String, Kind>>,
    /// What each name of kind `Inst` is bound to; the driver check never looks into it.
    pub some_inst: ast::Inst,
}

/// Runs the driver check. The time is that of `check_drivers` alone.
pub fn check_drivers(project: &Project) -> (Vec<Diag>, Duration) {
    let mut checker = Checker::resolved(project);
    let start = Instant::now();
    checker.check_drivers();
    let time = start.elapsed();
    (checker.diags, time)
}

pub(super) struct Checker<'a> {
    files: &'a [ast::File],
    modules: HashMap<String, Vec<(usize, &'a ast::Module)>>,
    enums: HashMap<String, Vec<(usize, &'a ast::EnumDecl)>>,
    funcs: HashMap<String, (usize, &'a ast::FuncDecl)>,
    bundles: HashMap<String, Vec<(usize, &'a ast::BundleDecl)>>,
    externs: HashMap<String, Vec<(usize, &'a ast::ExternModule)>>,
    file_consts: Vec<HashMap<String, consteval::ConstVal>>,
    scopes: HashMap<(usize, String), Rc<names::Scope<'a>>>,
    diags: Vec<Diag>,
}

impl<'a> Checker<'a> {
    fn new(files: &'a [ast::File]) -> Self {
        Checker {
            files,
            modules: HashMap::new(),
            enums: HashMap::new(),
            funcs: HashMap::new(),
            bundles: HashMap::new(),
            externs: HashMap::new(),
            file_consts: vec![HashMap::new(); files.len() + 1],
            scopes: HashMap::new(),
            diags: Vec::new(),
        }
    }

    /// As the passes before the driver check would leave it.
    fn resolved(project: &'a Project) -> Self {
        let mut checker = Checker::new(&project.files);
        for (file, f) in project.files.iter().enumerate() {
            checker.file_consts[file] = project.consts[file].clone();
            for item in &f.items {
                let ast::TopItem::Module(module) = item else {
                    continue;
                };
                let name = module.name.name.clone();
                let scope = scope(&project.kinds[file], &project.some_inst);
                checker.scopes.insert((file, name.clone()), Rc::new(scope));
                checker
                    .modules
                    .entry(name)
                    .or_default()
                    .push((file, module));
            }
        }
        checker
    }

    pub(super) fn err(
        &mut self,
        file: usize,
        span: Span,
        code: &'static str,
        msg: impl Into<String>,
        help: impl Into<String>,
    ) {
        self.diags.push(
            Diag::new(span, msg)
                .with_code(code)
                .with_file(file)
                .with_help(help),
        );
    }
}

fn scope<'a>(kinds: &HashMap<String, Kind>, some_inst: &'a ast::Inst) -> names::Scope<'a> {
    let bind = |kind: Kind| match kind {
        Kind::In => names::Bind::In,
        Kind::Out => names::Bind::Out,
        Kind::Wire => names::Bind::Wire,
        Kind::Reg => names::Bind::Reg,
        Kind::Mem => names::Bind::Mem,
        Kind::Inst => names::Bind::Inst(some_inst),
    };
    names::Scope {
        names: kinds
            .iter()
            .map(|(name, &kind)| (name.clone(), bind(kind)))
            .collect(),
    }
}
