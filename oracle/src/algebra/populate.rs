// The published types of eqlog/src/algebra/populate.rs.
include!(concat!(env!("OUT_DIR"), "/algebra_populate.rs"));

/// Rules from records; stands in for the walk over the AST.
pub mod from_record {
    use super::*;
    use crate::algebra::signature::from_record::{func_id, pred_id, type_id};
    use crate::grammar_util::Location;
    use crate::records::{Kind, MarkClass, RuleRecord, StructureRecord};

    /// No place in a source text.
    const NOWHERE: Location = Location(0, 0);

    /// The rule's structures, maps, kinds and marks. Names go to `ast`.
    pub fn rule_structures(
        record: &RuleRecord,
        signature: &Signature,
        ast: &mut Ast,
    ) -> RuleStructures {
        let mut rule = RuleStructures::default();
        for structure in &record.structures {
            let id = rule.push_blank();
            fill_structure(&mut rule.cat.structures[id.0], structure, signature);
            rule.semantic_els[id.0] = identifier_terms(structure, ast);
        }
        // Not by `add_morphism`: it takes forward maps only, while a record's
        // map may go anywhere and `flatten_rule` panics on the others.
        for map in &record.maps {
            let pairs = map.pairs.iter().map(|&(key, image)| (el(key), el(image)));
            rule.cat
                .morphisms
                .insert(pair(map.source, map.target), pairs.collect());
        }
        for kind in &record.kinds {
            rule.morphism_kinds
                .insert(pair(kind.source, kind.target), morphism_kind(kind.kind));
        }
        add_marks(&mut rule, record, ast);
        rule
    }

    fn fill_structure(target: &mut Structure, record: &StructureRecord, signature: &Signature) {
        let size = record.els.last().map_or(0, |last| usize::from(last.el) + 1);
        target.unification.increase_size_to(size);
        for entry in &record.els {
            let concrete_type = ConcreteType {
                typ: type_id(entry.typ),
                parents: els(&entry.parents),
            };
            target
                .els
                .insert(el(entry.el), BTreeSet::from([concrete_type]));
        }
        for row in &record.rows {
            let pred = pred_id(row.pred);
            let (parents, args) = row.els.split_at(signature.pred(pred).parents.len());
            target.pred_apps.insert(PredApp {
                pred,
                parents: els(parents),
                args: els(args),
            });
        }
        for app in &record.apps {
            let func = func_id(app.func);
            let (parents, args) = app.els.split_at(signature.func(func).parents.len());
            let key = FuncApp {
                func,
                parents: els(parents),
                args: els(args),
            };
            target.func_apps.insert(key, el(app.result));
        }
        for (var_el, name) in &record.vars {
            target.var_els.insert(text(name), el(*var_el));
        }
    }

    /// Each I field gets a term of its own. Fields ascend by term number and
    /// ids ascend as they are handed out, so the terms of one structure keep
    /// their order, which is all that `el_base_name` looks at.
    fn identifier_terms(record: &StructureRecord, ast: &mut Ast) -> BTreeMap<TermId, ElId> {
        let mut terms = BTreeMap::new();
        for ident in &record.idents {
            let name = text(&ident.name);
            let ident_term = ast.push_ident_term(NOWHERE, IdentTerm { name });
            let term = ast.push_term(NOWHERE, Term::Ident(ident_term));
            terms.insert(term, el(ident.el));
        }
        terms
    }

    /// Each X field gets a node of its own, so the marks of one class keep
    /// their order.
    fn add_marks(rule: &mut RuleStructures, record: &RuleRecord, ast: &mut Ast) {
        for mark in &record.marks {
            let term = ast.push_term(NOWHERE, Term::Wildcard);
            let structure = StructureId(usize::from(mark.structure));
            match mark.class {
                MarkClass::BranchStart => {
                    let id = ast.push_branch_stmt(NOWHERE, BranchStmt { blocks: Vec::new() });
                    rule.branch_block_starts.insert((id, 0), structure);
                }
                MarkClass::AfterScrutinee => {
                    let id = ast.push_match_stmt(NOWHERE, empty_match(term));
                    rule.match_after_scrutinee.insert(id, structure);
                }
                MarkClass::CaseStart => {
                    let id = ast.push_match_case(NOWHERE, empty_case(term));
                    rule.match_case_starts.insert(id, structure);
                }
            }
        }
    }

    fn empty_match(term: TermId) -> MatchStmt {
        let cases = Vec::new();
        MatchStmt { term, cases }
    }

    fn empty_case(pattern: TermId) -> MatchCase {
        let body = Vec::new();
        MatchCase { pattern, body }
    }

    fn morphism_kind(kind: Kind) -> MorphismKind {
        match kind {
            Kind::If => MorphismKind::If,
            Kind::SurjThen => MorphismKind::SurjThen,
            Kind::NonSurjThen => MorphismKind::NonSurjThen,
            Kind::Noop => MorphismKind::Noop,
        }
    }

    fn pair(source: u16, target: u16) -> (StructureId, StructureId) {
        (
            StructureId(usize::from(source)),
            StructureId(usize::from(target)),
        )
    }

    fn el(number: u16) -> ElId {
        ElId::from(u32::from(number))
    }

    fn els(numbers: &[u16]) -> Vec<ElId> {
        numbers.iter().copied().map(el).collect()
    }

    /// Bytes of a checked name are 33 to 126.
    fn text(name: &[u8]) -> String {
        name.iter().copied().map(char::from).collect()
    }
}
