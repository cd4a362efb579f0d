// The published eqlog/src/algebra/signature.rs without `build_signature`.
include!(concat!(env!("OUT_DIR"), "/algebra_signature.rs"));

/// Signatures and numbers from records; stands in for `build_signature`. It is
/// a child module because the published ids keep their numbers private.
pub mod from_record {
    use super::*;
    use crate::records::SignatureRecord;

    pub fn type_id(number: u16) -> TypeId {
        TypeId(usize::from(number))
    }

    pub fn pred_id(number: u16) -> PredId {
        PredId(usize::from(number))
    }

    pub fn func_id(number: u16) -> FuncId {
        FuncId(usize::from(number))
    }

    pub fn type_number(id: TypeId) -> u16 {
        small(id.0)
    }

    pub fn pred_number(id: PredId) -> u16 {
        small(id.0)
    }

    pub fn func_number(id: FuncId) -> u16 {
        small(id.0)
    }

    fn small(number: usize) -> u16 {
        u16::try_from(number).expect("numbers of a record have two bytes")
    }

    fn type_ids(numbers: &[u16]) -> Vec<TypeId> {
        numbers.iter().copied().map(type_id).collect()
    }

    /// Neither `flatten_rule` nor `infer_scope` asks a type's kind.
    pub fn signature(record: &SignatureRecord) -> Signature {
        let mut signature = Signature::default();
        for parents in &record.types {
            signature.push_type(Type {
                kind: TypeKind::Plain,
                parents: type_ids(parents),
            });
        }
        for pred in &record.preds {
            signature.push_pred(Pred {
                parents: type_ids(&pred.parents),
                arity: type_ids(&pred.args),
            });
        }
        for func in &record.funcs {
            signature.push_func(Func {
                parents: type_ids(&func.parents),
                domain: type_ids(&func.domain),
                codomain: type_id(func.codomain),
            });
        }
        signature
    }
}
