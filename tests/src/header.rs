//! The header of the model: what the second walk judges before the main graph. Imports are those of a function too.

use std::collections::HashSet;
use std::ops::RangeInclusive;

use crate::oplist::{self, OperatorList};
use crate::parts::{all, bytes_of, first, number_in, refuse, whole};
use crate::verdict::Refusal;
use crate::wire::Field;

/// "Refusal 10 now means outside 3..11."
pub const IR_VERSIONS: RangeInclusive<i64> = 3..=11;

/// The domains that are imported, the default one as the empty bytes.
pub type Imports<'m> = HashSet<&'m [u8]>;

/// What the judge of graphs is told.
pub struct Header<'m> {
    pub ir_version: u64,
    pub graph: Field,
    pub imports: Imports<'m>,
}

/// 10, 11, 12, each import (13 then 14).
pub fn header<'m>(model: &'m [u8], operators: &OperatorList) -> Result<Header<'m>, Refusal> {
    let whole = whole(model);
    number_in(model, whole, 1, IR_VERSIONS, 10)?;
    let ir_version = first(model, whole, 1).map_or(0, |field| field.value);
    let Some(graph) = first(model, whole, 7) else {
        return refuse(11, 0);
    };
    Ok(Header { ir_version, graph, imports: imports(model, whole, 8, operators)? })
}

/// The imports in the field `number` of the model or of a function: 12 where there are none, then each (13 then 14).
pub fn imports<'m>(
    model: &'m [u8],
    message: Field,
    number: u32,
    operators: &OperatorList,
) -> Result<Imports<'m>, Refusal> {
    if first(model, message, number).is_none() {
        return refuse(12, message.place);
    }
    let mut imports = HashSet::new();
    for import in all(model, message, number) {
        let domain = oplist::domain(bytes_of(model, import, 1));
        if !imports.insert(domain) {
            return refuse(13, import.place);
        }
        let version = first(model, import, 2).map_or(0, |field| field.value as i64);
        let allowed = operators.get(domain);
        if !allowed.is_some_and(|v| (i64::from(v.lowest)..=i64::from(v.highest)).contains(&version)) {
            return refuse(14, import.place);
        }
    }
    Ok(imports)
}
