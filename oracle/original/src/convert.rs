//! Between a sheet's record and the original's own record.

use crate::base::{
    AggregatorProperties, ArrayProperties, DataType, GroupId, IndexKey, Jagged, Nature,
    NatureCategorical, NatureContinuous, Value, Vector1DNull,
};
use crate::stand_ins::proto::component::Variant;
use indexmap::IndexMap;
use oracle_list::sheet::{self, Ends, Group, Key, Sheet};

/// # Panics
/// On texts that are no UTF-8, which the original cannot hold.
pub fn to_properties(sheet: &Sheet) -> ArrayProperties {
    ArrayProperties {
        num_records: sheet.rows,
        num_columns: sheet.columns,
        nullity: sheet.nullity,
        releasable: sheet.releasable,
        c_stability: sheet.c_stability,
        aggregator: to_aggregator(sheet.aggregator),
        nature: to_nature(&sheet.nature),
        data_type: to_data_type(sheet.data_type),
        dataset_id: sheet.dataset,
        node_id: sheet.node,
        is_not_empty: sheet.not_empty,
        dimensionality: sheet.dimensionality,
        group_id: sheet.groups.iter().map(to_group).collect(),
        naturally_ordered: sheet.ordered,
        sample_proportion: sheet.sample.map(f64::from_bits),
    }
}

fn to_aggregator(number: u32) -> Option<AggregatorProperties> {
    if number == 0 {
        return None;
    }
    Some(AggregatorProperties {
        component: Variant(number),
        properties: IndexMap::new(),
        // Never read by the nine components.
        lipschitz_constants: Value::Jagged(Jagged::Float(Vec::new())),
    })
}

fn to_data_type(number: u8) -> DataType {
    match number {
        0 => DataType::Unknown,
        1 => DataType::Bool,
        2 => DataType::Str,
        3 => DataType::Float,
        _ => DataType::Int,
    }
}

/// A string is known by its number alone: the number's decimal text stands for it.
fn to_group(group: &Group) -> GroupId {
    GroupId {
        partition_id: group.partition,
        index: match group.index {
            Key::Int(value) => IndexKey::Int(value),
            Key::Bool(value) => IndexKey::Bool(value),
            Key::Str(number) => IndexKey::Str(number.to_string()),
        },
    }
}

fn to_nature(nature: &sheet::Nature) -> Option<Nature> {
    let range = |lower, upper| Some(Nature::Continuous(NatureContinuous { lower, upper }));
    let lists = |categories| Some(Nature::Categorical(NatureCategorical { categories }));
    match nature {
        sheet::Nature::Absent => None,
        sheet::Nature::WholeRange(entries) => {
            let (lower, upper) = entries.iter().copied().unzip();
            range(Vector1DNull::Int(lower), Vector1DNull::Int(upper))
        }
        sheet::Nature::FloatRange(entries) => {
            let float = |bits: Option<u64>| bits.map(f64::from_bits);
            let lower = entries.iter().map(|entry| float(entry.0)).collect();
            let upper = entries.iter().map(|entry| float(entry.1)).collect();
            range(Vector1DNull::Float(lower), Vector1DNull::Float(upper))
        }
        sheet::Nature::WholeLists(values) => lists(Jagged::Int(values.clone())),
        sheet::Nature::BoolLists(values) => lists(Jagged::Bool(values.clone())),
        sheet::Nature::FloatLists(values) => lists(Jagged::Float(
            values
                .iter()
                .map(|list| list.iter().copied().map(f64::from_bits).collect())
                .collect(),
        )),
        sheet::Nature::TextLists(values) => {
            let text = |bytes: &Vec<u8>| String::from_utf8(bytes.clone()).expect("UTF-8");
            let list = |list: &Vec<Vec<u8>>| list.iter().map(text).collect();
            lists(Jagged::Str(values.iter().map(list).collect()))
        }
    }
}

/// The derived sheet, or what the byte form has no place for.
pub fn from_properties(properties: &ArrayProperties) -> Result<Sheet, String> {
    Ok(Sheet {
        nature: from_nature(&properties.nature)?,
        data_type: from_data_type(&properties.data_type),
        nullity: properties.nullity,
        releasable: properties.releasable,
        not_empty: properties.is_not_empty,
        ordered: properties.naturally_ordered,
        c_stability: properties.c_stability,
        aggregator: properties.aggregator.as_ref().map_or(0, |a| a.component.0),
        rows: properties.num_records,
        columns: properties.num_columns,
        dataset: properties.dataset_id,
        dimensionality: properties.dimensionality,
        sample: properties.sample_proportion.map(f64::to_bits),
        node: properties.node_id,
        groups: properties
            .group_id
            .iter()
            .map(from_group)
            .collect::<Result<_, _>>()?,
    })
}

fn from_data_type(data_type: &DataType) -> u8 {
    match data_type {
        DataType::Unknown => 0,
        DataType::Bool => 1,
        DataType::Str => 2,
        DataType::Float => 3,
        DataType::Int => 4,
    }
}

fn from_group(group: &GroupId) -> Result<Group, String> {
    let index = match &group.index {
        IndexKey::Int(value) => Key::Int(*value),
        IndexKey::Bool(value) => Key::Bool(*value),
        IndexKey::Str(text) => Key::Str(
            text.parse()
                .map_err(|_| format!("group index `{}` is no number", text))?,
        ),
        IndexKey::Tuple(_) => return Err("a group index is a tuple".to_string()),
    };
    Ok(Group {
        partition: group.partition_id,
        index,
    })
}

fn from_nature(nature: &Option<Nature>) -> Result<sheet::Nature, String> {
    match nature {
        None => Ok(sheet::Nature::Absent),
        Some(Nature::Continuous(range)) => match (&range.lower, &range.upper) {
            (Vector1DNull::Int(lower), Vector1DNull::Int(upper)) => {
                Ok(sheet::Nature::WholeRange(entries(lower, upper, |v| v)?))
            }
            (Vector1DNull::Float(lower), Vector1DNull::Float(upper)) => Ok(
                sheet::Nature::FloatRange(entries(lower, upper, f64::to_bits)?),
            ),
            _ => Err("the bounds of a result are neither whole nor float".to_string()),
        },
        Some(Nature::Categorical(lists)) => match &lists.categories {
            Jagged::Int(values) => Ok(sheet::Nature::WholeLists(values.clone())),
            Jagged::Bool(values) => Ok(sheet::Nature::BoolLists(values.clone())),
            Jagged::Float(_) => Err("a result has float categories".to_string()),
            Jagged::Str(values) => {
                let bytes =
                    |list: &Vec<String>| list.iter().cloned().map(String::into_bytes).collect();
                Ok(sheet::Nature::TextLists(values.iter().map(bytes).collect()))
            }
        },
    }
}

fn entries<T: Copy, U>(
    lower: &[Option<T>],
    upper: &[Option<T>],
    bits: impl Fn(T) -> U,
) -> Result<Vec<Ends<U>>, String> {
    if lower.len() != upper.len() {
        return Err("a result has unequal counts of lowers and uppers".to_string());
    }
    let pairs = lower.iter().zip(upper);
    Ok(pairs.map(|(l, u)| (l.map(&bits), u.map(&bits))).collect())
}

#[cfg(test)]
mod tests {
    use super::{from_properties, to_properties};
    use oracle_list::generate::valid_sheet;
    use oracle_list::random::Random;
    use oracle_list::sheet::Nature;
    use oracle_list::text::sheet;

    #[test]
    fn comes_back() {
        let mut random = Random::new(7);
        for _ in 0..2000 {
            let sheet = valid_sheet(&mut random);
            if !matches!(sheet.nature, Nature::FloatLists(_)) {
                assert_eq!(from_properties(&to_properties(&sheet)), Ok(sheet));
            }
        }
    }

    #[test]
    fn keeps_a_payload() {
        let mut nan = sheet("W[1,2]");
        nan.sample = Some(0x7ff0_0000_0000_0001);
        let back = from_properties(&to_properties(&nan)).unwrap();
        assert_eq!(back.sample, nan.sample);
    }
}
