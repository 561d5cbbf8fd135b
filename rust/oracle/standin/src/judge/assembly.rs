//! Fills the structure that synthesis would have filled, from a listing.
use super::Listing;
use crate::config::SetupCSConfig;
use crate::cs::gates::lookup_marker::*;
use crate::cs::gates::nop_gate::*;
use crate::cs::implementations::evaluator_data::*;
use crate::cs::implementations::lookup_table::LookupTableWrapper;
use crate::cs::implementations::reference_cs::*;
use crate::cs::traits::evaluator::*;
use crate::cs::traits::gate::GatePlacementStrategy;
use crate::cs::*;
use crate::dag::DefaultCircuitResolver;
use crate::field::goldilocks::GoldilocksField;
use crate::field::SmallField;
use smallvec::SmallVec;
use std::alloc::Global;
use std::any::TypeId;
use std::collections::HashMap;
use std::marker::PhantomData;
use std::sync::{Arc, RwLock};

pub type F = GoldilocksField;
pub type Assembly = CSReferenceAssembly<F, F, SetupCSConfig, Global>;
type Resolver = DefaultCircuitResolver<F, ()>;
type Synthesis = CSReferenceImplementation<F, F, SetupCSConfig, (), (), Resolver>;
type Evaluator = TypeErasedGateEvaluationFunction<F, F>;
type GeneralPurpose = EvaluationDataOverGeneralPurposeColumns<F, F>;
type Specialized = EvaluationDataOverSpecializedColumns<F, F>;

fn elements(words: &[u64]) -> Vec<F> {
    words.iter().map(|w| F::from_u64_unchecked(*w)).collect()
}

fn lookup_parameters(mode: u64, width: u64, flag: u64) -> LookupParameters {
    let (width, share_table_id, num_repetitions) = (width as u32, flag != 0, 1);
    match mode {
        0 => LookupParameters::NoLookup,
        1 => LookupParameters::TableIdAsVariable { width, share_table_id },
        2 => LookupParameters::TableIdAsConstant { width, share_table_id },
        3 => LookupParameters::UseSpecializedColumnsWithTableIdAsVariable {
            width,
            num_repetitions,
            share_table_id,
        },
        4 => LookupParameters::UseSpecializedColumnsWithTableIdAsConstant {
            width,
            num_repetitions,
            share_table_id,
        },
        _ => panic!("the original has no such lookup mode"),
    }
}

/// The type of a kind 0 gate's evaluator, and of a kind 2 gate's: the setup
/// asks only whether it is the lookup marker's.
struct Evaluated;
struct OtherMarker;

/// What `from_evaluator` makes for such a gate, without the closures.
fn evaluator(type_id: TypeId, gate_purpose: GatePurpose, constants: u64) -> Evaluator {
    let (degree, terms) = match gate_purpose {
        GatePurpose::Evaluatable { max_constraint_degree, num_quotient_terms } => {
            (max_constraint_degree, num_quotient_terms)
        }
        _ => (0, 0),
    };
    Evaluator {
        debug_name: String::new(),
        unique_name: String::new(),
        evaluator_type_id: type_id,
        gate_purpose,
        max_constraint_degree: degree,
        num_quotient_terms: terms,
        num_required_constants: constants as usize,
        total_quotient_terms_over_all_repetitions: terms,
        num_repetitions_on_row: 1,
        placement_type: GatePlacementType::UniqueOnRow,
        columnwise_evaluation_function: None,
        rowwise_evaluation_function: None,
        columnwise_satisfiability_function: None,
        rowwise_satisfiability_function: None,
    }
}

fn lookup_evaluator() -> Evaluator {
    let marker = TypeId::of::<LookupGateMarkerFormalEvaluator>();
    evaluator(marker, GatePurpose::MarkerNeedsSelector, 0)
}

fn gate_evaluator([kind, degree, constants]: [u64; 3], geometry: &CSGeometry) -> Evaluator {
    let strategy = GatePlacementStrategy::UseGeneralPurposeColumns;
    match kind {
        0 => evaluator(
            TypeId::of::<Evaluated>(),
            GatePurpose::Evaluatable {
                max_constraint_degree: degree as usize,
                num_quotient_terms: 1,
            },
            constants,
        ),
        // upstream's own Nop gate
        1 => Evaluator::from_evaluator(NopGateConstraintEvaluator, geometry, strategy, &mut ()).0,
        2 => evaluator(TypeId::of::<OtherMarker>(), GatePurpose::MarkerWithoutSelector, 0),
        3 => lookup_evaluator(),
        _ => panic!("the original has no such gate"),
    }
}

fn general_purpose(l: &Listing, geometry: &CSGeometry) -> GeneralPurpose {
    EvaluationDataOverGeneralPurposeColumns {
        evaluators_over_general_purpose_columns: l
            .gates
            .iter()
            .map(|gate| gate_evaluator(*gate, geometry))
            .collect(),
        evaluator_type_id_into_evaluator_index_over_general_purpose_columns: nop_evaluator(l),
    }
}

/// Where padding finds the Nop gate's evaluator: the first kind 1 gate, as document 02 says.
fn nop_evaluator(l: &Listing) -> HashMap<TypeId, usize> {
    let first = l.gates.iter().position(|gate| gate[0] == 1);
    first.map(|at| (TypeId::of::<NopGateConstraintEvaluator>(), at)).into_iter().collect()
}

/// A lookup over specialised columns has its evaluator first among theirs; 01's
/// gate list does not hold it.
fn specialized(lookup: bool, variables: usize, constants: usize) -> Specialized {
    let (mut evaluators, mut gates) = (vec![], vec![]);
    if lookup {
        evaluators.push(lookup_evaluator());
        gates.push(TypeId::of::<LookupFormalGate>());
    }
    EvaluationDataOverSpecializedColumns {
        evaluators_over_specialized_columns: evaluators,
        gate_type_ids_for_specialized_columns: gates,
        gate_type_id_into_evaluator_index_over_specialized_columns: HashMap::new(),
        offsets_for_specialized_evaluators: vec![],
        total_num_variables_for_specialized_columns: variables,
        total_num_constants_for_specialized_columns: constants,
    }
}

/// Columns of N words each, as many as the words fill; the last may be short.
fn columns<T>(words: &[u64], n: usize, of: impl Fn(&[u64]) -> Vec<T>) -> Vec<Vec<T>> {
    words.chunks(n.max(1)).map(of).collect()
}

fn row_constants(constants: &[u64]) -> SmallVec<[F; 8]> {
    let mut all = SmallVec::new();
    all.extend_from_slice(&elements(constants));
    all
}

fn table((width, rows): &(u64, Vec<Vec<u64>>)) -> Arc<LookupTableWrapper<F>> {
    let rows = rows.iter().map(|row| elements(row)).collect();
    Arc::new(LookupTableWrapper { width: *width as usize, rows })
}

pub fn synthesis(l: &Listing) -> Synthesis {
    let [n, c, a, s, v, mode, width, flag] = l.parameters;
    let lookup_parameters = lookup_parameters(mode, width, flag);
    // the copy columns of a specialised lookup stand last; setup asks for the sum alone
    let c_specialized = match mode {
        3 | 4 => c.min(lookup_parameters.specialized_columns_per_subargument() as u64),
        _ => 0,
    };
    let parameters = CSGeometry {
        num_columns_under_copy_permutation: (c - c_specialized) as usize,
        num_witness_columns: 0,
        num_constant_columns: a as usize,
        max_allowed_constraint_degree: 64,
    };
    let variables = |words: &[u64]| words.iter().map(|w| Variable(*w)).collect();
    Synthesis {
        parameters,
        lookup_parameters,
        next_available_row: l.rows.len(),
        next_available_place_idx: v,
        next_lookup_table_index: INITIAL_LOOKUP_TABLE_ID_VALUE + l.tables.len() as u32,
        max_trace_len: n as usize,
        gates_application_sets: l.rows.iter().map(|r| r.0 as usize).collect(),
        copy_permutation_data: columns(&l.cells, n as usize, variables),
        constants_requested_per_row: l.rows.iter().map(|r| row_constants(&r.1)).collect(),
        constants_for_gates_in_specialized_mode: columns(&l.s_words, n as usize, elements),
        lookup_tables: l.tables.iter().map(table).collect(),
        evaluation_data_over_general_purpose_columns: general_purpose(l, &parameters),
        evaluation_data_over_specialized_columns: specialized(
            mode >= 3,
            c_specialized as usize,
            s as usize,
        ),
        ..empty()
    }
}

/// So many columns of height N, also where N is 0; words that are not there are left out.
fn heights<T>(words: &[u64], n: u64, many: u64, of: impl Fn(&[u64]) -> Vec<T>) -> Vec<Vec<T>> {
    let at = |c: u64| ((c * n) as usize).min(words.len());
    (0..many).map(|c| of(&words[at(c)..at(c + 1)])).collect()
}

/// Before padding: the columns have the given height, the trace its greatest length.
pub fn unpadded(l: &Listing) -> Synthesis {
    let [n, c, _, s, ..] = l.parameters;
    let variables = |words: &[u64]| words.iter().map(|w| Variable(*w)).collect();
    Synthesis {
        max_trace_len: 65536,
        copy_permutation_data: heights(&l.cells, n, c, variables),
        constants_for_gates_in_specialized_mode: heights(&l.s_words, n, s, elements),
        ..synthesis(l)
    }
}

/// The parts of the structure that the setup does not read.
fn empty() -> Synthesis {
    Synthesis {
        parameters: CSGeometry {
            num_columns_under_copy_permutation: 0,
            num_witness_columns: 0,
            num_constant_columns: 0,
            max_allowed_constraint_degree: 0,
        },
        lookup_parameters: LookupParameters::NoLookup,
        next_available_row: 0,
        next_available_place_idx: 0,
        next_lookup_table_index: 0,
        max_trace_len: 0,
        gates_application_sets: vec![],
        copy_permutation_data: vec![],
        witness_placement_data: vec![],
        constants_requested_per_row: vec![],
        constants_for_gates_in_specialized_mode: vec![],
        lookup_table_marker_into_id: HashMap::new(),
        lookup_tables: vec![],
        lookup_multiplicities: vec![],
        dynamic_tools: HashMap::new(),
        variables_storage: RwLock::new(DefaultCircuitResolver(PhantomData)),
        evaluation_data_over_general_purpose_columns: EvaluationDataOverGeneralPurposeColumns {
            evaluators_over_general_purpose_columns: vec![],
            evaluator_type_id_into_evaluator_index_over_general_purpose_columns: HashMap::new(),
        },
        evaluation_data_over_specialized_columns: specialized(false, 0, 0),
        lookup_marker_gate_idx: None,
        table_ids_as_variables: vec![],
        public_inputs: vec![],
        specialized_gates_rough_stats: HashMap::new(),
        static_toolbox: (),
        gates_configuration: (),
        row_cleanups: vec![],
        columns_cleanups: vec![],
    }
}
