//! The crate's own part: what it adds to the library's words.
use kinchoyu::*;

const PARAMETERS: Parameters = Parameters {
    trace: 4,
    copy: 1,
    allowed: 1,
    specialised: 1,
    variables: 3,
    lookup: Lookup::SpecialisedAsConstant { width: 2, share: true },
};
const FIRST: Gate = Gate::Evaluated { degree: 2, constants: 1 };
const GATES: [Gate; 3] = [FIRST, Gate::Unselected, Gate::Marker];
/// Without a marker that ends on the all-0 path.
const BARRED: [Gate; 2] = [FIRST, Gate::Unselected];

fn plan() -> Plan {
    Plan::new(&PARAMETERS, &GATES).unwrap()
}

/// Gives all but the last cell and finishing.
fn fill(intake: &mut Intake) -> Result<(), Refusal> {
    intake.s_words_from(1..5)?;
    intake.rows_from([(0, [6]), (0, [7])])?;
    intake.rows(&[1, 0, 2, 0])?;
    intake.table_from(2, [[1, 2], [3, 4]])?;
    intake.table_from(2, [] as [[u64; 2]; 0])?;
    intake.tables(&[2, 1, 5, 6])?;
    intake.cells_from([Cell::Variable(2), Cell::Placeholder, Cell::Variable(2)])
}

#[test]
fn columns_of_a_circuit_in_pieces() {
    let plan = plan();
    let mut columns = Columns::new(&plan);
    let mut intake = Intake::open(&plan, columns.lend()).unwrap();
    fill(&mut intake).unwrap();
    assert_eq!(intake.finish(), Err(Refusal::Incomplete));
    intake.cells(&[0]).unwrap();
    intake.finish().unwrap();
    assert_eq!(intake.finish(), Err(Refusal::MadeUp));
    assert!(columns.constant_columns().eq([[1, 1, 0, 0], [6, 7, 0, 0], [1, 2, 3, 4]]));
    assert!(columns.table_columns().eq([[1, 3, 5, 0], [2, 4, 6, 0], [1, 1, 3, 0]]));
    assert_eq!(columns.constants(), [1, 1, 0, 0, 6, 7, 0, 0, 1, 2, 3, 4]);
    assert_eq!(columns.tables(), [1, 3, 5, 0, 2, 4, 6, 0, 1, 1, 3, 0]);
    let own: Vec<u64> = (0..4).map(|cell| label(4, 1, cell).unwrap()).collect();
    assert!(columns.copy_columns().eq([[own[2], own[1], own[0], own[3]]]));
    assert_eq!(columns.copies(), [own[2], own[1], own[0], own[3]]);
    assert_eq!(columns.scratch().len(), 6);
}

#[test]
fn lent_buffers_keep_the_words_beyond() {
    let plan = plan();
    let lengths = Lengths::of(&plan);
    let lent = |length: usize| vec![9; length + 3];
    let mut buffers =
        [lengths.constants, lengths.copies, lengths.scratch, lengths.tables].map(lent);
    let [constants, copies, scratch, tables] = &mut buffers;
    let mut intake = Intake::open(&plan, Lent { constants, copies, scratch, tables }).unwrap();
    fill(&mut intake).unwrap();
    assert!(buffers.iter().all(|buffer| buffer.ends_with(&[9, 9, 9])));
    let [constants, copies, scratch, tables] = &mut buffers;
    let short = &mut copies[..lengths.copies - 1];
    let opened = Intake::open(&plan, Lent { constants, copies: short, scratch, tables });
    assert_eq!(opened.err(), Some(Refusal::ShortBuffer));
}

#[test]
fn plans_and_states_are_kept_as_words() {
    let plan = plan();
    assert_eq!(Plan::from_words(plan.words()), Ok(plan.clone()));
    let mut made_up = plan.words().to_vec();
    made_up[1159] += 1;
    assert_eq!(Plan::from_words(&made_up), Err(Refusal::MadeUp));
    assert_eq!(Plan::from_words(&made_up[1..]), Err(Refusal::MadeUp));

    let (mut whole, mut kept) = (Columns::new(&plan), Columns::new(&plan));
    let mut intake = Intake::open(&plan, whole.lend()).unwrap();
    fill(&mut intake).unwrap();
    intake.cells(&[1]).unwrap();
    intake.finish().unwrap();
    let mut intake = Intake::open(&plan, kept.lend()).unwrap();
    fill(&mut intake).unwrap();
    let state = intake.state().to_vec();
    let mut resumed = Intake::resume(&state, kept.lend()).unwrap();
    resumed.cells(&[1]).unwrap();
    resumed.finish().unwrap();
    let finished = resumed.state().to_vec();
    assert_eq!(Intake::resume(&finished, kept.lend()).err(), Some(Refusal::MadeUp));
    assert_eq!(whole, kept);
}

#[test]
fn what_is_asked_of_a_plan() {
    let plan = plan();
    assert_eq!(plan.parameters(), PARAMETERS);
    let stats = plan.stats();
    assert_eq!((stats.degree, stats.constants, stats.factor), (3, 2, 2));
    assert_eq!(plan.table_id(), Some(2));
    assert_eq!(plan.path(1), Ok(Selection::NoSelector));
    assert_eq!(plan.path(3), Err(Refusal::RowRecord));
    let gates = [(2, 1), (1, 0)].map(|(degree, constants)| Gate::Evaluated { degree, constants });
    let parameters = Parameters { lookup: Lookup::None, ..PARAMETERS };
    let plan = Plan::new(&parameters, &[gates[0], gates[1], Gate::Marker]).unwrap();
    let paths = [0, 1, 2].map(|gate| plan.path(gate).unwrap().to_string());
    assert_eq!(paths, ["1", "01", "00"]);
    assert_eq!(plan.table_id(), None);
}

/// What a plan of these gates says of every gate, and of one more.
fn selections(gates: &[Gate]) -> Vec<Result<Selection, Refusal>> {
    let parameters = Parameters { lookup: Lookup::None, ..PARAMETERS };
    let plan = Plan::new(&parameters, gates).unwrap();
    (0..=gates.len() as u64).map(|gate| plan.path(gate)).collect()
}

/// The text of each, and that the last one is refused.
fn shown(gates: &[Gate]) -> Vec<String> {
    let mut all = selections(gates);
    assert_eq!(all.pop(), Some(Err(Refusal::RowRecord)));
    all.into_iter().map(|selection| selection.unwrap().to_string()).collect()
}

const EVALUATED: Gate = Gate::Evaluated { degree: 2, constants: 0 };

#[test]
fn a_path() {
    assert_eq!(shown(&[EVALUATED, Gate::Marker]), ["1", "0"]);
    let left = selections(&[EVALUATED, Gate::Marker])[0].unwrap().path().unwrap();
    assert_eq!((left.bits, left.length), (1, 1));
    assert!(left.steps().eq([true]));
}

#[test]
fn a_lone_gate_has_an_empty_path() {
    for lone in [Gate::Marker, Gate::Unselected] {
        assert_eq!(shown(&[lone]), [""]);
        let path = selections(&[lone])[0].unwrap().path().unwrap();
        assert_eq!((path.bits, path.length), (0, 0));
    }
}

#[test]
fn the_only_placed_gate_of_a_longer_list_has_an_empty_path() {
    let high = Gate::Evaluated { degree: 64, constants: 0 };
    assert_eq!(shown(&[high, Gate::Unselected]), ["", "none"]);
    assert!(matches!(selections(&[high, Gate::Unselected])[0], Ok(Selection::Path(_))));
}

#[test]
fn no_selector() {
    let gates = [EVALUATED, Gate::Unselected, Gate::Marker];
    assert_eq!(shown(&gates), ["1", "none", "0"]);
    let middle = selections(&gates)[1].unwrap();
    assert_eq!((middle, middle.path()), (Selection::NoSelector, None));
}

#[test]
fn what_a_path_call_writes() {
    let dropped = Plan::new(&PARAMETERS, &BARRED).unwrap();
    let asked = |plan: &[u64], gate: u64, length: usize| {
        let mut out = [7; 5];
        (raw::path(plan, gate, &mut out[..length]), out)
    };
    for length in 0..3 {
        for gate in 0..3 {
            assert_eq!(asked(dropped.words(), gate, length), (10, [7; 5]));
        }
        assert_eq!(asked(&dropped.words()[1..], 0, length), (19, [7; 5]));
    }
    for length in 3..6 {
        assert_eq!(asked(dropped.words(), 0, length), (0, [0, 0, 0, 7, 7]));
        assert_eq!(asked(dropped.words(), 1, length), (0, [0, 0, 1, 7, 7]));
        assert_eq!(asked(dropped.words(), 2, length), (12, [0, 0, 0, 7, 7]));
        assert_eq!(asked(&dropped.words()[1..], 1, length), (19, [0, 0, 0, 7, 7]));
    }
}

#[test]
fn a_row_that_switches_on_another_gate_is_refused() {
    let plan = Plan::new(&PARAMETERS, &BARRED).unwrap();
    let mut columns = Columns::new(&plan);
    let mut intake = Intake::open(&plan, columns.lend()).unwrap();
    let opened = intake.state().to_vec();
    for (row, refusal) in [
        (&[1, 0][..], Refusal::MarkerRow),
        (&[1, 1, 5], Refusal::RowRecord),
        (&[1, 0, 0, 1, P], Refusal::MarkerRow),
        (&[0, 1, P, 1, 0], Refusal::NotAnElement),
    ] {
        assert_eq!(intake.rows(row), Err(refusal), "{row:?}");
    }
    assert_eq!(intake.state(), opened);
    intake.rows(&[0, 0].repeat(4)).unwrap();
    // past N, and not 13
    assert_eq!(intake.rows(&[1, 0]), Err(Refusal::MarkerRow));
    intake.s_words(&[0; 4]).unwrap();
    intake.cells(&[0; 4]).unwrap();
    assert_eq!(intake.finish(), Err(Refusal::UnusedGate));
    assert!(columns.constants().iter().all(|word| *word == 0));
}

#[test]
fn a_listing_with_such_a_row_is_refused() {
    // gates (0,1,0), then those given and one of kind 2; a row of each
    let listing = |trace: u64, between: &[[u64; 3]]| {
        let gates = [&[[0, 1, 0]], between, &[[2, 0, 0]]].concat();
        let mut words = vec![8, trace, 1, 0, 0, 0, 0, 0, 0, gates.len() as u64];
        words.extend(gates.iter().flatten());
        words.push(gates.len() as u64);
        (0..gates.len() as u64).for_each(|gate| words.extend([gate, 0]));
        words.extend([0, trace]);
        words.extend(vec![1 << 63; trace as usize]);
        words.push(0);
        words
    };
    assert_eq!(run(&listing(2, &[])), Err(Refusal::MarkerRow));
    assert_eq!(run(&listing(4, &[[0, 1, 0], [1, 0, 0]])), Err(Refusal::MarkerRow));
    assert_eq!(pad(&listing(4, &[[0, 1, 0], [1, 0, 0]])), Err(Refusal::MarkerRow));
    // padded, the marker on the all-0 path
    assert!(run(&pad(&listing(3, &[[1, 0, 0]])).unwrap()).is_ok());
}

#[test]
fn representatives_with_their_powers() {
    let found = representatives(2, 5).unwrap();
    assert_eq!(found.values, [1, 7, 11, 13, 14]);
    assert_eq!((found.powers, found.taken), (vec![1, 49, 121, 169, 196], 4));
    for (trace, copy, taken) in [(1, 1, 0), (65536, 1, 0), (32, 24, 23), (64, 24, 24)] {
        let found = representatives(trace, copy).unwrap();
        let first: Vec<u64> = (0..copy).map(|c| label(trace, copy, c * trace).unwrap()).collect();
        assert_eq!((found.values, found.taken), (first, taken));
        assert_eq!((found.powers.len() as u64, found.powers[0]), (copy, 1));
    }
    let most = representatives(65536, 64).unwrap();
    assert!(most.values.len() == 64 && most.powers.len() == 64 && !most.powers.contains(&0));
    for (trace, copy) in [(0, 1), (3, 1), (131072, 1), (1, 0), (1, 65), (u64::MAX, u64::MAX)] {
        assert_eq!(representatives(trace, copy), Err(Refusal::Parameter));
    }
}

#[test]
fn what_a_call_for_representatives_writes() {
    const WORDS: usize = raw::REPRESENTATIVES_WORDS;
    let asked = |n: u64, c: u64, length: usize| {
        let mut out = [7; WORDS + 2];
        (raw::representatives(n, c, &mut out[..length]), out)
    };
    let written = |words: &[(usize, u64)]| {
        let mut out = [0; WORDS + 2];
        out[WORDS..].fill(7);
        words.iter().for_each(|(place, word)| out[*place] = *word);
        out
    };
    let two = written(&[(0, 1), (1, 7), (64, 1), (65, 49), (128, 1)]);
    for length in 0..WORDS {
        assert_eq!(asked(2, 2, length), (10, [7; WORDS + 2]));
        // 10 comes before 1
        assert_eq!(asked(3, 2, length), (10, [7; WORDS + 2]));
    }
    for length in WORDS..=WORDS + 2 {
        assert_eq!(asked(2, 2, length), (0, two));
        assert_eq!(asked(3, 2, length), (1, written(&[])));
        assert_eq!(asked(2, 65, length), (1, written(&[])));
    }
}

#[test]
fn refusals_have_the_numbers_of_the_documents() {
    let numbers: Vec<u64> = Refusal::all().map(Refusal::number).collect();
    assert_eq!(numbers, (1..24).collect::<Vec<u64>>());
    assert_eq!((Refusal::from_number(0), Refusal::from_number(24)), (None, None));
    let said = Refusal::Variable.to_string();
    assert_eq!(said, "refused 14 (Variable): a cell names a variable that is not below V");
    let wide = Parameters { trace: 131072, ..PARAMETERS };
    assert_eq!(Plan::new(&wide, &GATES), Err(Refusal::Parameter));
    let unshared = Lookup::SpecialisedAsConstant { width: 2, share: false };
    let unshared = Parameters { lookup: unshared, ..PARAMETERS };
    assert_eq!(Plan::new(&unshared, &GATES), Err(Refusal::ShareFlag));
    assert_eq!(Plan::new(&PARAMETERS, &[]), Err(Refusal::GateCount));
}

#[test]
fn a_listing_in_one_call() {
    let listing = |count: u64, trace: u64, cells: [u64; 2]| {
        let parameters = [count, trace, 2, 0, 0, 2, 0, 0, 0];
        let sections: [&[u64]; 5] = [&[1, 1, 0, 0, 1, 0, 0, 0, 2], &cells, &[0], &[], &[]];
        [&parameters[..], &sections.concat()].concat()
    };
    let (plan, columns) = run(&listing(8, 1, [1, 1])).unwrap();
    assert_eq!(plan, Plan::new(&plan.parameters(), &[Gate::Marker]).unwrap());
    let own = [0, 1].map(|cell| label(1, 2, cell).unwrap());
    assert!(columns.copy_columns().eq([[own[1]], [own[0]]]));
    assert_eq!(run(&listing(8, 1, [2, 0])), Err(Refusal::Variable));
    assert_eq!(run(&listing(8, 3, [0, 0])), Err(Refusal::Parameter));
    assert_eq!(run(&listing(9, 1, [0, 0])), Err(Refusal::Listing));
    assert_eq!(run(&[]), Err(Refusal::Listing));
    // not whole, and a parameter out of range: 20 comes first
    let cut = listing(8, 3, [0, 0]);
    assert_eq!(run(&cut[..cut.len() - 1]), Err(Refusal::Listing));
    let (mut copies, mut scratch) = ([7; 2], [7; 3]);
    let lent =
        Lent { constants: &mut [], copies: &mut copies, scratch: &mut scratch, tables: &mut [] };
    assert_eq!(run_in(&listing(8, 1, [0, 0]), lent), Err(Refusal::ShortBuffer));
    assert_eq!((copies, scratch), ([7; 2], [7; 3]));
    let mut scratch = [7; 5];
    let lent =
        Lent { constants: &mut [], copies: &mut copies, scratch: &mut scratch, tables: &mut [] };
    assert_eq!(run_in(&listing(8, 1, [1, 1]), lent), Ok(plan));
    assert_eq!((copies.as_slice(), scratch[4]), (columns.copies(), 7));
}

/// N, the gate's kind, the number of rows of it, and cells.
fn unpadded(trace: u64, kind: u64, rows: u64, cells: &[u64]) -> Vec<u64> {
    let mut words = vec![8, trace, 1, 0, 0, 2, 0, 0, 0, 1, kind, (kind == 0) as u64, 0, rows];
    (0..rows).for_each(|_| words.extend([0, 0]));
    words.extend([0, cells.len() as u64]);
    words.extend(cells);
    words.push(0);
    words
}

#[test]
fn a_padded_listing_is_a_full_one() {
    const HOLE: u64 = 1 << 63;
    assert_eq!(pad(&unpadded(0, 1, 0, &[])), Ok(unpadded(1, 1, 1, &[HOLE])));
    let full = unpadded(4, 1, 4, &[1, 0, 1, HOLE]);
    assert_eq!(pad(&unpadded(3, 1, 1, &[1, 0, 1])), Ok(full.clone()));
    assert_eq!(pad(&unpadded(2, 1, 3, &[1, 0])), Ok(unpadded(4, 1, 4, &[1, 0, HOLE, HOLE])));
    let (plan, columns) = run(&full).unwrap();
    assert_eq!((plan.parameters().trace, columns.copies().len()), (4, 4));
    // more than twice the words: the buffer grows
    let tall = pad(&unpadded(0, 1, 32768, &[])).unwrap();
    assert_eq!((tall.len(), tall[1], tall[13]), (14 + 2 * 65536 + 2 + 65536 + 1, 65536, 65536));
    // a full one gets room for one row more
    assert_eq!(pad(&full).map(|words| words[1]), Ok(8));
}

#[test]
fn what_padding_turns_down() {
    assert_eq!(pad(&[]), Err(Refusal::Listing));
    assert_eq!(pad(&unpadded(65537, 1, 0, &[])), Err(Refusal::Parameter));
    assert_eq!(pad(&unpadded(0, 0, 1, &[])), Err(Refusal::NoMarker));
    assert_eq!(pad(&unpadded(0, 1, 65536, &[])), Err(Refusal::TooLong));
    assert_eq!(pad(&unpadded(1, 1, 1, &[0, 0])), Err(Refusal::TooMany));
    assert_eq!(pad(&unpadded(2, 1, 1, &[0])), Err(Refusal::Incomplete));
    assert_eq!(pad(&unpadded(1, 1, 1, &[2])), Err(Refusal::Variable));
}

#[test]
fn what_padding_writes() {
    let (listing, wanted) = (unpadded(1, 1, 1, &[0]), unpadded(2, 1, 2, &[0, 1 << 63]));
    let (mut out, mut count) = (vec![7; wanted.len() + 2], [7; 2]);
    assert_eq!(raw::pad(&listing, &mut out, &mut count), 0);
    assert_eq!((&out[..wanted.len()], &out[wanted.len()..]), (&wanted[..], &[7, 7][..]));
    assert_eq!(count, [wanted.len() as u64, 7]);
    let (mut out, mut count) = (vec![7; wanted.len() - 1], [7; 2]);
    assert_eq!(raw::pad(&listing, &mut out, &mut count), 10);
    assert_eq!((out, count), (vec![7; wanted.len() - 1], [0, 7]));
    let mut out = vec![7; wanted.len()];
    assert_eq!(raw::pad(&listing, &mut out, &mut []), 10);
    assert_eq!(raw::pad(&listing[1..], &mut out, &mut []), 20);
    let mut count = [7; 2];
    assert_eq!(raw::pad(&listing[1..], &mut out, &mut count), 20);
    assert_eq!((&out, count), (&vec![7; wanted.len()], [0, 7]));
    assert_eq!(raw::pad(&listing, &mut out, &mut count), 0);
    assert_eq!(out, wanted);
}

#[test]
fn a_listing_from_bytes() {
    let bytes: Vec<u8> = [8u64, 1 << 63].iter().flat_map(|word| word.to_le_bytes()).collect();
    assert_eq!(listing_from_bytes(&bytes), Ok(vec![8, 1 << 63]));
    assert_eq!(listing_from_bytes(&bytes[1..]), Err(Refusal::Listing));
    assert_eq!(listing_from_bytes(&[]), Ok(vec![]));
}

#[test]
fn every_call_of_a_circuit_runs_on_the_stack_that_is_named() {
    let circuit = || {
        let plan = plan();
        let mut columns = Columns::new(&plan);
        let mut intake = Intake::open(&plan, columns.lend()).unwrap();
        fill(&mut intake).unwrap();
        intake.cells(&[0]).unwrap();
        intake.finish().unwrap();
    };
    std::thread::Builder::new().stack_size(STACK_BYTES).spawn(circuit).unwrap().join().unwrap();
}

#[test]
fn an_index_of_more_than_48_bits_is_refused_and_not_cut() {
    let plan = plan();
    let mut columns = Columns::new(&plan);
    let mut intake = Intake::open(&plan, columns.lend()).unwrap();
    for index in [3, 1 << 48, 1 << 63, u64::MAX] {
        assert_eq!(intake.cells_from([Cell::Variable(index)]), Err(Refusal::Variable));
    }
    assert_eq!(intake.table_from(2, [[1, 2].as_slice(), &[3]]), Err(Refusal::Table));
}

#[test]
fn a_list_of_calls_leaves_what_its_calls_leave() {
    let plan = plan();
    let (mut listed, mut single) = (Columns::new(&plan), Columns::new(&plan));
    let mut list = Calls::new();
    assert!(list.is_empty());
    list.s_words(&[1, 2, 3, 4]).rows(&[0, 1, 6, 0, 1, 7]).rows(&[3, 0]).rows(&[1, 0, 2, 0]);
    list.tables(&[2, 2, 1, 2, 3, 4, 2, 0, 2, 1, 5, 6]).finish().cells(&[2, 1 << 63, 2, 0]);
    list.finish().finish();
    assert_eq!(list.len(), 9);
    assert_eq!(list.words()[..8], [2, 4, 1, 2, 3, 4, 1, 6]);
    let mut intake = Intake::open(&plan, listed.lend()).unwrap();
    let mut answers = vec![Ok(()); 9];
    answers[2] = Err(Refusal::RowRecord);
    answers[5] = Err(Refusal::Incomplete);
    answers[8] = Err(Refusal::MadeUp);
    assert_eq!(intake.calls(&list), answers);
    assert_eq!(intake.calls(&Calls::new()), []);
    let state = intake.state().to_vec();
    let mut intake = Intake::open(&plan, single.lend()).unwrap();
    fill(&mut intake).unwrap();
    intake.cells(&[0]).unwrap();
    intake.finish().unwrap();
    assert_eq!(state, intake.state());
    assert_eq!(listed, single);
}

#[test]
fn words_that_are_no_list_are_refused_and_write_nothing() {
    let plan = plan();
    let mut columns = Columns::new(&plan);
    let intake = Intake::open(&plan, columns.lend()).unwrap();
    let opened = intake.state().to_vec();
    let mut state = opened.clone();
    let Lent { constants, copies, scratch, tables } = columns.lend();
    let mut numbers = [77; 2];
    for (list, number) in [
        (&[1][..], 20),
        (&[0, 0], 20),
        (&[6, 0], 20),
        (&[1, 2, 0], 20),
        (&[3, u64::MAX, 0], 20),
        (&[3, 1, 2, 7, 0], 20),
        (&[3, 1, 2, 5, 0, 5, 0], 10),
    ] {
        let met = raw::calls(&mut state, list, &mut numbers, constants, copies, scratch, tables);
        assert_eq!(met, number, "{list:?}");
    }
    assert_eq!((numbers, &state), ([77; 2], &opened));
    // and with words of another number than a state's every call is 19
    state.push(5);
    let met = raw::calls(&mut state, &[3, 1, 2], &mut numbers, constants, copies, scratch, tables);
    assert_eq!((met, numbers, &state[..1296]), (0, [19, 77], &opened[..]));
}

#[test]
fn a_row_of_another_length_is_15_only_while_the_intake_is_open() {
    let plan = plan();
    let mut columns = Columns::new(&plan);
    let mut intake = Intake::open(&plan, columns.lend()).unwrap();
    fill(&mut intake).unwrap();
    intake.cells(&[0]).unwrap();
    assert_eq!(intake.table_from(2, [[1]]), Err(Refusal::Table));
    intake.finish().unwrap();
    assert_eq!(intake.table_from(2, [[1]]), Err(Refusal::MadeUp));
}
