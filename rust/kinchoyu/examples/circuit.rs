//! A whole circuit from iterators, with S words and tables: `examples/specialised-constant.circuit`
//! of the repository. Prints what the program `setup` prints for it.
use kinchoyu::{Cell, Columns, Gate, Intake, Lookup, Parameters, Plan, Refusal};

/// A row of the trace.
struct Row {
    gate: u64,
    constants: &'static [u64],
    /// In which table the row looks something up.
    table: u64,
    /// The variable in each copy column.
    variables: [Option<u64>; 2],
}

const GATES: [Gate; 3] = [
    Gate::Evaluated { degree: 4, constants: 1 },
    Gate::Evaluated { degree: 1, constants: 0 },
    Gate::Marker,
];

const ROWS: [Row; 4] = [
    Row { gate: 0, constants: &[5], table: 1, variables: [Some(0), Some(1)] },
    Row { gate: 1, constants: &[], table: 1, variables: [Some(1), None] },
    Row { gate: 2, constants: &[], table: 2, variables: [Some(2), Some(2)] },
    Row { gate: 2, constants: &[], table: 2, variables: [Some(0), None] },
];

const TABLES: [&[[u64; 3]]; 2] = [&[[1, 2, 3]], &[[4, 5, 6], [7, 8, 9]]];

fn columns_of(plan: &Plan) -> Result<Columns, Refusal> {
    let mut columns = Columns::new(plan);
    let mut intake = Intake::open(plan, columns.lend())?;
    intake.rows_from(ROWS.iter().map(|row| (row.gate, row.constants)))?;
    // S words and cells come column by column
    intake.s_words_from(ROWS.iter().map(|row| row.table))?;
    intake.s_words_from(ROWS.iter().map(|_| 0))?;
    for column in 0..2 {
        intake.cells_from(ROWS.iter().map(|row| Cell::from(row.variables[column])))?;
    }
    for table in TABLES {
        intake.table_from(3, table)?;
    }
    intake.finish()?;
    Ok(columns)
}

fn print<'a>(name: &str, columns: impl Iterator<Item = &'a [u64]>) {
    for (number, column) in columns.enumerate() {
        let words: Vec<String> = column.iter().map(u64::to_string).collect();
        println!("{name} {number} {}", words.join(" "));
    }
}

fn main() -> Result<(), Refusal> {
    let parameters = Parameters {
        trace: ROWS.len() as u64,
        copy: 2,
        allowed: 1,
        specialised: 2,
        variables: 3,
        lookup: Lookup::SpecialisedAsConstant { width: 3, share: true },
    };
    let plan = Plan::new(&parameters, &GATES)?;
    let columns = columns_of(&plan)?;

    let stats = plan.stats();
    println!("plan {} {} {}", stats.degree, stats.constants, stats.factor);
    for gate in 0..GATES.len() as u64 {
        println!("path {gate} {}", plan.path(gate)?);
    }
    print("constant", columns.constant_columns());
    print("copy", columns.copy_columns());
    print("table", columns.table_columns());
    println!("ids{}", plan.table_id().map_or(String::new(), |index| format!(" {index}")));
    Ok(())
}
