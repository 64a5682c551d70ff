//! dump OUT : makes 1,000 instances of each program, each with hosts of its own, and writes into
//! the folder OUT what the last one holds. Then node/compare.mjs compares it with an instance of
//! node's engine.

#[path = "../tests/common/mod.rs"]
mod common;

use bobbinazure::EntityIndex;
use common::{host, programs};
use engine::{Config, Engine, InstanceId, Linked, Store, Template};
use std::error::Error;
use std::fmt::Write;
use std::path::Path;

type Done<T> = Result<T, Box<dyn Error>>;

const INSTANCES: usize = 1000;

/// A function as a list of the number of its module and its index, or null.
fn shown(store: &Store<'_>, round: &[InstanceId], cell: u64) -> String {
    let found = store
        .function(cell)
        .and_then(|(owner, function)| Some((round.iter().position(|id| *id == owner)?, function)));
    found.map_or("null".into(), |(module, function)| format!("[{module},{function}]"))
}

/// What an exported entity of a module holds, as a line of JSON; bytes go to a file.
fn holds(
    store: &Store<'_>,
    round: &[InstanceId],
    module: usize,
    export: &bobbinazure::Export<'_>,
    base: &Path,
) -> Done<Option<String>> {
    let (id, name) = (round[module], export.name);
    let what = match export.index {
        EntityIndex::Memory(index) => {
            let file = base.with_extension(format!("{module}-{index}.bin"));
            std::fs::write(&file, store.memory(id, index).ok_or("no memory")?)?;
            format!(r#""memory":{:?}"#, file.file_name().ok_or("no name")?)
        }
        EntityIndex::Table(index) => {
            let cells =
                store.table(id, index).ok_or("no table")?.iter().map(|cell| shown(store, round, *cell));
            format!(r#""cells":[{}]"#, cells.collect::<Vec<_>>().join(","))
        }
        EntityIndex::Global(index) => format!(r#""bits":"{}""#, store.global(id, index).ok_or("no global")?),
        EntityIndex::Function(_) | EntityIndex::Tag(_) => return Ok(None),
    };
    Ok(Some(format!(r#"{{"module":{module},"export":{name:?},{what}}}"#)))
}

/// Writes a program, its hosts and what the last of many instances holds.
fn dump(engine: &Engine, out: &Path, name: &str, program: &[u8]) -> Done<()> {
    let base = out.join(format!("{name}.json"));
    let template = Template::new(engine, program)?;
    let names = host::names(template.plan());
    let spelled: Vec<Vec<u8>> = names.iter().map(|name| host::host(template.plan(), name)).collect();
    let hosts = spelled.iter().map(|bytes| Template::new(engine, bytes)).collect::<Result<Vec<_>, _>>()?;
    let exporters: Vec<(&str, &Template<'_>)> = names.iter().copied().zip(&hosts).collect();
    let linked = template.link(&exporters)?;
    let lone = hosts.iter().map(|host| host.link(&[])).collect::<Result<Vec<Linked<'_>>, _>>()?;

    let (mut store, mut round) = (Store::new(), Vec::new());
    for _ in 0..INSTANCES {
        round.clear();
        for host in &lone {
            round.push(store.instantiate(host, &[])?);
        }
        round.push(store.instantiate(&linked, &round)?);
    }
    let mut lines = Vec::new();
    for (module, template) in hosts.iter().chain([&template]).enumerate() {
        for export in template.plan().exports() {
            lines.extend(holds(&store, &round, module, &export, &base)?);
        }
        std::fs::write(base.with_extension(format!("{module}.wasm")), template.plan().module_bytes())?;
    }
    let mut said = String::new();
    write!(said, "{{\"names\":{names:?},\"holds\":[\n{}\n]}}\n", lines.join(",\n"))?;
    std::fs::write(base, said)?;
    Ok(())
}

fn main() -> Done<()> {
    let out = std::env::args_os().nth(1).ok_or("dump OUT")?;
    let (engine, programs) = (Engine::new(Config::default()), programs());
    for (name, program) in &programs {
        dump(&engine, Path::new(&out), name, program).map_err(|error| format!("{name}: {error}"))?;
    }
    println!("{INSTANCES} instances of each of {} programs were made", programs.len());
    Ok(())
}
