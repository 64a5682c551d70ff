//! Imports, linked to the exports of other modules by the answers of the library.

use crate::error::Error;
use crate::template::Template;
use bobbinazure::{Answer, EntityIndex, Export, Options, link};

/// A module and the modules that it imports from, with what each import is given.
#[derive(Clone, Debug)]
pub struct Linked<'t> {
    pub(crate) template: &'t Template<'t>,
    pub(crate) exporters: Vec<&'t Template<'t>>,
    /// Of each import: which of the exporters gives it, and the entity there.
    pub(crate) given: Vec<(usize, EntityIndex)>,
}

impl<'m> Template<'m> {
    /// Links each import to an export of one of these modules, each of which stands under a name.
    /// What a module exports again counts as it declares it, though an instance may have been given
    /// more.
    ///
    /// # Errors
    /// [`Error::Missing`], [`Error::Mismatch`], of the first import that has either; [`Error::Link`].
    pub fn link<'t>(&'t self, exporters: &[(&str, &'t Template<'t>)]) -> Result<Linked<'t>, Error> {
        let imports: Vec<_> = self.plan().imports().collect();
        let mut answers = vec![Answer::Missing; imports.len()];
        let mut from = vec![0; imports.len()];
        for (number, (name, exporter)) in exporters.iter().enumerate() {
            if !imports.iter().any(|import| import.module == *name) {
                continue;
            }
            // Both modules are planned once more; without images that takes no time for their data.
            let new =
                link(exporter.plan().module_bytes(), self.plan().module_bytes(), name, &Options::default())?;
            for (place, answer) in new.into_iter().enumerate() {
                if answers[place] == Answer::Missing {
                    (answers[place], from[place]) = (answer, number);
                }
            }
        }
        let exports: Vec<Vec<Export<'_>>> =
            exporters.iter().map(|(_, one)| one.plan().exports().collect()).collect();
        let given =
            imports.iter().zip(answers.into_iter().zip(from)).map(|(import, (answer, from))| match answer {
                Answer::Given(export) => Ok((from, exports[from][export as usize].index)),
                Answer::Missing => Err(Error::Missing { import: import.to_string() }),
                Answer::Mismatch { line, .. } => {
                    Err(Error::Mismatch { import: import.to_string(), rule: line })
                }
            });
        let given = given.collect::<Result<_, _>>()?;
        Ok(Linked {
            template: self,
            exporters: exporters.iter().map(|(_, template)| *template).collect(),
            given,
        })
    }
}
