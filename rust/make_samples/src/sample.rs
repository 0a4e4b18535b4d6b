//! A sample: a file, what it shows, and its line.
use builder::layout;
use builder::model::Model;

/// A kind of file.
pub trait Kind {
    /// How the names of such files end.
    const ENDING: &'static str;

    fn words(&self) -> Vec<u16>;

    /// What the page writes of it: a heading and its rows.
    fn parts(&self) -> Vec<(&'static str, Vec<String>)>;

    /// What has no proof here by this model, as rows of the page; the model has to refute it.
    fn refuted(&self, model: &Model) -> Vec<String>;

    /// The proof of a granted file in sentences; an exchange file has none.
    fn sentences(&self) -> Option<String> {
        None
    }

    fn bytes(&self) -> Vec<u8> {
        layout::bytes(&self.words())
    }
}

/// One file: its name without the ending, what it shows, its bytes, and the line that the program
/// prints for it. `contents` is what the page writes in words; a file that is damaged, or too long
/// for the page, has none. `asked` is for some records: principals' numbers, rising, each with the
/// line that the program prints for the question whether he can matter. `no_proof` is for a refused
/// file that no steps whatever would make a granted or an equal one: what shows that.
pub struct Sample<T> {
    pub name: &'static str,
    pub shows: &'static str,
    pub contents: Option<T>,
    pub file: Vec<u8>,
    pub line: &'static str,
    pub asked: Vec<(u16, &'static str)>,
    pub no_proof: Option<NoProof>,
}

impl<T: Kind> Sample<T> {
    pub fn file_name(&self) -> String {
        format!("{}.{}", self.name, T::ENDING)
    }

    /// The name and the text of the file with its proof in sentences, where it is granted and not
    /// too long for the page.
    pub fn sentences(&self) -> Option<(String, String)> {
        let granted = self.contents.as_ref().filter(|_| self.line.starts_with("granted"));
        Some((format!("{}.sentences", self.name), granted?.sentences()?))
    }

    /// The name and the text of the file with the lines of the principals who are asked about, if
    /// any are.
    pub fn independence(&self) -> Option<(String, String)> {
        let lines = self.asked.iter().map(|(principal, line)| format!("{principal} {line}\n"));
        let text: String = lines.collect();
        (!text.is_empty()).then(|| (format!("{}.independent", self.name), text))
    }

    /// The same sample, with these principals asked about.
    pub fn asked(self, asked: &[(u16, &'static str)]) -> Self {
        Sample { asked: asked.to_vec(), ..self }
    }

    /// The same sample, with the model where only these atoms are true and these principals say
    /// everything.
    pub fn no_proof(self, atoms: &[u16], principals: &[u16]) -> Self {
        Sample { no_proof: Some(NoProof::Model(Model::new(atoms, principals))), ..self }
    }

    /// The same sample, with the theorem that says that there is no proof.
    pub fn no_proof_by(self, theorem: &'static str) -> Self {
        Sample { no_proof: Some(NoProof::Theorem(theorem)), ..self }
    }

    /// What the page writes of that, in rows.
    pub fn refuted(&self) -> Option<Vec<String>> {
        match self.no_proof.as_ref()? {
            NoProof::Model(model) => Some(self.contents.as_ref()?.refuted(model)),
            NoProof::Theorem(theorem) => Some(vec![theorem.to_string()]),
        }
    }
}

/// Why there is no proof.
pub enum NoProof {
    Model(Model),
    Theorem(&'static str),
}

pub struct Section<T> {
    pub title: &'static str,
    pub about: &'static str,
    pub samples: Vec<Sample<T>>,
}

pub fn sample<T: Kind>(
    name: &'static str,
    shows: &'static str,
    contents: T,
    line: &'static str,
) -> Sample<T> {
    let (file, contents) = (contents.bytes(), Some(contents));
    Sample { name, shows, contents, file, line, asked: vec![], no_proof: None }
}

/// A sample of which the page has no more than what it shows.
pub fn bare<T>(
    name: &'static str,
    shows: &'static str,
    file: Vec<u8>,
    line: &'static str,
) -> Sample<T> {
    Sample { name, shows, file, contents: None, line, asked: vec![], no_proof: None }
}
