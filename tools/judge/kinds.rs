//! Names, and what the two kinds say of facts. A fact is kept as its text, since two texts are one fact if they agree.

pub type Text = Vec<u8>;

pub fn is_name(text: &[u8]) -> bool {
    let bytes_fit = text.iter().all(|byte| byte.is_ascii_lowercase() || byte.is_ascii_digit());
    (1..=8).contains(&text.len()) && bytes_fit && text != b"all"
}

#[derive(Default)]
pub struct Names {
    pub zones: Vec<Text>,
    pub matters: Vec<Text>,
}

impl Names {
    fn has_matter(&self, text: &[u8]) -> bool {
        self.matters.iter().any(|matter| matter == text)
    }

    fn has_watcher(&self, text: &[u8]) -> bool {
        text == b"all" || self.zones.iter().any(|zone| zone == text)
    }
}

/// Why a text is no fact.
#[derive(Clone, Copy, PartialEq, Eq, Debug)]
pub enum NoFact {
    NotItsForm,
    NotListed,
}

#[derive(Clone, Copy, PartialEq, Eq, Debug, Default)]
pub enum Kind {
    #[default]
    Plain,
    Sight,
}

const MOST_WATCHERS: usize = 5;

impl Kind {
    pub fn of_word(word: &[u8]) -> Option<Kind> {
        match word {
            b"plain" => Some(Kind::Plain),
            b"sight" => Some(Kind::Sight),
            _ => None,
        }
    }

    /// Whether a text is a fact, and if not, why. The form is judged whole before any name is looked up.
    pub fn read(self, names: &Names, text: &[u8]) -> Result<(), NoFact> {
        let (watchers, matter) = self.parts(text);
        let watchers_fit = watchers.iter().all(|&watcher| watcher == b"all" || is_name(watcher));
        if watchers.len() > MOST_WATCHERS || !watchers_fit || !is_name(matter) {
            return Err(NoFact::NotItsForm);
        }
        if !names.has_matter(matter) || !watchers.iter().all(|watcher| names.has_watcher(watcher)) {
            return Err(NoFact::NotListed);
        }
        Ok(())
    }

    /// The watchers and the matter of a text. In the plain kind a full stop is a byte like any other.
    fn parts(self, text: &[u8]) -> (Vec<&[u8]>, &[u8]) {
        match self {
            Kind::Plain => (Vec::new(), text),
            Kind::Sight => {
                let mut parts: Vec<&[u8]> = text.split(|&byte| byte == b'.').collect();
                let matter = parts.pop().unwrap_or_default();
                (parts, matter)
            }
        }
    }

    /// `all.r` carries itself and every fact made of one or more watchers and then r; another fact only itself.
    pub fn carries(self, carrier: &[u8], carried: &[u8]) -> bool {
        carrier == carried || self == Kind::Sight && carries_as_all(carrier, carried)
    }

    /// One zone is named twice running, or `all` is in the fact anywhere but first.
    pub fn is_always_true(self, fact: &[u8]) -> bool {
        let (watchers, _) = self.parts(fact);
        let zone_twice = watchers.windows(2).any(|two| two[0] == two[1] && two[0] != b"all");
        let all_later = watchers.iter().skip(1).any(|&watcher| watcher == b"all");
        zone_twice || all_later
    }
}

fn carries_as_all(carrier: &[u8], carried: &[u8]) -> bool {
    match carrier.strip_prefix(b"all.") {
        Some(rest) => carried.strip_suffix(rest).is_some_and(|watchers| watchers.ends_with(b".")),
        None => false,
    }
}
