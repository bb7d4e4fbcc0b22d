//! Programs over the judge's own reader, keys and verdicts that fall into one of the traps that the judge has to see.

mod choice;
pub mod stated;
mod trap;
mod verdicts;

use judge::graph::Closure;
use judge::library::{Reply, EQUAL, LOOSE, MISMATCH, NO_ASSIGNMENT};
use judge::marking::due::{self, read, read_script};
use judge::meaning::{rules, terms, NO_RULE};
use judge::naive;
use judge::printed::programs::Printer;
use judge::sheets::Sheet;
pub use trap::Trap;

pub struct Wrong {
    trap: Trap,
}

impl Printer for Wrong {
    fn key(&self, text: &[u8]) -> Result<Vec<u8>, String> {
        Ok(self.told(match read(text) {
            Ok(paper) => self.key_text(paper.sheet()),
            Err(reply) => self.refusal(reply, None),
        }))
    }

    fn mark(&self, sheet: &[u8], script: &[u8]) -> Result<Vec<u8>, String> {
        let number = due::of(sheet, script)?.number;
        Ok(self.told(match (read(sheet), read_script(script)) {
            (Err(reply), _) => self.refusal(reply, Some("sheet")),
            (Ok(_), Err(reply)) => self.refusal(reply, Some("script")),
            (Ok(sheet), Ok(script)) => match number {
                MISMATCH => self.refusal(Reply { number, value: 0 }, Some("both")),
                EQUAL => "verdict=equal\n".into(),
                LOOSE => self.loose(&sheet, &script),
                _ => self.tight(&sheet, &script),
            },
        }))
    }
}

impl Wrong {
    pub fn new(trap: Trap) -> Wrong {
        Wrong { trap }
    }

    fn told(&self, mut text: String) -> Vec<u8> {
        if self.trap == Trap::NoLastEnd {
            text.pop();
        }
        text.into_bytes()
    }

    fn key_text(&self, sheet: Sheet) -> String {
        let Sheet { n, hidden, table } = sheet;
        let Some(closure) = Closure::of(n, &rules(n, &table)) else {
            return self.refusal(NO_ASSIGNMENT, None);
        };
        let visible = table.iter().zip(terms(n)).map(|(&word, term)| if term.names(hidden) { NO_RULE } else { word });
        let table = match self.trap {
            Trap::VisibleRules => visible.collect(),
            Trap::NothingHidden => table,
            Trap::PlainKey => naive::key(n, hidden, &table).expect("the sheet has an assignment"),
            _ => closure.tightest(hidden),
        };
        Sheet { n, hidden, table }.to_string()
    }

    /// A refusal of *mark* names a paper, one of *key* does not.
    fn refusal(&self, Reply { number, value }: Reply, paper: Option<&str>) -> String {
        let paper = match (self.trap, paper) {
            (Trap::NoPaper, _) | (_, None) => String::new(),
            (Trap::AlwaysScript, Some("sheet")) | (Trap::ScriptForBoth, Some("both")) => "paper=script\n".into(),
            (_, Some(paper)) => format!("paper={paper}\n"),
        };
        let line = match self.trap {
            Trap::NoLineZero if value == 0 => String::new(),
            Trap::LinesFromZero => format!("line={}\n", value.saturating_sub(1)),
            _ => format!("line={value}\n"),
        };
        format!("refused={number}\n{paper}{line}")
    }
}
