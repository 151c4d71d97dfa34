//! Lines of JSON, as far as the rows need them. Texts have no quotes and no control characters.

/// An object, member by member.
#[derive(Default)]
pub struct Object(Vec<String>);

impl Object {
    fn member(&mut self, name: &str, value: String) -> &mut Self {
        self.0.push(format!("\"{name}\": {value}"));
        self
    }

    pub fn text(&mut self, name: &str, value: &str) -> &mut Self {
        self.member(name, format!("\"{value}\""))
    }

    pub fn number(&mut self, name: &str, value: Option<f64>) -> &mut Self {
        match value {
            Some(value) => self.member(name, format!("{value:.4}")),
            None => self,
        }
    }

    pub fn count(&mut self, name: &str, value: Option<usize>) -> &mut Self {
        match value {
            Some(value) => self.member(name, value.to_string()),
            None => self,
        }
    }

    pub fn list(&mut self, name: &str, values: impl Iterator<Item = String>) -> &mut Self {
        let values: Vec<_> = values.collect();
        self.member(name, format!("[{}]", values.join(", ")))
    }

    pub fn object(&mut self, name: &str, value: Object) -> &mut Self {
        self.member(name, value.line())
    }

    pub fn line(&self) -> String {
        format!("{{{}}}", self.0.join(", "))
    }
}
