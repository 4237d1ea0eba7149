//! Finds the arrays that a function, or what it calls, keeps to itself or holds in a struct, in the code that the prover leaves of proved
//! crates, `out/rlib/CRATE.rlib/toolchain/mir.json`. `private_arrays WORDS FUNCTION FILE..` tells the longest one. It ends with status 1
//! where that is longer than WORDS words of 32 bits, and with status 2 where it cannot tell: a function that is not there, is recursive or
//! is written in C, one for which not all is given that it is generic in, a form that it does not know.

use std::collections::BTreeMap;
use std::process::ExitCode;

/// A value of JSON. Numbers, `true`, `false` and `null` are words.
enum Json {
    List(Vec<Json>),
    Object(Vec<(String, Json)>),
    Text(String),
    Word(String),
}

type Told<T> = Result<T, String>;

fn main() -> ExitCode {
    let arguments: Vec<String> = std::env::args().skip(1).collect();
    match told(&arguments) {
        Ok(true) => ExitCode::SUCCESS,
        Ok(false) => ExitCode::from(1),
        Err(account) => {
            println!("private_arrays: {account}");
            ExitCode::from(2)
        }
    }
}

/// Prints the longest array that the function reaches; whether it is within the limit.
fn told(arguments: &[String]) -> Told<bool> {
    let [limit, root, files @ ..] = arguments else { return Err("usage: private_arrays WORDS FUNCTION FILE..".into()) };
    let limit: u64 = limit.parse().map_err(|_| format!("{limit} is no number"))?;
    let mut crates = Vec::new();
    for file in files {
        let text = std::fs::read_to_string(file).map_err(|error| format!("{file}: {error}"))?;
        crates.push(parsed(&text).map_err(|account| format!("{file}: {account}"))?);
    }
    let code = Code::of(&crates)?;
    let mut reached = BTreeMap::new();
    reach(Instance { name: root, given: Given::default() }, &code, &mut Vec::new(), &mut reached)?;
    let (holder, words) =
        reached.iter().map(|(one, words)| (one.name, *words)).max_by_key(|&(_, words)| words).unwrap_or(("none", 0));
    println!("{root} reaches {} functions; their longest array has {words} words, in {holder}", reached.len());
    Ok(words <= limit)
}

// ---- The functions of the crates, and what they call.

/// Every function of the crates by name, and which function a method of an impl is, by the impl's name and the method's place.
struct Code<'a> {
    functions: BTreeMap<&'a str, &'a Json>,
    methods: BTreeMap<(&'a str, u64), &'a str>,
}

/// A function with what is given for the types and numbers, and for the traits, that it is generic in.
#[derive(Clone, PartialEq, Eq, PartialOrd, Ord)]
struct Instance<'a> {
    name: &'a str,
    given: Given<'a>,
}

#[derive(Clone, Default, PartialEq, Eq, PartialOrd, Ord)]
struct Given<'a> {
    amounts: Vec<Amount>,
    impls: Vec<Instance<'a>>,
}

/// What is given for a parameter: a type of so many words, or a number.
#[derive(Clone, Copy, PartialEq, Eq, PartialOrd, Ord)]
enum Amount {
    Words(u64),
    Number(u64),
}

impl<'a> Code<'a> {
    /// Of the crates' lists, in which each function is `["NAME", FUNCTION]`.
    fn of(crates: &'a [Json]) -> Told<Self> {
        let mut code = Code { functions: BTreeMap::new(), methods: BTreeMap::new() };
        for list in crates {
            for pair in list.list().ok_or("a crate that is no list")? {
                let Some((name, [function])) = pair.named_list() else { return Err("a function without a name".into()) };
                if code.functions.insert(name, function).is_some() {
                    return Err(format!("{name} is there twice"));
                }
                let of = function.get("generics").and_then(|generics| generics.get("method_of")).and_then(|of| of.get("Impl"));
                if let Some((of, [place])) = of.and_then(Json::named_list) {
                    code.methods.insert((of, place.number()?), name);
                }
            }
        }
        Ok(code)
    }

    /// The method at a place of an impl. It is generic in what its impl is, and here in no more.
    fn method(&self, of: Instance<'a>, place: &Json) -> Told<Instance<'a>> {
        let name = self
            .methods
            .get(&(of.name, place.number()?))
            .ok_or_else(|| format!("there is no method {} of {}", place.head(), of.name))?;
        Ok(Instance { name, given: of.given })
    }
}

/// Adds the function to those reached, with the words of its longest array, and all that it calls, and so on. `above` are those that led to
/// it: none may be recursive, since each turn keeps arrays of its own.
fn reach<'a>(
    one: Instance<'a>,
    code: &Code<'a>,
    above: &mut Vec<&'a str>,
    reached: &mut BTreeMap<Instance<'a>, u64>,
) -> Told<()> {
    let name = one.name;
    let function = *code.functions.get(name).ok_or_else(|| format!("there is no function {name}"))?;
    if above.contains(&name) {
        return Err(format!("{name} is recursive"));
    }
    if !reached.contains_key(&one) {
        let mut found = Found::of(function, &one.given).map_err(|account| format!("{name}: {account}"))?;
        let callees = calls(function, code, &mut found, &one.given).map_err(|account| format!("{name}: {account}"))?;
        reached.insert(one, found.longest);
        above.push(name);
        for callee in callees {
            reach(callee, code, above, reached)?;
        }
        above.pop();
    }
    Ok(())
}

/// What a function calls, or names otherwise. A call of what has no name, or a body in C, is not known.
fn calls<'a>(function: &'a Json, code: &Code<'a>, found: &mut Found<'a>, given: &Given<'a>) -> Told<Vec<Instance<'a>>> {
    let mut parts = Vec::new();
    function.each(&mut |key, value| parts.push((key, value)));
    let mut callees = Vec::new();
    for (key, value) in parts {
        match key {
            "Fn" => {
                let Some((name, [generic])) = value.named_list() else { return Err("a function without a name".into()) };
                callees.push(Instance { name, given: found.given(generic, given)? });
            }
            "Method" => {
                let Some([of, place, generic]) = value.list() else { return Err("a method without a name".into()) };
                if found.given(generic, given)? != Given::default() {
                    return Err("a method that is generic itself".into());
                }
                callees.push(code.method(found.implemented(of, given)?, place)?);
            }
            "Call" if !value.first().is_some_and(|callee| matches!(callee.head(), "Fn" | "Method")) => {
                return Err("a call of what has no name".into());
            }
            "CallV" | "Fork" => return Err("a call of what has no name".into()),
            "Foreign" => return Err("a body in C".into()),
            _ => {}
        }
    }
    Ok(callees)
}

// ---- Arrays.

/// The structs and enums that stand beside a function, by name: what they are made of.
fn structs(function: &Json) -> Told<BTreeMap<&str, &Json>> {
    let mut found = BTreeMap::new();
    for one in function.get("types").and_then(Json::list).ok_or("a function without types")? {
        match (one.get("name"), one.get("shape")) {
            (Some(Json::Text(name)), Some(shape)) => found.insert(name.as_str(), shape),
            _ => return Err("a struct without a name".into()),
        };
    }
    Ok(found)
}

/// What is known of a function's types: its structs, the words of the longest array that was met, and the structs that the type now looked
/// at is within.
struct Found<'a> {
    structs: BTreeMap<&'a str, &'a Json>,
    longest: u64,
    within: Vec<&'a str>,
}

impl<'a> Found<'a> {
    /// Looks at every array in a function: of its arguments, its locals, what is behind its references, and the fields of the structs
    /// that it names, each of which must be known.
    fn of(function: &'a Json, given: &Given<'a>) -> Told<Self> {
        let generics = function.get("generics").ok_or("a function without generics")?;
        let many = |part| generics.get(part).and_then(Json::list).map(|all| all.len());
        if many("types") != Some(given.amounts.len()) || many("bounds") != Some(given.impls.len()) {
            return Err("it is generic in other than what is given".into());
        }
        let mut types = Vec::new();
        for part in ["locals", "body"] {
            function.get(part).ok_or_else(|| format!("a function without {part}"))?.each_type(&mut types);
        }
        let mut found = Found { structs: structs(function)?, longest: 0, within: Vec::new() };
        for kind in types {
            found.words(kind, &given.amounts)?;
        }
        Ok(found)
    }

    /// The words of a type, in which the parameters are given: a number has one for every 32 bits, begun ones too; an enum has one more
    /// than all its variants together.
    fn words(&mut self, kind: &'a Json, given: &[Amount]) -> Told<u64> {
        match (kind.head(), kind.inside()) {
            ("Unit", None) => Ok(0),
            ("Bool", None) => Ok(1),
            ("Ptr", None) => Ok(2),
            ("Ref", Some(Json::List(parts))) if parts.len() == 3 => {
                self.words(&parts[2], given)?;
                Ok(2)
            }
            ("Int" | "Float", Some(bits)) => Ok(bits.number()?.div_ceil(32)),
            ("Array" | "Vector", Some(Json::List(parts))) if parts.len() == 2 => {
                let words = self.words(&parts[0], given)?.saturating_mul(count(&parts[1], given)?);
                self.longest = self.longest.max(words);
                Ok(words)
            }
            ("Struct", Some(Json::List(parts))) if parts.len() == 2 => self.all(&parts[1], given),
            ("Fields", Some(types)) => self.all(types, given),
            ("Variants", Some(Json::List(variants))) => {
                variants.iter().try_fold(1u64, |sum, types| Ok(sum.saturating_add(self.all(types, given)?)))
            }
            ("Named", Some(Json::List(parts))) if parts.len() == 2 => self.named(&parts[0], &parts[1], given),
            ("Param", Some(place)) => match parameter(place, given)? {
                Amount::Words(words) => Ok(words),
                Amount::Number(_) => Err("a type that is a number".into()),
            },
            (other, _) => Err(format!("a type that is {other}")),
        }
    }

    fn all(&mut self, types: &'a Json, given: &[Amount]) -> Told<u64> {
        let types = types.list().ok_or("types that are no list")?;
        types.iter().try_fold(0u64, |sum, one| Ok(sum.saturating_add(self.words(one, given)?)))
    }

    /// A struct or an enum, and the types that are given to it.
    fn named(&mut self, which: &'a Json, types: &'a Json, given: &[Amount]) -> Told<u64> {
        let Some(Json::Text(name)) = which.get("name") else { return Err("a type without a name".into()) };
        if self.within.contains(&name.as_str()) {
            return Err(format!("{name} holds itself"));
        }
        let shape = *self.structs.get(name.as_str()).ok_or_else(|| format!("{name} is not told"))?;
        let inner = self.amounts(types, given)?;
        self.within.push(name);
        let words = self.words(shape, &inner)?;
        self.within.pop();
        Ok(words)
    }

    /// What types are given, or numbers, `{"Const": NUMBER}`.
    fn amounts(&mut self, types: &'a Json, given: &[Amount]) -> Told<Vec<Amount>> {
        let types = types.list().ok_or("types that are no list")?;
        let amount = |one: &'a Json| match (one.head(), one.inside()) {
            ("Const", Some(number)) => number.number().map(Amount::Number),
            ("Param", Some(place)) => parameter(place, given),
            _ => self.words(one, given).map(Amount::Words),
        };
        types.iter().map(amount).collect()
    }

    /// What a function gives to one that it calls: `{"types": TYPES, "dicts": IMPLS}`.
    fn given(&mut self, generic: &'a Json, given: &Given<'a>) -> Told<Given<'a>> {
        let (Some(types), Some(impls)) = (generic.get("types"), generic.get("dicts")) else {
            return Err("nothing is given".into());
        };
        self.both(types, impls, given)
    }

    fn both(&mut self, types: &'a Json, impls: &'a Json, given: &Given<'a>) -> Told<Given<'a>> {
        let amounts = self.amounts(types, &given.amounts)?;
        let impls = impls.list().ok_or("impls that are no list")?;
        let impls = impls.iter().map(|one| self.implemented(one, given)).collect::<Told<_>>()?;
        Ok(Given { amounts, impls })
    }

    /// The impl of a trait that is given: one that the function was given itself, or a named one.
    fn implemented(&mut self, one: &'a Json, given: &Given<'a>) -> Told<Instance<'a>> {
        match (one.head(), one.inside()) {
            ("Given", Some(place)) => {
                let place = place.number()? as usize;
                given.impls.get(place).cloned().ok_or_else(|| "an impl that is a parameter".into())
            }
            ("Impl", Some(value)) => match value.named_list() {
                Some((name, [types, impls])) => Ok(Instance { name, given: self.both(types, impls, given)? }),
                _ => Err("an impl without a name".into()),
            },
            (other, _) => Err(format!("an impl that is {other}")),
        }
    }
}

fn parameter(place: &Json, given: &[Amount]) -> Told<Amount> {
    given.get(place.number()? as usize).copied().ok_or_else(|| "a parameter for which nothing is given".into())
}

/// The length of an array: `{"Lit": COUNT}`, or a parameter.
fn count(length: &Json, given: &[Amount]) -> Told<u64> {
    match (length.head(), length.inside()) {
        ("Lit", Some(count)) => count.number(),
        ("Param", Some(place)) => match parameter(place, given)? {
            Amount::Number(count) => Ok(count),
            Amount::Words(_) => Err("a length that is a type".into()),
        },
        (other, _) => Err(format!("a length that is {other}")),
    }
}

// ---- JSON.

impl Json {
    /// The word or text that a value is, or the only key of an object.
    fn head(&self) -> &str {
        match self {
            Json::Text(text) | Json::Word(text) => text,
            Json::Object(members) if members.len() == 1 => &members[0].0,
            Json::Object(_) => "an object",
            Json::List(_) => "a list",
        }
    }

    /// What stands under the only key of an object.
    fn inside(&self) -> Option<&Json> {
        match self {
            Json::Object(members) if members.len() == 1 => Some(&members[0].1),
            _ => None,
        }
    }

    fn get(&self, key: &str) -> Option<&Json> {
        match self {
            Json::Object(members) => members.iter().find(|(name, _)| name == key).map(|(_, value)| value),
            _ => None,
        }
    }

    fn list(&self) -> Option<&[Json]> {
        match self {
            Json::List(values) => Some(values),
            _ => None,
        }
    }

    fn first(&self) -> Option<&Json> {
        self.list().and_then(|values| values.first())
    }

    /// A list that begins with a text: the text, and the rest.
    fn named_list(&self) -> Option<(&str, &[Json])> {
        match self.list() {
            Some([Json::Text(name), rest @ ..]) => Some((name, rest)),
            _ => None,
        }
    }

    fn number(&self) -> Told<u64> {
        self.head().parse().map_err(|_| format!("{} where a number should be", self.head()))
    }

    /// Shows each key of this value and of all within it, with what stands under it.
    fn each<'a>(&'a self, show: &mut impl FnMut(&'a str, &'a Json)) {
        match self {
            Json::List(values) => values.iter().for_each(|value| value.each(show)),
            Json::Object(members) => {
                for (key, value) in members {
                    show(key, value);
                    value.each(show);
                }
            }
            Json::Text(_) | Json::Word(_) => {}
        }
    }

    /// Adds each type in this value that may be or hold an array. A lifetime is `{"Named": NUMBER}`.
    fn each_type<'a>(&'a self, types: &mut Vec<&'a Json>) {
        match self {
            Json::List(values) => values.iter().for_each(|value| value.each_type(types)),
            Json::Object(members) => {
                if let ("Array" | "Vector" | "Named", Some(Json::List(_))) = (self.head(), self.inside()) {
                    types.push(self);
                }
                members.iter().for_each(|(_, value)| value.each_type(types));
            }
            Json::Text(_) | Json::Word(_) => {}
        }
    }
}

/// The text as one value.
fn parsed(text: &str) -> Told<Json> {
    let mut rest = text;
    let value = value(&mut rest)?;
    skip(&mut rest);
    if rest.is_empty() {
        Ok(value)
    } else {
        Err(format!("more than one value: {}", rest.chars().take(40).collect::<String>()))
    }
}

fn value(rest: &mut &str) -> Told<Json> {
    skip(rest);
    if taken(rest, "[") {
        let mut values = Vec::new();
        while next(rest, "]", values.is_empty())? {
            values.push(value(rest)?);
        }
        Ok(Json::List(values))
    } else if taken(rest, "{") {
        let mut members = Vec::new();
        while next(rest, "}", members.is_empty())? {
            skip(rest);
            let Json::Text(key) = value(rest)? else { return Err("a key that is no text".into()) };
            skip(rest);
            if !taken(rest, ":") {
                return Err(format!("no colon after {key}"));
            }
            members.push((key, value(rest)?));
        }
        Ok(Json::Object(members))
    } else if taken(rest, "\"") {
        // No name has a backslash: texts that do are kept as they are written.
        let mut end = 0;
        while !rest[end..].starts_with('"') {
            let mut next = rest[end..].chars();
            let whole = next.next().ok_or("a text without an end")?;
            end += whole.len_utf8() + if whole == '\\' { next.next().map_or(0, char::len_utf8) } else { 0 };
        }
        let text = rest[..end].to_string();
        *rest = &rest[end + 1..];
        Ok(Json::Text(text))
    } else {
        let end = rest.find(|next: char| !next.is_ascii_alphanumeric() && next != '-' && next != '.').unwrap_or(rest.len());
        let word = rest[..end].to_string();
        *rest = &rest[end..];
        if word.is_empty() {
            Err("a value is missing".into())
        } else {
            Ok(Json::Word(word))
        }
    }
}

/// Whether a list or an object goes on with another part; takes the comma before it, or the end.
fn next(rest: &mut &str, end: &str, is_first: bool) -> Told<bool> {
    skip(rest);
    if taken(rest, end) {
        Ok(false)
    } else if is_first || taken(rest, ",") {
        Ok(true)
    } else {
        Err(format!("no comma and no {end}"))
    }
}

fn taken(rest: &mut &str, first: &str) -> bool {
    match rest.strip_prefix(first) {
        Some(left) => {
            *rest = left;
            true
        }
        None => false,
    }
}

fn skip(rest: &mut &str) {
    *rest = rest.trim_start();
}
