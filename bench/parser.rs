// Lexer and parser in plain Rust, as a baseline: `parser FILE` reads a specification as `rsml check` does, and prints the first fault
// of its syntax as it does.
#[allow(dead_code)]
mod lexer {
    include!("lexer.rs");

    pub mod parser {
        use super::{lex, Mark, Placed, Token, Word};
        use std::{env, fs};

        type Name = Vec<u8>;

        pub struct Spec { name: Name, decls: Vec<Decl>, top: Name, body: Body }
        pub struct Signed { minus: bool, digits: u32 }
        pub enum Amount { Number(u32), Name(Name) }
        pub enum Index { Number(u32), Name(Name), This }
        pub struct Mention { name: Name, index: Option<Index> }
        pub enum Initial { Number(Signed), Name(Name) }
        pub enum Decl {
            Enumeration { name: Name, values: Vec<Name> },
            Range { name: Name, low: Signed, high: Signed },
            Constant { name: Name, value: Signed },
            Input { name: Name, size: Option<Amount>, kind: Name, initial: Initial },
            Event { name: Name, size: Option<Amount> },
            Macro { name: Name, size: Option<Amount>, rows: Vec<Row> },
            Function { name: Name, size: Option<Amount>, cases: Vec<Case> },
            Receive { name: Name, size: Option<Amount>, inputs: Vec<Mention>, raised: Mention },
            Send { name: Name, size: Option<Amount>, fields: Vec<Name>, cases: Vec<SendCase> },
        }
        pub struct Case { value: Sum, guard: Guard }
        pub struct SendCase { trigger: Mention, guard: Guard, answer: Answer }
        pub enum Answer { Quiet, Values(Vec<Value>) }
        pub enum Value { Sum(Sum), Function(Mention) }
        pub struct StateDecl { name: Name, size: Option<Amount>, body: Body }
        pub enum Body {
            Basic,
            One { first: Name, children: Vec<StateDecl>, buses: Vec<Bus>, transitions: Vec<Transition> },
            All { children: Vec<StateDecl> },
        }
        pub struct Bus { name: Name, members: Vec<Name> }
        pub struct Transition { source: Name, target: Option<Vec<Name>>, trigger: Mention, guard: Guard, raises: Vec<Mention> }
        pub enum Guard { Always, Table(Vec<Row>) }
        pub struct Row { phrase: Phrase, cells: Vec<Cell> }
        pub enum Cell { T, F, Dot }
        pub enum Phrase {
            Plain(Simple),
            Any { variable: Name, bound: Amount, body: Simple },
            Every { variable: Name, bound: Amount, body: Simple },
        }
        pub enum Simple {
            In(Vec<Mention>),
            Macro(Mention),
            Compare { left: Sum, relation: Relation, right: Sum },
            Function { function: Mention, relation: Relation, right: Sum },
        }
        pub enum Relation { Equal, NotEqual, Less, LessEqual, Greater, GreaterEqual }
        pub struct Sum { terms: Vec<Term> }
        pub struct Term { minus: bool, operand: Operand }
        pub enum Operand { Number(u32), Mention(Mention), Previous(Mention) }

        pub enum Fault { Syntax, TooDeep }
        type Read<T> = Result<T, Fault>;

        pub struct Reader<'a> { rest: &'a [Placed] }

        impl Reader<'_> {
            fn sees_word(&self, word: Word) -> bool { matches!(self.rest, [Placed { token: Token::Word(found), .. }, ..] if *found == word) }
            fn sees_mark(&self, mark: Mark) -> bool { matches!(self.rest, [Placed { token: Token::Mark(found), .. }, ..] if *found == mark) }
            fn sees_name(&self) -> bool { matches!(self.rest, [Placed { token: Token::Name(_), .. }, ..]) }
            fn sees_number(&self) -> bool { matches!(self.rest, [Placed { token: Token::Number(_), .. }, ..]) }
            fn goes_on(&self, mark: Mark) -> bool { !self.rest.is_empty() && !self.sees_mark(mark) }
            fn skip(&mut self) { self.rest = &self.rest[1..]; }
            fn word(&mut self, word: Word) -> Read<()> {
                if !self.sees_word(word) { return Err(Fault::Syntax); }
                self.skip();
                Ok(())
            }
            fn mark(&mut self, mark: Mark) -> Read<()> {
                if !self.sees_mark(mark) { return Err(Fault::Syntax); }
                self.skip();
                Ok(())
            }
            fn name(&mut self) -> Read<Name> {
                let [Placed { token: Token::Name(found), .. }, ..] = self.rest else { return Err(Fault::Syntax) };
                let name = found.clone();
                self.skip();
                Ok(name)
            }
            fn number(&mut self) -> Read<u32> {
                let [Placed { token: Token::Number(found), .. }, ..] = self.rest else { return Err(Fault::Syntax) };
                let number = *found;
                self.skip();
                Ok(number)
            }
            /// Whether the word is next, which is then skipped.
            fn took_word(&mut self, word: Word) -> bool {
                let sees = self.sees_word(word);
                if sees { self.skip(); }
                sees
            }
            fn took_mark(&mut self, mark: Mark) -> bool {
                let sees = self.sees_mark(mark);
                if sees { self.skip(); }
                sees
            }
        }

        fn separated<T>(r: &mut Reader, mark: Mark, item: fn(&mut Reader) -> Read<T>) -> Read<Vec<T>> {
            let mut found = vec![item(r)?];
            while r.took_mark(mark) { found.push(item(r)?); }
            Ok(found)
        }
        fn until<T>(r: &mut Reader, mark: Mark, item: fn(&mut Reader) -> Read<T>) -> Read<Vec<T>> {
            let mut found = Vec::new();
            while r.goes_on(mark) { found.push(item(r)?); }
            r.mark(mark)?;
            Ok(found)
        }
        fn in_parentheses<T>(r: &mut Reader, item: fn(&mut Reader) -> Read<T>) -> Read<Vec<T>> {
            r.mark(Mark::OpenParen)?;
            if r.took_mark(Mark::CloseParen) { return Ok(Vec::new()); }
            let found = separated(r, Mark::Comma, item)?;
            r.mark(Mark::CloseParen)?;
            Ok(found)
        }

        fn name(r: &mut Reader) -> Read<Name> { r.name() }
        fn signed(r: &mut Reader) -> Read<Signed> { Ok(Signed { minus: r.took_mark(Mark::Minus), digits: r.number()? }) }
        fn amount(r: &mut Reader) -> Read<Amount> {
            if r.sees_number() { return Ok(Amount::Number(r.number()?)); }
            Ok(Amount::Name(r.name()?))
        }
        fn bracketed_amount(r: &mut Reader) -> Read<Amount> {
            r.mark(Mark::OpenBracket)?;
            let amount = amount(r)?;
            r.mark(Mark::CloseBracket)?;
            Ok(amount)
        }
        fn size(r: &mut Reader) -> Read<Option<Amount>> {
            if r.sees_mark(Mark::OpenBracket) { return Ok(Some(bracketed_amount(r)?)); }
            Ok(None)
        }
        fn index(r: &mut Reader) -> Read<Index> {
            if r.sees_number() { return Ok(Index::Number(r.number()?)); }
            if r.sees_name() { return Ok(Index::Name(r.name()?)); }
            r.word(Word::This)?;
            Ok(Index::This)
        }
        fn indexed(r: &mut Reader) -> Read<Option<Index>> {
            if !r.took_mark(Mark::OpenBracket) { return Ok(None); }
            let index = index(r)?;
            r.mark(Mark::CloseBracket)?;
            Ok(Some(index))
        }
        fn mention(r: &mut Reader) -> Read<Mention> { Ok(Mention { name: r.name()?, index: indexed(r)? }) }
        fn initial(r: &mut Reader) -> Read<Initial> {
            if r.sees_name() { return Ok(Initial::Name(r.name()?)); }
            Ok(Initial::Number(signed(r)?))
        }

        fn operand(r: &mut Reader) -> Read<Operand> {
            if r.sees_number() { return Ok(Operand::Number(r.number()?)); }
            if r.took_word(Word::Previous) { return Ok(Operand::Previous(mention(r)?)); }
            Ok(Operand::Mention(mention(r)?))
        }
        fn sum(r: &mut Reader) -> Read<Sum> {
            let mut terms = vec![Term { minus: r.took_mark(Mark::Minus), operand: operand(r)? }];
            while r.sees_mark(Mark::Plus) || r.sees_mark(Mark::Minus) {
                let minus = r.sees_mark(Mark::Minus);
                r.skip();
                terms.push(Term { minus, operand: operand(r)? });
            }
            Ok(Sum { terms })
        }
        fn relation(r: &mut Reader) -> Read<Relation> {
            if r.took_mark(Mark::Equal) { return Ok(Relation::Equal); }
            if r.took_mark(Mark::NotEqual) { return Ok(Relation::NotEqual); }
            if r.took_mark(Mark::Less) { return Ok(Relation::Less); }
            if r.took_mark(Mark::LessEqual) { return Ok(Relation::LessEqual); }
            if r.took_mark(Mark::Greater) { return Ok(Relation::Greater); }
            r.mark(Mark::GreaterEqual)?;
            Ok(Relation::GreaterEqual)
        }
        fn simple(r: &mut Reader) -> Read<Simple> {
            if r.took_word(Word::In) { return Ok(Simple::In(separated(r, Mark::Dot, mention)?)); }
            if r.took_word(Word::Macro) { return Ok(Simple::Macro(mention(r)?)); }
            if r.took_word(Word::Function) { return Ok(Simple::Function { function: mention(r)?, relation: relation(r)?, right: sum(r)? }); }
            Ok(Simple::Compare { left: sum(r)?, relation: relation(r)?, right: sum(r)? })
        }
        fn quantified(r: &mut Reader) -> Read<(Name, Amount, Simple)> {
            let variable = r.name()?;
            r.word(Word::Of)?;
            let bound = amount(r)?;
            r.mark(Mark::Colon)?;
            Ok((variable, bound, simple(r)?))
        }
        fn phrase(r: &mut Reader) -> Read<Phrase> {
            if r.took_word(Word::Any) {
                let (variable, bound, body) = quantified(r)?;
                return Ok(Phrase::Any { variable, bound, body });
            }
            if r.took_word(Word::Every) {
                let (variable, bound, body) = quantified(r)?;
                return Ok(Phrase::Every { variable, bound, body });
            }
            Ok(Phrase::Plain(simple(r)?))
        }

        fn cell(r: &mut Reader) -> Read<Cell> {
            if r.took_word(Word::T) { return Ok(Cell::T); }
            if r.took_word(Word::F) { return Ok(Cell::F); }
            r.mark(Mark::Dot)?;
            Ok(Cell::Dot)
        }
        fn row(r: &mut Reader) -> Read<Row> {
            let phrase = phrase(r)?;
            r.mark(Mark::Bar)?;
            Ok(Row { phrase, cells: until(r, Mark::Semicolon, cell)? })
        }
        fn table(r: &mut Reader) -> Read<Vec<Row>> {
            r.mark(Mark::OpenBrace)?;
            until(r, Mark::CloseBrace, row)
        }
        fn when_guard(r: &mut Reader) -> Read<Guard> {
            r.word(Word::When)?;
            if r.took_word(Word::Always) { return Ok(Guard::Always); }
            Ok(Guard::Table(table(r)?))
        }
        fn case_of(r: &mut Reader) -> Read<Case> {
            let case = Case { value: sum(r)?, guard: when_guard(r)? };
            r.mark(Mark::Semicolon)?;
            Ok(case)
        }
        fn value(r: &mut Reader) -> Read<Value> {
            if r.took_word(Word::Function) { return Ok(Value::Function(mention(r)?)); }
            Ok(Value::Sum(sum(r)?))
        }
        fn answer(r: &mut Reader) -> Read<Answer> {
            if r.took_word(Word::Quiet) { return Ok(Answer::Quiet); }
            Ok(Answer::Values(in_parentheses(r, value)?))
        }
        fn send_case(r: &mut Reader) -> Read<SendCase> {
            r.word(Word::On)?;
            let case = SendCase { trigger: mention(r)?, guard: when_guard(r)?, answer: answer(r)? };
            r.mark(Mark::Semicolon)?;
            Ok(case)
        }

        fn closed(r: &mut Reader, mark: Mark, decl: Decl) -> Read<Decl> {
            r.mark(mark)?;
            Ok(decl)
        }
        fn after<T>(r: &mut Reader, mark: Mark, item: fn(&mut Reader) -> Read<T>) -> Read<T> {
            r.mark(mark)?;
            item(r)
        }
        fn declaration(r: &mut Reader) -> Read<Decl> {
            if r.took_word(Word::Enumeration) {
                let decl = Decl::Enumeration { name: r.name()?, values: after(r, Mark::OpenBrace, |r| separated(r, Mark::Comma, name))? };
                return closed(r, Mark::CloseBrace, decl);
            }
            if r.took_word(Word::Range) {
                let decl = Decl::Range { name: r.name()?, low: signed(r)?, high: after(r, Mark::DotDot, signed)? };
                return closed(r, Mark::Semicolon, decl);
            }
            if r.took_word(Word::Constant) {
                let decl = Decl::Constant { name: r.name()?, value: after(r, Mark::Equal, signed)? };
                return closed(r, Mark::Semicolon, decl);
            }
            if r.took_word(Word::Input) {
                let decl = Decl::Input { name: r.name()?, size: size(r)?, kind: after(r, Mark::Colon, name)?, initial: after(r, Mark::Equal, initial)? };
                return closed(r, Mark::Semicolon, decl);
            }
            if r.took_word(Word::Event) {
                let decl = Decl::Event { name: r.name()?, size: size(r)? };
                return closed(r, Mark::Semicolon, decl);
            }
            if r.took_word(Word::Macro) { return Ok(Decl::Macro { name: r.name()?, size: size(r)?, rows: table(r)? }); }
            if r.took_word(Word::Function) {
                return Ok(Decl::Function { name: r.name()?, size: size(r)?, cases: after(r, Mark::OpenBrace, |r| until(r, Mark::CloseBrace, case_of))? });
            }
            if r.took_word(Word::Receive) {
                let (name, size, inputs) = (r.name()?, size(r)?, in_parentheses(r, mention)?);
                r.word(Word::Raise)?;
                let decl = Decl::Receive { name, size, inputs, raised: mention(r)? };
                return closed(r, Mark::Semicolon, decl);
            }
            r.word(Word::Send)?;
            let (name, size, fields) = (r.name()?, size(r)?, in_parentheses(r, name)?);
            Ok(Decl::Send { name, size, fields, cases: after(r, Mark::OpenBrace, |r| until(r, Mark::CloseBrace, send_case))? })
        }

        fn bus(r: &mut Reader) -> Read<Bus> {
            r.word(Word::Bus)?;
            let bus = Bus { name: r.name()?, members: after(r, Mark::OpenBrace, |r| separated(r, Mark::Comma, name))? };
            r.mark(Mark::CloseBrace)?;
            Ok(bus)
        }
        fn transition(r: &mut Reader) -> Read<Transition> {
            let (source, target) = if r.took_word(Word::Move) {
                (r.name()?, Some(after(r, Mark::Arrow, |r| separated(r, Mark::Dot, name))?))
            } else {
                r.word(Word::Stay)?;
                (r.name()?, None)
            };
            r.word(Word::On)?;
            let (trigger, guard) = (mention(r)?, when_guard(r)?);
            let raises = if r.took_word(Word::Raise) { separated(r, Mark::Comma, mention)? } else { Vec::new() };
            r.mark(Mark::Semicolon)?;
            Ok(Transition { source, target, trigger, guard, raises })
        }
        fn children(r: &mut Reader, room: usize) -> Read<Vec<StateDecl>> {
            let mut found = Vec::new();
            while r.sees_word(Word::State) || r.sees_word(Word::Array) {
                if room == 0 { return Err(Fault::TooDeep); }
                let is_array = r.took_word(Word::Array);
                if !is_array { r.skip(); }
                let (name, size) = (r.name()?, if is_array { Some(bracketed_amount(r)?) } else { None });
                found.push(StateDecl { name, size, body: body(r, room - 1)? });
            }
            Ok(found)
        }
        fn body(r: &mut Reader, room: usize) -> Read<Body> {
            if r.took_mark(Mark::Semicolon) { return Ok(Body::Basic); }
            if r.took_word(Word::One) {
                r.mark(Mark::OpenBrace)?;
                r.word(Word::Default)?;
                let first = r.name()?;
                r.mark(Mark::Semicolon)?;
                let children = children(r, room)?;
                let mut buses = Vec::new();
                while r.sees_word(Word::Bus) { buses.push(bus(r)?); }
                return Ok(Body::One { first, children, buses, transitions: until(r, Mark::CloseBrace, transition)? });
            }
            r.word(Word::All)?;
            r.mark(Mark::OpenBrace)?;
            let children = children(r, room)?;
            r.mark(Mark::CloseBrace)?;
            Ok(Body::All { children })
        }
        fn specification(r: &mut Reader) -> Read<Spec> {
            r.word(Word::Specification)?;
            let name = r.name()?;
            r.mark(Mark::Semicolon)?;
            let mut decls = Vec::new();
            while !r.rest.is_empty() && !r.sees_word(Word::State) { decls.push(declaration(r)?); }
            r.word(Word::State)?;
            let spec = Spec { name, decls, top: r.name()?, body: body(r, 15)? };
            if r.rest.is_empty() { Ok(spec) } else { Err(Fault::Syntax) }
        }
        fn parse(tokens: &[Placed]) -> Result<Spec, (Fault, usize)> {
            let mut reader = Reader { rest: tokens };
            specification(&mut reader).map_err(|fault| (fault, tokens.len() - reader.rest.len() + 1))
        }

        pub fn run() {
            let text = fs::read(env::args().nth(1).expect("a name")).expect("a file");
            let tokens = lex(&text).expect("tokens");
            match parse(&tokens) {
                Ok(_) => println!("no fault"),
                Err((Fault::Syntax, token)) => println!("fault syntax token {token}"),
                Err((Fault::TooDeep, token)) => println!("fault depth token {token}"),
            }
        }
    }
}

fn main() {
    lexer::parser::run();
}
