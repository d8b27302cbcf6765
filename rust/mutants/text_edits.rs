/// The bugs of the reader of texts; `place:` are those that only 19's place shows.
const TEXT_EDITS: &[Edit] = &[
    // Bytes to words.
    (
        "tab is a blank",
        "words.rs",
        r#"«matches!(byte, b' ' | b'\n' | b'\r')»"#,
        r#"matches!(byte, b' ' | b'\n' | b'\r' | b'\t')"#,
    ),
    (
        "form feed is a blank",
        "words.rs",
        r#"«matches!(byte, b' ' | b'\n' | b'\r')»"#,
        r#"matches!(byte, b' ' | b'\n' | b'\r' | 12)"#,
    ),
    ("every control is a blank", "words.rs", r#"«matches!(byte, b' ' | b'\n' | b'\r')»"#, "*byte <= b' '"),
    (
        "byte 0 is a blank",
        "words.rs",
        r#"«matches!(byte, b' ' | b'\n' | b'\r')»"#,
        r#"matches!(byte, b' ' | b'\n' | b'\r' | 0)"#,
    ),
    (
        "carriage return is no blank",
        "words.rs",
        r#"«matches!(byte, b' ' | b'\n' | b'\r')»"#,
        r#"matches!(byte, b' ' | b'\n')"#,
    ),
    (
        "line feed is no blank",
        "words.rs",
        r#"«matches!(byte, b' ' | b'\n' | b'\r')»"#,
        r#"matches!(byte, b' ' | b'\r')"#,
    ),
    (
        "opening bracket does not part words",
        "words.rs",
        "let length = «rest.iter().position(is_bracket)»",
        "rest.iter().position(|byte| *byte == b')' || *byte == b'(' && rest[0] == b'(')",
    ),
    (
        "closing bracket does not part words",
        "words.rs",
        "let length = «rest.iter().position(is_bracket)»",
        "rest.iter().position(|byte| *byte == b'(' || *byte == b')' && rest[0] == b')')",
    ),
    (
        "words are cut after 16",
        "words.rs",
        "let length = «rest.iter().position(is_bracket)»",
        "rest.iter().position(is_bracket).or((rest.len() > 16).then_some(16)).map(|length| length.min(16))",
    ),
    // What a word is.
    ("name of 17", "words.rs", "«word.len() <= LONGEST_NAME»", "word.len() <= 17"),
    ("name of 15 at most", "words.rs", "«word.len() <= LONGEST_NAME»", "word.len() <= 15"),
    ("name of any length", "words.rs", "«word.len() <= LONGEST_NAME»", "true"),
    (
        "name may begin with a digit",
        "words.rs",
        "«word.first().is_some_and(u8::is_ascii_lowercase)»",
        "word.first().is_some_and(|byte| byte.is_ascii_lowercase() || byte.is_ascii_digit())",
    ),
    (
        "name may begin with a star",
        "words.rs",
        "«word.first().is_some_and(u8::is_ascii_lowercase)»",
        "word.first().is_some_and(|byte| byte.is_ascii_lowercase() || *byte == b'*')",
    ),
    (
        "name may not begin with z",
        "words.rs",
        "«word.first().is_some_and(u8::is_ascii_lowercase)»",
        "word.first().is_some_and(|byte| (b'a'..b'z').contains(byte))",
    ),
    (
        "name may hold capitals",
        "words.rs",
        "let may_follow = |byte: &u8| «byte.is_ascii_lowercase()»",
        "byte.is_ascii_alphabetic()",
    ),
    (
        "name may hold `",
        "words.rs",
        "let may_follow = |byte: &u8| «byte.is_ascii_lowercase()»",
        "(b'`'..=b'z').contains(byte)",
    ),
    (
        "name may hold {",
        "words.rs",
        "let may_follow = |byte: &u8| «byte.is_ascii_lowercase()»",
        "(b'a'..=b'{').contains(byte)",
    ),
    ("name may not hold digits", "words.rs", "|| «byte.is_ascii_digit()» ||", "false"),
    ("name may not hold 9", "words.rs", "|| «byte.is_ascii_digit()» ||", "(byte.is_ascii_digit() && *byte != b'9')"),
    ("name may hold :", "words.rs", "|| «byte.is_ascii_digit()» ||", "(b'0'..=b':').contains(byte)"),
    ("name may hold /", "words.rs", "|| «byte.is_ascii_digit()» ||", "(b'/'..=b'9').contains(byte)"),
    ("name may hold an underscore", "words.rs", r#"«b"-*".contains(byte)»"#, r#"b"-*_".contains(byte)"#),
    ("name may not hold a star", "words.rs", r#"«b"-*".contains(byte)»"#, "*byte == b'-'"),
    ("name may not hold a hyphen", "words.rs", r#"«b"-*".contains(byte)»"#, "*byte == b'*'"),
    ("name may hold operators", "words.rs", r#"«b"-*".contains(byte)»"#, r#"b"-*+/<>=!".contains(byte)"#),
    (
        "only eight bytes of a name count",
        "words.rs",
        "&& «word.iter().all(may_follow)»",
        "word.iter().take(8).all(may_follow)",
    ),
    (
        "inf is not reserved",
        "words.rs",
        "RESERVED.iter().any(|reserved| «reserved.as_bytes() == word»)",
        r#"reserved.as_bytes() == word && word != b"inf""#,
    ),
    (
        "nbr-lag is not reserved",
        "words.rs",
        "RESERVED.iter().any(|reserved| «reserved.as_bytes() == word»)",
        r#"reserved.as_bytes() == word && word != b"nbr-lag""#,
    ),
    (
        "nbr-range is not reserved",
        "words.rs",
        "RESERVED.iter().any(|reserved| «reserved.as_bytes() == word»)",
        r#"reserved.as_bytes() == word && word != b"nbr-range""#,
    ),
    (
        "def is not reserved",
        "words.rs",
        "RESERVED.iter().any(|reserved| «reserved.as_bytes() == word»)",
        r#"reserved.as_bytes() == word && word != b"def""#,
    ),
    (
        "fold-hood* is not reserved",
        "words.rs",
        "RESERVED.iter().any(|reserved| «reserved.as_bytes() == word»)",
        r#"reserved.as_bytes() == word && word != b"fold-hood*""#,
    ),
    (
        "sense is not reserved",
        "words.rs",
        "RESERVED.iter().any(|reserved| «reserved.as_bytes() == word»)",
        r#"reserved.as_bytes() == word && word != b"sense""#,
    ),
    (
        "mux is not reserved",
        "words.rs",
        "RESERVED.iter().any(|reserved| «reserved.as_bytes() == word»)",
        r#"reserved.as_bytes() == word && word != b"mux""#,
    ),
    (
        "share is reserved",
        "words.rs",
        "RESERVED.iter().any(|reserved| «reserved.as_bytes() == word»)",
        r#"reserved.as_bytes() == word || word == b"share""#,
    ),
    (
        "floor is reserved",
        "words.rs",
        "RESERVED.iter().any(|reserved| «reserved.as_bytes() == word»)",
        r#"reserved.as_bytes() == word || word == b"floor""#,
    ),
    (
        "fold-hood is reserved",
        "words.rs",
        "RESERVED.iter().any(|reserved| «reserved.as_bytes() == word»)",
        r#"reserved.as_bytes() == word || word == b"fold-hood""#,
    ),
    (
        "what begins with a reserved word is reserved",
        "words.rs",
        "RESERVED.iter().any(|reserved| «reserved.as_bytes() == word»)",
        "word.starts_with(reserved.as_bytes())",
    ),
    (
        "no < among operators",
        "words.rs",
        "OPERATORS.iter().position(|operator| «operator.as_bytes() == word»)",
        r#"operator.as_bytes() == word && word != b"<""#,
    ),
    (
        "= is ==",
        "words.rs",
        "OPERATORS.iter().position(|operator| «operator.as_bytes() == word»)",
        r#"operator.as_bytes() == word || word == b"=" && *operator == "==""#,
    ),
    (
        "<= is <",
        "words.rs",
        "OPERATORS.iter().position(|operator| «operator.as_bytes() == word»)",
        r#"operator.as_bytes() == word || word == b"<=" && *operator == "<""#,
    ),
    (
        "> and >= change places",
        "words.rs",
        "OPERATORS.iter().position(|operator| «operator.as_bytes() == word»)",
        r#"operator.as_bytes() == match word { b">" => &b">="[..], b">=" => b">", other => other }"#,
    ),
    (
        "== and != change places",
        "words.rs",
        "OPERATORS.iter().position(|operator| «operator.as_bytes() == word»)",
        r#"operator.as_bytes() == match word { b"==" => &b"!="[..], b"!=" => b"==", other => other }"#,
    ),
    (
        "- is +",
        "words.rs",
        "OPERATORS.iter().position(|operator| «operator.as_bytes() == word»)",
        r#"operator.as_bytes() == word || word == b"-" && *operator == "+""#,
    ),
    ("inf is one less", "words.rs", "return «Some(i32::MAX)»;", "Some(i32::MAX - 1)"),
    ("inf is no number", "words.rs", r#"if «word == b"inf"» {"#, "false"),
    (
        "-inf is a number",
        "words.rs",
        r#"if «word == b"inf"» {"#,
        r#"if word == b"-inf" { return Some(-i32::MAX); } word == b"inf""#,
    ),
    ("floor is a number", "words.rs", r#"if «word == b"inf"» {"#, r#"word == b"inf" || word == b"floor""#),
    (
        "two minuses",
        "words.rs",
        r#"let digits = «word.strip_prefix(b"-").unwrap_or(word)»;"#,
        r#"word.strip_prefix(b"--").or(word.strip_prefix(b"-")).unwrap_or(word)"#,
    ),
    (
        "plus before a number",
        "words.rs",
        r#"let digits = «word.strip_prefix(b"-").unwrap_or(word)»;"#,
        r#"word.strip_prefix(b"-").or(word.strip_prefix(b"+")).unwrap_or(word)"#,
    ),
    ("no minus", "words.rs", r#"let digits = «word.strip_prefix(b"-").unwrap_or(word)»;"#, "word"),
    ("minus alone is 0", "words.rs", "if «digits.is_empty()» ||", "word.is_empty()"),
    (
        "number ends at its first other byte",
        "words.rs",
        "|| «!digits.iter().all(u8::is_ascii_digit)» {",
        "!digits[0].is_ascii_digit()",
    ),
    (
        "no leading zeros",
        "words.rs",
        "let zeros = «digits.iter().take_while(|digit| **digit == b'0').count()»;",
        "let zeros = digits.iter().take_while(|digit| **digit == b'0').count(); if zeros > 0 && digits.len() > 1 { return None; } zeros",
    ),
    (
        "leading zeros count as digits",
        "words.rs",
        "let zeros = «digits.iter().take_while(|digit| **digit == b'0').count()»;",
        "0",
    ),
    (
        "2147483648 passes",
        "words.rs",
        "if «(counting.len(), counting) > (LARGEST.len(), LARGEST)» {",
        r#"if counting == b"2147483648" { return Some(i32::MIN); } (counting.len(), counting) > (LARGEST.len(), LARGEST)"#,
    ),
    (
        "2147483647 does not pass",
        "words.rs",
        "if «(counting.len(), counting) > (LARGEST.len(), LARGEST)» {",
        "(counting.len(), counting) >= (LARGEST.len(), LARGEST)",
    ),
    (
        "-2147483648 passes",
        "words.rs",
        "if «(counting.len(), counting) > (LARGEST.len(), LARGEST)» {",
        r#"if word == b"-2147483648" { return Some(i32::MIN); } (counting.len(), counting) > (LARGEST.len(), LARGEST)"#,
    ),
    (
        "large numbers become inf",
        "words.rs",
        "if «(counting.len(), counting) > (LARGEST.len(), LARGEST)» {",
        "if (counting.len(), counting) > (LARGEST.len(), LARGEST) { return Some(if word[0] == b'-' { -i32::MAX } else { i32::MAX }); } false",
    ),
    (
        "numbers come round",
        "words.rs",
        "if «(counting.len(), counting) > (LARGEST.len(), LARGEST)» {",
        "if counting.len() > 9 { return Some(counting.iter().fold(0, |size: i32, digit| size.wrapping_mul(10).wrapping_add(i32::from(digit - b'0')))); } false",
    ),
    ("minus is dropped", "words.rs", "Some(«if digits.len() < word.len() { -size } else { size }»)", "size"),
    // Trees.
    ("brackets left open at the end", "text.rs", "«around.is_empty()».then_some", "true"),
    (
        "() is an expression",
        "text.rs",
        "let (first, items) = «list.split_first()?»;",
        "match list.split_first() { Some(pair) => pair, None => return Some(Expression { head: Head::Constant(0), operands: Vec::new() }) }",
    ),
    ("sense takes any number", "text.rs", r#"b"sense" => (Head::Sense, items, «1»)"#, "items.len()"),
    ("if without else", "text.rs", r#"b"if" => (Head::If, items, «3»)"#, "items.len().clamp(2, 3)"),
    ("mux of four", "text.rs", r#"b"mux" => (Head::Mux, items, «3»)"#, "items.len().clamp(3, 4)"),
    ("nbr without a child", "text.rs", r#"b"nbr" => (Head::Nbr, items, «1»)"#, "items.len().min(1)"),
    ("nbr-range with a child", "text.rs", r#"b"nbr-range" => (Head::NbrRange, items, «0»)"#, "items.len().min(1)"),
    ("nbr-lag with a child", "text.rs", r#"b"nbr-lag" => (Head::NbrLag, items, «0»)"#, "items.len().min(1)"),
    ("operator of any number", "text.rs", "(Head::Operator(words::operator(other)?), items, «2»)", "items.len()"),
    ("operator of one", "text.rs", "(Head::Operator(words::operator(other)?), items, «2»)", "items.len().clamp(1, 2)"),
    ("call of at most four", "text.rs", "(Head::Call(name), items, «items.len()»)", "items.len().min(4)"),
    ("call of at least one", "text.rs", "(Head::Call(name), items, «items.len()»)", "items.len().max(1)"),
    (
        "fold by any word",
        "text.rs",
        "«words::is_own(function)».then_some(Head::FoldByDefinition",
        "words::is_name(function)",
    ),
    ("fold by operators only", "text.rs", "«words::is_own(function)».then_some(Head::FoldByDefinition", "false"),
    (
        "rep of a reserved name is outside the grammar",
        "text.rs",
        "led().filter(|(name, _)| «words::is_name(name)»)",
        "words::is_own(name)",
    ),
    ("rep of any word", "text.rs", "led().filter(|(name, _)| «words::is_name(name)»)", "true"),
    ("reserved words are expressions", "text.rs", "let name = || «words::is_own(word)»", "words::is_name(word)"),
    ("five parameters", "text.rs", "parameters.len() <= «4»", "5"),
    ("three parameters at most", "text.rs", "parameters.len() <= «4»", "3"),
    (
        "definition of a reserved name is outside the grammar",
        "text.rs",
        "let named = «words::is_name(name)» &&",
        "words::is_own(name)",
    ),
    (
        "reserved parameter is outside the grammar",
        "text.rs",
        "parameters.iter().all(|parameter| «words::is_name(parameter)»)",
        "words::is_own(parameter)",
    ),
    ("any word as parameter", "text.rs", "parameters.iter().all(|parameter| «words::is_name(parameter)»)", "true"),
    ("any word as definition", "text.rs", "let named = «words::is_name(name)» &&", "true"),
    (
        "definition by any head",
        "text.rs",
        r#"let fine = «word(things, def)? == b"def"» &&"#,
        "word(things, def).is_some()",
    ),
    (
        "last definition is main",
        "text.rs",
        "«expressions[*main].as_ref()?;»",
        "if expressions[*main].is_none() && definition(&things, &expressions, *main).is_some() { expressions[*main] = Some(Expression { head: Head::Constant(0), operands: Vec::new() }); } expressions[*main].as_ref()?;",
    ),
    // Names.
    (
        "unknown definition passes as 0",
        "text.rs",
        "self.bad_name |= «number.is_none()»;",
        "self.definitions.is_empty() && number.is_none()",
    ),
    (
        "unknown name passes as a parameter",
        "text.rs",
        r#"None => {
                «self.bad_name = true;»
                vec![]"#,
        "return vec![1, 0];",
    ),
    (
        "definitions are values",
        "text.rs",
        r#"None => {
                «self.bad_name = true;»
                vec![]"#,
        "if self.definitions.contains_key(name) { return vec![12, self.definition(name)]; } self.bad_name = true;",
    ),
    ("outer binder counts", "text.rs", "self.bound.get(name).and_then(|all| «all.last()»)", "all.first()"),
    (
        "rep binds in its initial part too",
        "text.rs",
        r#"steps.extend(«[
                            Step::Unbind(name),
                            Step::Enter(update),
                            Step::Bind(name, Meaning::Variable(variable)),
                            Step::Enter(initial),
                        ]»)"#,
        "[Step::Unbind(name), Step::Enter(update), Step::Enter(initial), Step::Bind(name, Meaning::Variable(variable))]",
    ),
    (
        "rep binds in its initial part instead",
        "text.rs",
        r#"steps.extend(«[
                            Step::Unbind(name),
                            Step::Enter(update),
                            Step::Bind(name, Meaning::Variable(variable)),
                            Step::Enter(initial),
                        ]»)"#,
        "[Step::Enter(update), Step::Unbind(name), Step::Enter(initial), Step::Bind(name, Meaning::Variable(variable))]",
    ),
    (
        "a rep's update before its initial part",
        "text.rs",
        r#"steps.extend(«[
                            Step::Unbind(name),
                            Step::Enter(update),
                            Step::Bind(name, Meaning::Variable(variable)),
                            Step::Enter(initial),
                        ]»)"#,
        "[Step::Enter(initial), Step::Unbind(name), Step::Enter(update), Step::Bind(name, Meaning::Variable(variable))]",
    ),
    (
        "rep binds behind itself too",
        "text.rs",
        r#"Step::Unbind(name) => {
                    «self.bound.get_mut(name).expect("it was bound").pop();»"#,
        r#"if self.bound[name].len() > 1 { self.bound.get_mut(name).expect("it was bound").pop(); }"#,
    ),
    (
        "rep forgets what it hid",
        "text.rs",
        r#"Step::Unbind(name) => {
                    «self.bound.get_mut(name).expect("it was bound").pop();»"#,
        r#"self.bound.get_mut(name).expect("it was bound").clear();"#,
    ),
    (
        "reserved names may be bound by a rep or as parameters",
        "text.rs",
        r#"fn bind(&mut self, name: &'t [u8], meaning: Meaning) {
        «self.bad_name |= words::is_reserved(name);»"#,
        "",
    ),
    (
        "reserved names may be parameters",
        "text.rs",
        r#"fn bind(&mut self, name: &'t [u8], meaning: Meaning) {
        «self.bad_name |= words::is_reserved(name);»"#,
        "self.bad_name |= words::is_reserved(name) && matches!(meaning, Meaning::Variable(_));",
    ),
    (
        "reserved names may be variables",
        "text.rs",
        r#"fn bind(&mut self, name: &'t [u8], meaning: Meaning) {
        «self.bad_name |= words::is_reserved(name);»"#,
        "self.bad_name |= words::is_reserved(name) && matches!(meaning, Meaning::Parameter(_));",
    ),
    ("reserved names may be defined", "text.rs", "«writer.bad_name |= words::is_reserved(definition.name);»", ""),
    ("a parameter may be repeated", "text.rs", "«writer.bad_name |= writer.bound.contains_key(parameter);»", ""),
    (
        "a parameter may be repeated but by the next",
        "text.rs",
        "«writer.bad_name |= writer.bound.contains_key(parameter);»",
        "writer.bad_name |= p > 0 && definition.parameters[p - 1] == *parameter;",
    ),
    (
        "a parameter may not be named as a definition before",
        "text.rs",
        "«writer.bad_name |= writer.bound.contains_key(parameter);»",
        "writer.bad_name |= writer.bound.contains_key(parameter) || writer.definitions.contains_key(parameter);",
    ),
    (
        "a parameter may not be named as its definition",
        "text.rs",
        "«writer.bad_name |= writer.bound.contains_key(parameter);»",
        "writer.bad_name |= writer.bound.contains_key(parameter) || definition.name == *parameter;",
    ),
    (
        "a parameter may not be named as one of another definition",
        "text.rs",
        "«writer.bound.clear();»",
        "for all in writer.bound.values_mut() { all.clear(); }",
    ),
    (
        "parameters are bound behind their definition",
        "text.rs",
        "«writer.bound.clear();»",
        "for all in writer.bound.values_mut() { all.truncate(1); } if writer.definitions.len() + 1 < program.definitions.len() { writer.bound.clear(); }",
    ),
    (
        "a rep may not bind what is bound",
        "text.rs",
        "Step::Bind(name, meaning) => «self.bind(name, meaning)»,",
        "self.bad_name |= self.bound.get(name).is_some_and(|all| !all.is_empty()); self.bind(name, meaning)",
    ),
    (
        "a rep may not bind a parameter",
        "text.rs",
        "Step::Bind(name, meaning) => «self.bind(name, meaning)»,",
        "self.bad_name |= matches!(self.bound.get(name).and_then(|all| all.last()), Some(Meaning::Parameter(_))); self.bind(name, meaning)",
    ),
    (
        "a definition may be repeated",
        "text.rs",
        "«writer.bad_name |= writer.definitions.insert(definition.name, number).is_some();»",
        "writer.definitions.insert(definition.name, number);",
    ),
    (
        "a definition sees itself",
        "text.rs",
        "«writer.expression(&program.expressions, &mut numbers, definition.body);»",
        "let (own, next) = (!writer.definitions.contains_key(definition.name), writer.definitions.len()); if own { writer.definitions.insert(definition.name, next); } writer.expression(&program.expressions, &mut numbers, definition.body); if own { writer.definitions.remove(definition.name); }",
    ),
    (
        "binders are callable",
        "text.rs",
        "let number = «self.definitions.get(name).copied()»;",
        "self.definitions.get(name).copied().or_else(|| self.bound.get(name).and_then(|all| all.last()).map(|_| 0))",
    ),
    (
        "20 gives way to the table",
        "text.rs",
        "match «writer.bad_name» {",
        "writer.bad_name && super::table::read(&writer.bytes).is_ok()",
    ),
    ("20 has a place", "text.rs", "true => «refused(20, 0)»,", "refused(20, writer.nodes)"),
    // Numbers and the table.
    (
        "slots from 0",
        "text.rs",
        r#"self.slots += 1;
        «byte(self.slots)»"#,
        "byte(self.slots - 1)",
    ),
    (
        "slots come round at 256",
        "text.rs",
        r#"self.slots += 1;
        «byte(self.slots)»"#,
        "self.slots as u8",
    ),
    (
        "slots come round at 16",
        "text.rs",
        r#"self.slots += 1;
        «byte(self.slots)»"#,
        "byte((self.slots - 1) % 15 + 1)",
    ),
    (
        "slots stop at 15",
        "text.rs",
        r#"self.slots += 1;
        «byte(self.slots)»"#,
        "byte(self.slots.min(15))",
    ),
    ("variables come round at 16", "text.rs", "vec![5, «byte(variable)»]", "byte(variable % 16)"),
    ("variables come round at 256", "text.rs", "vec![5, «byte(variable)»]", "variable as u8"),
    ("variables that are read come round at 16", "text.rs", "vec![2, «byte(*v)»]", "byte(*v % 16)"),
    ("variables from 1", "text.rs", "let variable = «self.variables»;", "self.variables + 1"),
    (
        "slots in the order of nodes, the inner before the outer",
        "text.rs",
        "«self.field(1, &body);»",
        "let (mut given, mut rest) = (0, &self.bytes[..]);
            while let Some((tag, field, after)) = super::table::take_field(rest) {
                given += usize::from(tag == 1 && matches!(field.first(), Some(8 | 9 | 13)));
                rest = after;
            }
            if matches!(body.first(), Some(8 | 9 | 13)) {
                body[1] = byte(given + 1);
            }
            self.field(1, &body);",
    ),
    (
        "every definition has slots of its own",
        "text.rs",
        "«writer.bound.clear();»",
        "writer.bound.clear(); writer.slots = 0;",
    ),
    (
        "every definition has variables of its own",
        "text.rs",
        "«writer.bound.clear();»",
        "writer.bound.clear(); writer.variables = 0;",
    ),
    (
        "parameters from the last",
        "text.rs",
        "«writer.bind(parameter, Meaning::Parameter(p));»",
        "writer.bind(parameter, Meaning::Parameter(definition.parameters.len() - 1 - p));",
    ),
    (
        "operands from right to left",
        "text.rs",
        "«steps.extend(operands.iter().rev().map(|operand| Step::Enter(*operand)))»",
        "steps.extend(operands.iter().map(|operand| Step::Enter(*operand)))",
    ),
    (
        "a fold's operands from right to left",
        "text.rs",
        "«steps.extend(operands.iter().rev().map(|operand| Step::Enter(*operand)))»",
        "let mut operands = operands.to_vec(); if matches!(expression.head, Head::FoldByOperator(_) | Head::FoldByDefinition(_)) { operands.reverse(); } steps.extend(operands.iter().rev().map(|operand| Step::Enter(*operand)))",
    ),
    (
        "a call's operands from right to left",
        "text.rs",
        "«steps.extend(operands.iter().rev().map(|operand| Step::Enter(*operand)))»",
        "let mut operands = operands.to_vec(); if matches!(expression.head, Head::Call(_)) { operands.reverse(); } steps.extend(operands.iter().rev().map(|operand| Step::Enter(*operand)))",
    ),
    (
        "mux in the order of evaluation",
        "text.rs",
        "«steps.extend(operands.iter().rev().map(|operand| Step::Enter(*operand)))»",
        "let mut operands = operands.to_vec(); if matches!(expression.head, Head::Mux) { operands.rotate_left(1); } steps.extend(operands.iter().rev().map(|operand| Step::Enter(*operand)))",
    ),
    ("operator of a fold is 0", "text.rs", "Head::FoldByOperator(o) => vec![10, «byte(o)»]", "0"),
    (
        "fold by definition is a fold by operator",
        "text.rs",
        "Head::FoldByDefinition(name) => vec![«11», self.definition(name)]",
        "10",
    ),
    ("mux is if", "text.rs", "Head::Mux => «vec![7]»", "vec![6]"),
    ("nbr-lag is nbr-range", "text.rs", "Head::NbrLag => vec![«13», self.slot()]", "9"),
    (
        "constants have the low byte first",
        "text.rs",
        "Head::Constant(number) => «[&[0][..], &number.to_be_bytes()].concat()»",
        "[&[0][..], &number.to_le_bytes()].concat()",
    ),
    (
        "definitions are counted from 1",
        "text.rs",
        "let number = «writer.definitions.len()»;",
        "writer.definitions.len() + 1",
    ),
    ("definition without its parameters", "text.rs", "writer.field(2, &[«byte(definition.parameters.len())»", "0"),
    ("main is node 0", "text.rs", "writer.field(3, &[«byte(numbers[program.main])»]);", "0"),
    (
        "node numbers come round",
        "text.rs",
        "body.extend(operands.iter().map(|operand| «byte(numbers[*operand])»));",
        "(numbers[*operand] % 200) as u8",
    ),
    // The call.
    (
        "room for the text is needed",
        "lib.rs",
        "match «space.get_mut(..bytes.len())» {",
        "space.get_mut(..bytes.len().max(text.len())).map(|space| &mut space[..bytes.len()])",
    ),
    (
        "one byte more room is needed",
        "lib.rs",
        "match «space.get_mut(..bytes.len())» {",
        "space.get_mut(..bytes.len() + 1).map(|space| &mut space[..bytes.len()])",
    ),
    (
        "tables over 1,000 bytes have no room",
        "lib.rs",
        "match «space.get_mut(..bytes.len())» {",
        "if bytes.len() > 1_000 { None } else { space.get_mut(..bytes.len()) }",
    ),
    ("13 has the length as place", "lib.rs", "None => «return refused(13, 0)»,", "return refused(13, bytes.len())"),
    (
        "what fits of a table is written",
        "lib.rs",
        "None => «return refused(13, 0)»,",
        "let length = space.len(); space.copy_from_slice(&bytes[..length]); return refused(13, 0)",
    ),
    (
        "13 before the table's refusals",
        "lib.rs",
        "«table::read(&bytes)?;»",
        "if space.len() < bytes.len() { return refused(13, 0); } table::read(&bytes)?;",
    ),
    (
        "13 before all",
        "lib.rs",
        "let bytes = «text::read(text)?»;",
        "if space.is_empty() { return refused(13, 0); } text::read(text)?",
    ),
    ("the table is not tested", "lib.rs", "«table::read(&bytes)?;»", ""),
    (
        "a refused table is written",
        "lib.rs",
        "«table::read(&bytes)?;»",
        "if let Err(refusal) = table::read(&bytes) { if let Some(start) = space.get_mut(..bytes.len()) { start.copy_from_slice(&bytes); } return Err(refusal); }",
    ),
    (
        "space behind the table is cleared",
        "lib.rs",
        "«Ok(bytes.len())»",
        "space[bytes.len()..].fill(0); Ok(bytes.len())",
    ),
    ("0 has no place", "lib.rs", "Ok(length) => «(0, length)»,", "(0, 0)"),
    // The place of 19.
    (
        "place: a word that ends may not go on",
        "begins.rs",
        "let ended = |token: &Token| «token.end() < length || token.end() == length && token.is_bracket()»;",
        "token.end() <= length",
    ),
    (
        "place: where the bad word begins",
        "begins.rs",
        "is_some_and(|set| «part.is_empty() || set.iter().any(goes_on)»)",
        "part.is_empty()",
    ),
    (
        "place: anything may go on",
        "begins.rs",
        "is_some_and(|set| «part.is_empty() || set.iter().any(goes_on)»)",
        "true",
    ),
    (
        "place: blanks are not shared",
        "begins.rs",
        r#"most = middle - 1;
        }
    }
    «shared»"#,
        "text[..shared].trim_ascii_end().len()",
    ),
    (
        "place: blanks behind are shared",
        "begins.rs",
        r#"most = middle - 1;
        }
    }
    «shared»"#,
        "shared + text[shared..].iter().take_while(|byte| **byte == b' ').count()",
    ),
    (
        "place: one more",
        "begins.rs",
        r#"most = middle - 1;
        }
    }
    «shared»"#,
        "(shared + 1).min(text.len())",
    ),
    (
        "place: 0",
        "begins.rs",
        r#"most = middle - 1;
        }
    }
    «shared»"#,
        "0",
    ),
    (
        "place: counted in words",
        "begins.rs",
        r#"most = middle - 1;
        }
    }
    «shared»"#,
        "tokens.iter().filter(|token| token.end() <= shared).count()",
    ),
    (
        "place: as 16 bits",
        "begins.rs",
        r#"most = middle - 1;
        }
    }
    «shared»"#,
        "usize::from(shared as u16)",
    ),
    ("place: a minus does not go on", "begins.rs", r#"|| «part == b"-"» ||"#, "false"),
    (
        "place: operators do not go on",
        "begins.rs",
        "Operator => «words::OPERATORS.iter().any(begins)»",
        "words::operator(part).is_some()",
    ),
    (
        "place: a reserved word does not go on",
        "begins.rs",
        "Name | Own => «words::is_name(part)»",
        "words::is_own(part)",
    ),
    (
        "place: numbers go on past inf",
        "begins.rs",
        "Number => «words::number(part).is_some()» ||",
        "part.iter().all(u8::is_ascii_digit)",
    ),
    (
        "place: numbers of any size",
        "begins.rs",
        "Number => «words::number(word).is_some()»,",
        "words::number(word).is_some() || word.iter().all(u8::is_ascii_digit)",
    ),
    ("place: any name stands alone", "begins.rs", "Own => «words::is_own(word)»,", "words::is_name(word)"),
    ("place: what is bound is not reserved", "begins.rs", "Name => «words::is_name(word)»,", "words::is_own(word)"),
    (
        "place: five parameters",
        "begins.rs",
        r#"Parameters => «&[
                &[OPEN, CLOSE],
                &[OPEN, Name, CLOSE],
                &[OPEN, Name, Name, CLOSE],
                &[OPEN, Name, Name, Name, CLOSE],
                &[OPEN, Name, Name, Name, Name, CLOSE],
            ]»"#,
        "&[&[OPEN, CLOSE], &[OPEN, Name, CLOSE], &[OPEN, Name, Name, CLOSE], &[OPEN, Name, Name, Name, CLOSE], &[OPEN, Name, Name, Name, Name, CLOSE], &[OPEN, Name, Name, Name, Name, Name, CLOSE]]",
    ),
    (
        "place: three parameters",
        "begins.rs",
        r#"Parameters => «&[
                &[OPEN, CLOSE],
                &[OPEN, Name, CLOSE],
                &[OPEN, Name, Name, CLOSE],
                &[OPEN, Name, Name, Name, CLOSE],
                &[OPEN, Name, Name, Name, Name, CLOSE],
            ]»"#,
        "&[&[OPEN, CLOSE], &[OPEN, Name, CLOSE], &[OPEN, Name, Name, CLOSE], &[OPEN, Name, Name, Name, CLOSE]]",
    ),
    (
        "place: no empty parameters",
        "begins.rs",
        r#"Parameters => «&[
                &[OPEN, CLOSE],
                &[OPEN, Name, CLOSE],
                &[OPEN, Name, Name, CLOSE],
                &[OPEN, Name, Name, Name, CLOSE],
                &[OPEN, Name, Name, Name, Name, CLOSE],
            ]»"#,
        "&[&[OPEN, Name, CLOSE], &[OPEN, Name, Name, CLOSE], &[OPEN, Name, Name, Name, CLOSE], &[OPEN, Name, Name, Name, Name, CLOSE]]",
    ),
    (
        "place: two main expressions",
        "begins.rs",
        "Program => «&[&[E], &[Of(Definitions), E]]»,",
        "&[&[E], &[E, E], &[Of(Definitions), E]]",
    ),
    (
        "place: definitions behind main",
        "begins.rs",
        "Program => «&[&[E], &[Of(Definitions), E]]»,",
        "&[&[E], &[Of(Definitions), E], &[E, Of(Definitions)]]",
    ),
    ("place: no definitions", "begins.rs", "Program => «&[&[E], &[Of(Definitions), E]]»,", "&[&[E]]"),
    (
        "place: one definition",
        "begins.rs",
        "Definitions => «&[&[Of(Definition)], &[Of(Definitions), Of(Definition)]]»,",
        "&[&[Of(Definition)]]",
    ),
    (
        "place: a body of two",
        "begins.rs",
        r#"Definition => «&[&[OPEN, Is("def"), Name, Of(Parameters), E, CLOSE]]»,"#,
        r#"&[&[OPEN, Is("def"), Name, Of(Parameters), E, CLOSE], &[OPEN, Is("def"), Name, Of(Parameters), E, E, CLOSE]]"#,
    ),
    ("place: fold by operators", "begins.rs", "Function => «&[&[Operator], &[Own]]»,", "&[&[Operator]]"),
    (
        "place: fold by an expression",
        "begins.rs",
        "Function => «&[&[Operator], &[Own]]»,",
        "&[&[Operator], &[Own], &[OPEN, Own, CLOSE]]",
    ),
    ("place: fold by any name", "begins.rs", "Function => «&[&[Operator], &[Own]]»,", "&[&[Operator], &[Name]]"),
    ("place: one operand", "begins.rs", "Operands => «&[&[E], &[Of(Operands), E]]»,", "&[&[E]]"),
    (
        "place: four operands",
        "begins.rs",
        "Operands => «&[&[E], &[Of(Operands), E]]»,",
        "&[&[E], &[E, E], &[E, E, E], &[E, E, E, E]]",
    ),
    (
        "place: no numbers",
        "begins.rs",
        r#"fn begin(rule: Rule, here: usize) -> Vec<Item> {
    «(0..rule.ways().len()).map(|way| Item { rule, way, met: 0, begun: here }).collect()»"#,
        "(0..rule.ways().len()).filter(|way| rule != Expression || *way != 0).map(|way| Item { rule, way, met: 0, begun: here }).collect()",
    ),
    (
        "place: no names",
        "begins.rs",
        r#"fn begin(rule: Rule, here: usize) -> Vec<Item> {
    «(0..rule.ways().len()).map(|way| Item { rule, way, met: 0, begun: here }).collect()»"#,
        "(0..rule.ways().len()).filter(|way| rule != Expression || *way != 1).map(|way| Item { rule, way, met: 0, begun: here }).collect()",
    ),
    (
        "place: no operators",
        "begins.rs",
        r#"fn begin(rule: Rule, here: usize) -> Vec<Item> {
    «(0..rule.ways().len()).map(|way| Item { rule, way, met: 0, begun: here }).collect()»"#,
        "(0..rule.ways().len()).filter(|way| rule != Expression || *way != 2).map(|way| Item { rule, way, met: 0, begun: here }).collect()",
    ),
    (
        "place: no sense",
        "begins.rs",
        r#"fn begin(rule: Rule, here: usize) -> Vec<Item> {
    «(0..rule.ways().len()).map(|way| Item { rule, way, met: 0, begun: here }).collect()»"#,
        "(0..rule.ways().len()).filter(|way| rule != Expression || *way != 3).map(|way| Item { rule, way, met: 0, begun: here }).collect()",
    ),
    (
        "place: no rep",
        "begins.rs",
        r#"fn begin(rule: Rule, here: usize) -> Vec<Item> {
    «(0..rule.ways().len()).map(|way| Item { rule, way, met: 0, begun: here }).collect()»"#,
        "(0..rule.ways().len()).filter(|way| rule != Expression || *way != 4).map(|way| Item { rule, way, met: 0, begun: here }).collect()",
    ),
    (
        "place: no if",
        "begins.rs",
        r#"fn begin(rule: Rule, here: usize) -> Vec<Item> {
    «(0..rule.ways().len()).map(|way| Item { rule, way, met: 0, begun: here }).collect()»"#,
        "(0..rule.ways().len()).filter(|way| rule != Expression || *way != 5).map(|way| Item { rule, way, met: 0, begun: here }).collect()",
    ),
    (
        "place: no mux",
        "begins.rs",
        r#"fn begin(rule: Rule, here: usize) -> Vec<Item> {
    «(0..rule.ways().len()).map(|way| Item { rule, way, met: 0, begun: here }).collect()»"#,
        "(0..rule.ways().len()).filter(|way| rule != Expression || *way != 6).map(|way| Item { rule, way, met: 0, begun: here }).collect()",
    ),
    (
        "place: no nbr",
        "begins.rs",
        r#"fn begin(rule: Rule, here: usize) -> Vec<Item> {
    «(0..rule.ways().len()).map(|way| Item { rule, way, met: 0, begun: here }).collect()»"#,
        "(0..rule.ways().len()).filter(|way| rule != Expression || *way != 7).map(|way| Item { rule, way, met: 0, begun: here }).collect()",
    ),
    (
        "place: no nbr-range",
        "begins.rs",
        r#"fn begin(rule: Rule, here: usize) -> Vec<Item> {
    «(0..rule.ways().len()).map(|way| Item { rule, way, met: 0, begun: here }).collect()»"#,
        "(0..rule.ways().len()).filter(|way| rule != Expression || *way != 8).map(|way| Item { rule, way, met: 0, begun: here }).collect()",
    ),
    (
        "place: no nbr-lag",
        "begins.rs",
        r#"fn begin(rule: Rule, here: usize) -> Vec<Item> {
    «(0..rule.ways().len()).map(|way| Item { rule, way, met: 0, begun: here }).collect()»"#,
        "(0..rule.ways().len()).filter(|way| rule != Expression || *way != 9).map(|way| Item { rule, way, met: 0, begun: here }).collect()",
    ),
    (
        "place: no fold-hood*",
        "begins.rs",
        r#"fn begin(rule: Rule, here: usize) -> Vec<Item> {
    «(0..rule.ways().len()).map(|way| Item { rule, way, met: 0, begun: here }).collect()»"#,
        "(0..rule.ways().len()).filter(|way| rule != Expression || *way != 10).map(|way| Item { rule, way, met: 0, begun: here }).collect()",
    ),
    (
        "place: no calls without operands",
        "begins.rs",
        r#"fn begin(rule: Rule, here: usize) -> Vec<Item> {
    «(0..rule.ways().len()).map(|way| Item { rule, way, met: 0, begun: here }).collect()»"#,
        "(0..rule.ways().len()).filter(|way| rule != Expression || *way != 11).map(|way| Item { rule, way, met: 0, begun: here }).collect()",
    ),
    (
        "place: no calls with operands",
        "begins.rs",
        r#"fn begin(rule: Rule, here: usize) -> Vec<Item> {
    «(0..rule.ways().len()).map(|way| Item { rule, way, met: 0, begun: here }).collect()»"#,
        "(0..rule.ways().len()).filter(|way| rule != Expression || *way != 12).map(|way| Item { rule, way, met: 0, begun: here }).collect()",
    ),
    (
        "place: definitions in expressions",
        "begins.rs",
        r#"fn begin(rule: Rule, here: usize) -> Vec<Item> {
    «(0..rule.ways().len()).map(|way| Item { rule, way, met: 0, begun: here }).collect()»"#,
        "let within: &[Rule] = if rule == Expression && here > 0 { &[Expression, Definition] } else { &[rule] }; within.iter().flat_map(|rule| (0..rule.ways().len()).map(|way| Item { rule: *rule, way, met: 0, begun: here })).collect()",
    ),
    (
        "place: sense without an operand",
        "begins.rs",
        "«self.rule.ways()[self.way].get(self.met).copied()»",
        "if (self.rule, self.way, self.met) == (Expression, 3, 2) { return Some(CLOSE); } self.rule.ways()[self.way].get(self.met).copied()",
    ),
    (
        "place: nbr-range with an operand",
        "begins.rs",
        "«self.rule.ways()[self.way].get(self.met).copied()»",
        "if (self.rule, self.way, self.met) == (Expression, 8, 2) { return Some(E); } self.rule.ways()[self.way].get(self.met).copied()",
    ),
    (
        "place: nbr-lag with an operand",
        "begins.rs",
        "«self.rule.ways()[self.way].get(self.met).copied()»",
        "if (self.rule, self.way, self.met) == (Expression, 9, 2) { return Some(E); } self.rule.ways()[self.way].get(self.met).copied()",
    ),
    (
        "place: operators of three",
        "begins.rs",
        "«self.rule.ways()[self.way].get(self.met).copied()»",
        "if (self.rule, self.way, self.met) == (Expression, 2, 4) { return Some(E); } self.rule.ways()[self.way].get(self.met).copied()",
    ),
    (
        "place: if of four",
        "begins.rs",
        "«self.rule.ways()[self.way].get(self.met).copied()»",
        "if (self.rule, self.way, self.met) == (Expression, 5, 5) { return Some(E); } self.rule.ways()[self.way].get(self.met).copied()",
    ),
    (
        "place: if of two",
        "begins.rs",
        "«self.rule.ways()[self.way].get(self.met).copied()»",
        "if (self.rule, self.way, self.met) == (Expression, 5, 4) { return Some(CLOSE); } self.rule.ways()[self.way].get(self.met).copied()",
    ),
    (
        "place: mux of two",
        "begins.rs",
        "«self.rule.ways()[self.way].get(self.met).copied()»",
        "if (self.rule, self.way, self.met) == (Expression, 6, 4) { return Some(CLOSE); } self.rule.ways()[self.way].get(self.met).copied()",
    ),
    (
        "place: nbr of two",
        "begins.rs",
        "«self.rule.ways()[self.way].get(self.met).copied()»",
        "if (self.rule, self.way, self.met) == (Expression, 7, 3) { return Some(E); } self.rule.ways()[self.way].get(self.met).copied()",
    ),
    (
        "place: rep of any expression",
        "begins.rs",
        "«self.rule.ways()[self.way].get(self.met).copied()»",
        "if (self.rule, self.way, self.met) == (Expression, 4, 2) { return Some(E); } self.rule.ways()[self.way].get(self.met).copied()",
    ),
    (
        "place: fold without a field",
        "begins.rs",
        "«self.rule.ways()[self.way].get(self.met).copied()»",
        "if (self.rule, self.way, self.met) == (Expression, 10, 4) { return Some(CLOSE); } self.rule.ways()[self.way].get(self.met).copied()",
    ),
];
