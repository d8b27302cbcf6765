/// Whether `definition` is spatial, but for its nbr-lags; then the expression.
macro_rules! spatial_but_for_lag {
    ($then:literal) => {
        concat!(
            "let mut spatial = false;
            definition.body.walk(&mut |node| spatial |= match &node.form {
                Form::Rep { .. } | Form::Nbr { .. } | Form::NbrRange { .. } => true,
                Form::Call { definition, .. } => definition.spatial,
                _ => false,
            });
            ",
            $then
        )
    };
}

/// Whether a node is a field, but for an nbr-lag right under a node of this form.
macro_rules! field_but_lag_under {
    ($form:literal) => {
        concat!("node.sort == Sort::Field && !matches!((&self.form, &node.form), (Form::", $form, " { .. }, Form::NbrLag { .. }))")
    };
}

/// Whether `slot` is that of an nbr-lag somewhere in this tree or program, as it shows itself.
macro_rules! of_a_lag_in {
    ($tree:literal) => {
        concat!(r#"format!("{:?}", "#, $tree, r#").contains(&format!("NbrLag {{ slot: {slot} }}"))"#)
    };
}

/// Does this with `left` of each sender that an nbr-lag of the round took, before the round's end.
macro_rules! of_who_lag_takes {
    ($does:literal) => {
        concat!(
            "for (b, message) in &device.heard {
                let lag = |slot: &u8| outcome.sent.contains_key(slot) && ",
            of_a_lag_in!("program"),
            ";
                let left = device.readings.get_mut(b).unwrap();
                if message.iter().any(|(slot, number)| *number == 0 && lag(slot)) { ",
            $does,
            " }
            }
            device.fade();"
        )
    };
}

/// The numbers of the field that is folded, after this was done with `all` of it.
macro_rules! folded {
    ($does:literal) => {
        concat!("let mut all = self.field(field, parameters)?; ", $does, " all.into_values()")
    };
}

/// A bug: name, file of the second engine, its text with the part « » that is replaced, what replaces it.
/// A part is an expression, or statements (with a `;`) that leave no name behind.
type Edit = (&'static str, &'static str, &'static str, &'static str);

const EDITS: &[Edit] = &[
    // 01's five shortcuts.
    ("shortcut: merges a receipt slot by slot", "network.rs", "«self.heard.insert(from, message);»", "self.heard.entry(from).or_default().extend(message);"),
    (
        "shortcut: sends from a rep's update in its first round",
        "round.rs",
        "false => «initial»,",
        "self.variables.insert(*variable, initial); self.number(update, parameters)?; initial",
    ),
    (
        "shortcut: skips a rep's initial part later",
        "round.rs",
        "let initial = «self.number(initial, parameters)?»;\n                let stored",
        "if self.variables.contains_key(variable) { 0 } else { self.number(initial, parameters)? }",
    ),
    ("shortcut: keeps variables of the other branch", "round.rs", "«self.variables.retain(|v, _| !other.variables.contains(v));»", ""),
    (
        "shortcut: sends nothing when no slot was sent",
        "event.rs",
        "device.pending = «device.distances.keys().map(|b| (*b, outcome.sent.clone())).collect()»;",
        "device.distances.keys().filter(|_| !outcome.sent.is_empty()).map(|b| (*b, outcome.sent.clone())).collect()",
    ),
    // Arithmetic.
    ("inf + n is exact", "number.rs", "Operator::Add if «left == INF || right == INF»", "right == INF"),
    ("n + inf is exact", "number.rs", "Operator::Add if «left == INF || right == INF»", "left == INF"),
    ("inf - n is exact", "number.rs", "Operator::Subtract if «left == INF»", "false"),
    ("inf - inf is floor", "number.rs", "Operator::Subtract if «left == INF»", "left == INF && right != INF"),
    ("n - inf is exact", "number.rs", "Operator::Subtract if «right == INF»", "false"),
    ("inf / n is exact for n > 0", "number.rs", "left == INF && right > 0 => «INF»", "bring_in(l / r)"),
    ("inf / n is exact for n < 0", "number.rs", "Operator::Divide if left == INF => «FLOOR»", "bring_in(l / r)"),
    ("inf / inf is 1", "number.rs", "left == INF && right > 0 => «INF»", "if right == INF { 1 } else { INF }"),
    ("n / inf is exact", "number.rs", "Operator::Divide if right == INF => «0»", "bring_in(-l.signum())"),
    ("inf / 0 is inf", "number.rs", "Operator::Divide if «right == 0»", "right == 0 && left != INF"),
    ("inf x 0 is inf", "number.rs", "«bring_in(l * r)»", "if left == INF { INF } else { bring_in(l * r) }"),
    ("division rounds down", "number.rs", "Operator::Divide => «bring_in(l / r)»", "bring_in(if l % r != 0 && (l < 0) != (r < 0) { l / r - 1 } else { l / r })"),
    ("arithmetic wraps", "number.rs", "«exact.clamp(i64::from(FLOOR), i64::from(INF)) as i32»", "exact as i32"),
    ("results may be the mark", "number.rs", "«exact.clamp(i64::from(FLOOR), i64::from(INF)) as i32»", "exact.clamp(i64::from(FLOOR) - 1, i64::from(INF)) as i32"),
    ("< is <=", "number.rs", "i32::from(«left < right»)", "left <= right"),
    ("> is >=", "number.rs", "i32::from(«left > right»)", "left >= right"),
    (">= is >", "number.rs", "i32::from(«left >= right»)", "left > right"),
    ("== is !=", "number.rs", "i32::from(«left == right»)", "left != right"),
    ("!= is ==", "number.rs", "i32::from(«left != right»)", "left == right"),
    // A round.
    ("every number but 0 is true", "round.rs", "«condition == 1»", "condition != 0"),
    ("no number is true", "round.rs", "«condition == 1»", "false"),
    ("if swaps then and else", "round.rs", "= if «takes_then(condition)» { (then, otherwise) }", "!takes_then(condition)"),
    ("mux swaps then and else", "round.rs", "if «takes_then(condition)» { then }", "!takes_then(condition)"),
    (
        "mux evaluates its condition first",
        "round.rs",
        "let then = «self.number(then, parameters)?»;",
        "Round { device: self.device, variables: self.variables.clone(), sent: Message::new() }.number(condition, parameters)?; self.number(then, parameters)?",
    ),
    (
        "mux evaluates else before then",
        "round.rs",
        "let then = «self.number(then, parameters)?»;",
        "Round { device: self.device, variables: self.variables.clone(), sent: Message::new() }.number(otherwise, parameters)?; self.number(then, parameters)?",
    ),
    (
        "operators evaluate their right side first",
        "round.rs",
        "let left = «self.value(left, parameters)?»;",
        "Round { device: self.device, variables: self.variables.clone(), sent: Message::new() }.value(right, parameters)?; self.value(left, parameters)?",
    ),
    ("if evaluates both branches", "round.rs", "«self.value(&taken.node, parameters)?»", "self.value(&other.node, parameters)?; self.value(&taken.node, parameters)?"),
    (
        "rep answers the number stored before",
        "round.rs",
        "«self.variables.insert(*variable, stored);\n                Value::Number(stored)»",
        "Value::Number(self.variables.insert(*variable, stored).unwrap_or(stored))",
    ),
    (
        "rep does not store",
        "round.rs",
        "«self.variables.insert(*variable, stored);\n                Value::Number(stored)»",
        "Value::Number(stored)",
    ),
    ("sense wraps at 32", "round.rs", "«i32::from(*lit) == sensor»)", "i32::from(*lit) == sensor & 31"),
    ("sense asks for a sensor above 0", "round.rs", "«i32::from(*lit) == sensor»)", "i32::from(*lit) == sensor && sensor > 0"),
    ("nbr sends nothing", "round.rs", "«self.sent.insert(*slot, number);»", ""),
    (
        "nbr asks for a link",
        "round.rs",
        "Value::Field(«self.heard(*slot)»)",
        "let mut field = self.heard(*slot); field.retain(|b, _| self.device.distances.contains_key(b)); field",
    ),
    ("nbr-range sends nothing", "round.rs", "«self.sent.insert(*slot, 0);»", ""),
    ("nbr-range sends 1", "round.rs", "«self.sent.insert(*slot, 0);»", "self.sent.insert(*slot, 1);"),
    ("nbr-range takes whatever was heard", "round.rs", "«heard.get(device) == Some(&0)»", "heard.contains_key(device)"),
    ("nbr-range needs nothing heard", "round.rs", "«heard.get(device) == Some(&0)»", "heard.get(device).is_none_or(|n| *n == 0)"),
    (
        "nbr-range asks for no link",
        "round.rs",
        "let mut field = «self.device.distances.clone()»;",
        "let mut all = self.device.distances.clone(); for b in self.heard(*slot).keys() { all.entry(*b).or_insert(0); } all",
    ),
    (
        "fold by operator from the highest device",
        "round.rs",
        "for next in «self.field(field, parameters)?.into_values()» {\n                    so_far = at_node",
        "self.field(field, parameters)?.into_values().rev().zip(1..).map(|(n, at)| (at, n)).collect::<Field>().into_values()",
    ),
    (
        "fold by definition from the highest device",
        "round.rs",
        "for next in «self.field(field, parameters)?.into_values()» {\n                    so_far = self",
        "self.field(field, parameters)?.into_values().rev().zip(1..).map(|(n, at)| (at, n)).collect::<Field>().into_values()",
    ),
    (
        "fold by operator leaves out its last device",
        "round.rs",
        "for next in «self.field(field, parameters)?.into_values()» {\n                    so_far = at_node",
        folded!("all.pop_last();"),
    ),
    (
        "fold by operator takes its last device twice",
        "round.rs",
        "for next in «self.field(field, parameters)?.into_values()» {\n                    so_far = at_node",
        folded!("all.extend(all.last_key_value().map(|(_, last)| (17, *last)));"),
    ),
    (
        "fold by operator stays at its lowest device",
        "round.rs",
        "for next in «self.field(field, parameters)?.into_values()» {\n                    so_far = at_node",
        folded!("let lowest = all.values().next().copied(); all.values_mut().for_each(|next| *next = lowest.unwrap());"),
    ),
    (
        "fold by operator takes sixteen turns",
        "round.rs",
        "for next in «self.field(field, parameters)?.into_values()» {\n                    so_far = at_node",
        folded!("(1..=16).for_each(|b| *all.entry(b).or_default() += 0);"),
    ),
    (
        "fold by definition leaves out its last device",
        "round.rs",
        "for next in «self.field(field, parameters)?.into_values()» {\n                    so_far = self",
        folded!("all.pop_last();"),
    ),
    (
        "fold by definition takes its last device twice",
        "round.rs",
        "for next in «self.field(field, parameters)?.into_values()» {\n                    so_far = self",
        folded!("all.extend(all.last_key_value().map(|(_, last)| (17, *last)));"),
    ),
    (
        "fold by definition stays at its lowest device",
        "round.rs",
        "for next in «self.field(field, parameters)?.into_values()» {\n                    so_far = self",
        folded!("let lowest = all.values().next().copied(); all.values_mut().for_each(|next| *next = lowest.unwrap());"),
    ),
    (
        "fold by definition takes sixteen turns",
        "round.rs",
        "for next in «self.field(field, parameters)?.into_values()» {\n                    so_far = self",
        folded!("(1..=16).for_each(|b| *all.entry(b).or_default() += 0);"),
    ),
    ("fold by operator takes f(next, so far)", "round.rs", "«operator.apply(so_far, next)»", "operator.apply(next, so_far)"),
    ("fold by definition takes f(next, so far)", "round.rs", "so_far = «self.number(&definition.body, &[so_far, next])?»;", "self.number(&definition.body, &[next, so_far])?"),
    ("operators on two fields keep the left domain", "round.rs", "«*r.get(device)?»", "*r.get(device).unwrap_or(&0)"),
    ("operators on fields leave out their last device", "round.rs", "«Ok(Value::Field(field))»", "field.pop_last(); Ok(Value::Field(field))"),
    (
        "the last divisor of a field is not looked at",
        "round.rs",
        "field.insert(*device, «operator.apply(l, r)?»);",
        "if domain.keys().last() == Some(device) { operator.apply(l, r).unwrap_or(0) } else { operator.apply(l, r)? }",
    ),
    ("field with number swaps its sides", "round.rs", "«pointwise(l, &|device| Some((l[device], *r)))»", "pointwise(l, &|device| Some((*r, l[device])))"),
    ("number with field swaps its sides", "round.rs", "«Some((*l, r[device]))»", "Some((r[device], *l))"),
    (
        "an empty field over 0 faults",
        "round.rs",
        "«pointwise(l, &|device| Some((l[device], *r)))»",
        "if *r == 0 && operator == Operator::Divide { Err(DividedByZero) } else { pointwise(l, &|device| Some((l[device], *r))) }",
    ),
    (
        "a call's fault names the call",
        "round.rs",
        "Value::Number(«self.number(&definition.body, &numbers)?»)",
        "self.number(&definition.body, &numbers).map_err(|_| Fault(node.number))?",
    ),
    ("a fault is off by one", "round.rs", "Fault(«node.number»))", "node.number + 1"),
    ("if erases no variables in definitions", "tree.rs", "«variables.extend(&definition.variables);»", ""),
    (
        "if erases also in its own branch",
        "round.rs",
        "«self.variables.retain(|v, _| !other.variables.contains(v));»",
        "self.variables.retain(|v, _| !other.variables.contains(v) && !taken.variables.contains(v));",
    ),
    // Events.
    ("deliver overwrites slot 0", "network.rs", "«self.heard.insert(from, message);»", "self.heard.insert(from, message); self.distances.remove(&from);"),
    (
        "deliver keeps the message",
        "event.rs",
        "let message = «network.device(a).pending.remove(&b).expect(\"refusal 16 passed\")»;",
        "network.device(a).pending[&b].clone()",
    ),
    ("lose keeps the message", "event.rs", "=> {\n                «network.device(a).pending.remove(&b);»", ""),
    ("ending a link drops the message", "event.rs", "«network.device(a).distances.remove(&b);»", "network.device(a).distances.remove(&b); network.device(a).pending.remove(&b);"),
    (
        "links go both ways",
        "event.rs",
        "«network.device(a).distances.insert(b, distance);»",
        "network.device(a).distances.insert(b, distance); network.device(b).distances.insert(a, distance);",
    ),
    (
        "fire keeps what is pending without a link",
        "event.rs",
        "device.pending = «device.distances.keys().map(|b| (*b, outcome.sent.clone())).collect()»;",
        "let mut kept = device.pending.clone(); kept.extend(device.distances.keys().map(|b| (*b, outcome.sent.clone()))); kept",
    ),
    (
        "fire keeps old slots of a message",
        "event.rs",
        "device.pending = «device.distances.keys().map(|b| (*b, outcome.sent.clone())).collect()»;",
        "device.distances.keys().map(|b| { let mut m = device.pending.get(b).cloned().unwrap_or_default(); m.extend(outcome.sent.clone()); (*b, m) }).collect()",
    ),
    ("fire does not store variables", "event.rs", "«device.variables = outcome.variables;»", ""),
    ("signal turns nothing off", "event.rs", "«network.device(a).lit.remove(&sensor);»", ""),
    ("signal answers 1", "event.rs", "«network.device(a).lit.insert(sensor);»", "network.device(a).lit.insert(sensor); return Ok(1);"),
    ("device 16 is out of range", "event.rs", "(1..=«DEVICES»).contains", "DEVICES - 1"),
    ("sensor 15 is out of range", "event.rs", "«sensor <= 15»", "sensor < 15"),
    ("switch 2 is in range", "event.rs", "«switch <= 1»", "switch <= 2"),
    ("distance 1,000,000 is out of range", "event.rs", "«distance == ABSENT || (0..=FARTHEST).contains(&distance)»", "distance == ABSENT || (0..FARTHEST).contains(&distance)"),
    ("distance 1,000,001 is in range", "event.rs", "«distance == ABSENT || (0..=FARTHEST).contains(&distance)»", "distance == ABSENT || (0..=FARTHEST + 1).contains(&distance)"),
    ("a link can't end", "event.rs", "«distance == ABSENT || (0..=FARTHEST).contains(&distance)»", "(0..=FARTHEST).contains(&distance)"),
    (
        "15 before 14",
        "event.rs",
        "if «!in_range» {",
        "if let Event::Link { a, b, .. } = self { if a == b && is_device(a) { return Some(15); } } !in_range",
    ),
    ("16 before 15", "event.rs", "Event::Link { a, b, .. } if «a == b»", "a == b && matches!(self, Event::Link { .. })"),
    ("16 with a message pending the other way", "event.rs", "«network.devices[&a].pending.contains_key(&b)»", "network.devices[&b].pending.contains_key(&a)"),
    ("a refused event answers its refusal twice", "event.rs", "Turned { number, value: «0» }", "number"),
    ("a fault answers 0", "event.rs", "Turned { number: 17, value: «node as i32» }", "0"),
    ("12 counts from 1", "event.rs", "return refused(12, «events.len()»);", "events.len() + 1"),
    ("one event leaves bytes after it", "event.rs", "Some(_) => «refused(12, 1)»", "Ok(first(list).map(|(event, _)| event).into_iter().collect())"),
    ("bytes after one event at place 0", "event.rs", "Some(_) => «refused(12, 1)»", "refused(12, 0)"),
    ("one event takes an empty list", "event.rs", "None => «refused(12, 0)»", "if list.is_empty() { Ok(vec![]) } else { refused(12, 0) }"),
    // The calls.
    ("13 asks for one number more", "lib.rs", "if «answers.len() < 2 * events.len()»", "answers.len() < 2 * events.len() + 1 && !events.is_empty()"),
    ("13 asks for one number less", "lib.rs", "if «answers.len() < 2 * events.len()»", "answers.len() + 1 < 2 * events.len()"),
    ("13 before 12", "lib.rs", "let events = «events()?»;", "if answers.is_empty() { return refused(13, 0); } events()?"),
    ("12 before 11", "lib.rs", "let mut network = «Network::decode(cells)?»;", "events()?; Network::decode(cells)?"),
    ("11 before the program", "lib.rs", "let program: Program = «table::read(program)?»;", "Network::decode(cells)?; table::read(program)?"),
    ("a run stores nothing", "lib.rs", "«network.encode(cells);»", ""),
    ("a run stops at its first refused event", "lib.rs", "«pair[1] = value;»", "pair[1] = value; if code != 0 { break; }"),
    ("a run does its first event over and over", "lib.rs", "match «event.apply(&program, &mut network)» {", "events[0].apply(&program, &mut network)"),
    ("space beyond the pairs is cleared", "lib.rs", "«network.encode(cells);»", "network.encode(cells); for rest in answers.iter_mut().skip(2 * events.len()) { *rest = 0; }"),
    ("fresh leaves the last cell", "lib.rs", "«Network::fresh().encode(network);»", "let last = network[network::CELLS - 1]; Network::fresh().encode(network); network[network::CELLS - 1] = last;"),
    ("fresh takes longer slices", "lib.rs", "«network.len() != network::CELLS»", "network.len() < network::CELLS"),
    // Network cells.
    ("sensors up to 65,536", "network.rs", "(0..=«65_535»)", "65_536"),
    ("a sound distance is below 1,000,000", "network.rs", "«number == ABSENT || (0..=FARTHEST).contains(&number)»", "number == ABSENT || (0..FARTHEST).contains(&number)"),
    ("a sound distance may be above 1,000,000", "network.rs", "«number == ABSENT || (0..=FARTHEST).contains(&number)»", "number == ABSENT || number >= 0"),
    ("a sound distance may be negative", "network.rs", "«number == ABSENT || (0..=FARTHEST).contains(&number)»", "number <= FARTHEST"),
    ("marks are not tested", "network.rs", "«number == 0 || number == 1»", "true"),
    ("slots without a mark are not tested", "network.rs", "«number == ABSENT || cells[address(device, Cell::Pending { to })] != 0»", "true"),
    ("own rows are not tested", "network.rs", "=>\n        {\n            «number == when_fresh(cell)»", "true"),
    (
        "11 names the highest cell",
        "network.rs",
        "return refused(11, «place»);",
        "(0..CELLS).rev().find(|p| { let (d, c) = meaning(*p); !sound(cells, d, c, cells[*p]) }).unwrap_or(place)",
    ),
    ("11 is off by one", "network.rs", "return refused(11, «place»);", "place + 1"),
    // The table.
    ("256 nodes are too many", "table.rs", "«if self.nodes == NODES {\n            return Err(2);\n        }»", "if self.nodes == NODES - 1 { return Err(2); }"),
    ("257 nodes pass", "table.rs", "«if self.nodes == NODES {\n            return Err(2);\n        }»", "if self.nodes == NODES + 1 { return Err(2); }"),
    (
        "the 257th node after its kind",
        "table.rs",
        "«if self.nodes == NODES {\n            return Err(2);\n        }»",
        "if layout(*kind).is_none() { return Err(3); } if self.nodes == NODES { return Err(2); }",
    ),
    ("32 definitions are too many", "table.rs", "if «self.definitions.len() == DEFINITIONS»", "self.definitions.len() == DEFINITIONS - 1"),
    ("33 definitions pass", "table.rs", "if «self.definitions.len() == DEFINITIONS»", "self.definitions.len() == DEFINITIONS + 1"),
    ("the 33rd definition after its length", "table.rs", "if «self.definitions.len() == DEFINITIONS»", "if body.len() != 2 { return Err(1); } self.definitions.len() == DEFINITIONS"),
    ("parameter 3 is out of range", "table.rs", "Item::Parameter => bytes[0] <= «3»", "2"),
    ("parameter 4 is in range", "table.rs", "Item::Parameter => bytes[0] <= «3»", "4"),
    ("4 parameters are too many", "table.rs", "Item::ParameterCount => bytes[0] <= «4»", "3"),
    ("5 parameters pass", "table.rs", "Item::ParameterCount => bytes[0] <= «4»", "5"),
    ("variable 15 is out of range", "table.rs", "Item::Rep => bytes[0] <= «15»", "14"),
    ("variable 16 is in range", "table.rs", "Item::Rep => bytes[0] <= «15»", "16"),
    ("operator 8 is out of range", "table.rs", "bytes[0] <= «8»", "7"),
    ("operator 9 is in range", "table.rs", "bytes[0] <= «8»", "9"),
    ("slot 0 is in range", "table.rs", "«(1..=15)».contains", "(0..=15)"),
    ("slot 15 is out of range", "table.rs", "«(1..=15)».contains", "(1..=14)"),
    ("slot 16 is in range", "table.rs", "«(1..=15)».contains", "(1..=16)"),
    ("the mark is a constant", "table.rs", "«bytes != ABSENT.to_be_bytes()»", "true"),
    (
        "rows 4 and 5 swapped",
        "table.rs",
        "«if held.iter().any(|(item, bytes)| !self.given(*item, bytes[0])) {\n            return Err(4);\n        }»",
        "let mut early = BTreeSet::new();
        if held.iter().any(|(item, bytes)| self.given(*item, bytes[0]) && self.taken(*item, bytes[0], &mut early)) { return Err(5); }
        if held.iter().any(|(item, bytes)| !self.given(*item, bytes[0])) { return Err(4); }",
    ),
    (
        "rows 3 and 4 swapped",
        "table.rs",
        "«if held.iter().any(|(item, bytes)| !item.holds(bytes)) {\n            return Err(3);\n        }»",
        "if held.iter().any(|(item, bytes)| !self.given(*item, bytes[0])) { return Err(4); }
        if held.iter().any(|(item, bytes)| !item.holds(bytes)) { return Err(3); }",
    ),
    ("a node may be named twice in one field", "table.rs", "«!here.insert(byte)»", "false"),
    ("a slot may be taken twice", "table.rs", "«self.slots.contains(&byte)»", "false"),
    ("a variable may have two reps", "table.rs", "«self.variables.contains(&byte)»", "false"),
    ("nbr-range does not take its slot", "table.rs", "(9, &[slot]) => {\n                «self.slots.insert(slot);»", ""),
    ("a node may name itself", "table.rs", "«usize::from(byte) < self.nodes»", "usize::from(byte) <= self.nodes"),
    ("a call's length before its definition", "table.rs", "let d = «body.first().ok_or(1_u32)?»;", "if body.len() > 5 { return Err(1); } body.first().ok_or(1_u32)?"),
    (
        "kind 11 has its definition tested before its length",
        "table.rs",
        "«self.test(&items, body)?;»",
        "if *kind == 11 && body.first().is_some_and(|d| !self.given(Item::Definition, *d)) { return Err(4); } self.test(&items, body)?;",
    ),
    ("the high byte of a length does not count", "table.rs", "[«head[1]», head[2]]", "0"),
    ("bytes after main pass", "table.rs", "«!rest.is_empty() || !self.unnamed.is_empty()»", "!self.unnamed.is_empty()"),
    (
        "bytes after main are read as fields",
        "table.rs",
        "«!rest.is_empty() || !self.unnamed.is_empty()»",
        "if !rest.is_empty() && take_field(rest).is_none() { return refused(1, self.nodes + self.definitions.len() + 1); }
        !rest.is_empty() || !self.unnamed.is_empty()",
    ),
    ("unnamed nodes pass", "table.rs", "«!rest.is_empty() || !self.unnamed.is_empty()»", "!rest.is_empty()"),
    ("places of 1-5 count from 1", "table.rs", "Err(number) => return refused(number, «place»)", "place + 1"),
    ("no main has the nodes as its place", "table.rs", "    refused(6, «0»)\n}\n\nimpl", "table.nodes"),
    // Trees.
    ("an operator's sort is its left side's", "tree.rs", "«left.sort == Sort::Field || right.sort == Sort::Field»", "left.sort == Sort::Field"),
    ("an if with a field and a number passes", "tree.rs", "«then.node.sort != otherwise.node.sort»", "false"),
    ("an if may have a field as condition", "tree.rs", "=> «field(condition)» ||", "false"),
    ("an if is a number", "tree.rs", "Form::If { then, .. } => «then.node.sort»", "Sort::Number"),
    ("a fold over a number passes", "tree.rs", "Form::FoldByOperator { initial, field: third, .. } => field(initial) || «!field(third)»", "false"),
    ("a fold by definition may start from a field", "tree.rs", "Form::FoldByDefinition { initial, field: third, .. } => «field(initial)»", "false"),
    ("a body may be a field", "tree.rs", "if «tree.sort == Sort::Field»", "tree.sort == Sort::Field && std::ptr::eq(tree, &self.main)"),
    ("7-9 name the highest node", "tree.rs", "«offending.first()»", "offending.last()"),
    ("rows 7 and 8 swapped", "tree.rs", "«[(7, self.sorts_broken()), (8, self.misread()), (9, self.misused())]»", "[(8, self.misread()), (7, self.sorts_broken()), (9, self.misused())]"),
    ("rows 8 and 9 swapped", "tree.rs", "«[(7, self.sorts_broken()), (8, self.misread()), (9, self.misused())]»", "[(7, self.sorts_broken()), (9, self.misused()), (8, self.misread())]"),
    ("a parameter at the count passes", "tree.rs", "if «*p >= parameters»", "*p > parameters"),
    (
        "a variable may stand in its own initial part",
        "tree.rs",
        "«initial.misreads(parameters, open, offending);»",
        "let mut open = open.clone(); open.insert(*variable); initial.misreads(parameters, &open, offending);",
    ),
    ("an outer variable is closed in a rep's initial part", "tree.rs", "«initial.misreads(parameters, open, offending);»", "initial.misreads(parameters, &BTreeSet::new(), offending);"),
    ("an outer variable is closed in a rep's update", "tree.rs", "let mut open = «open.clone()»;", "BTreeSet::new()"),
    ("spatial definitions may be called twice", "tree.rs", "«offending.extend(callers.iter().skip(1));»", "offending.extend(callers.iter().skip(2));"),
    ("the first of two calls is named", "tree.rs", "«offending.extend(callers.iter().skip(1));»", "if callers.len() > 1 { offending.extend(callers.first()); }"),
    ("no definition may be called twice", "tree.rs", "Form::Call { definition, .. } if «definition.spatial»", "true"),
    ("spatial does not go through calls", "tree.rs", "Form::Call { definition, .. } => «definition.spatial»", "false"),
    ("rep does not make spatial", "tree.rs", "Form::NbrLag { .. } => «true»", "!matches!(&node.form, Form::Rep { .. })"),
    ("folds by spatial definitions pass", "tree.rs", "if «definition.spatial || definition.parameters != 2»", "definition.parameters != 2"),
    ("folds by three parameters pass", "tree.rs", "if «definition.spatial || definition.parameters != 2»", "definition.spatial || definition.parameters < 2"),
    ("cost 1,000,000 is too much", "tree.rs", "if «self.main.cost() > COST»", "self.main.cost() >= COST"),
    ("cost 1,000,001 passes", "tree.rs", "if «self.main.cost() > COST»", "self.main.cost() > COST + 1"),
    ("folds cost 16 times the body", "tree.rs", "saturating_mul(«15»)", "16"),
    ("calls cost nothing", "tree.rs", "Form::Call { definition, .. } => «definition.cost»", "0"),
    ("uncalled definitions cost too", "tree.rs", "if «self.main.cost() > COST»", "self.main.cost() > COST || self.definitions.iter().any(|d| d.cost > COST)"),
    // More of the round.
    (
        "fold by operator evaluates its field first",
        "round.rs",
        "FoldByOperator { operator, initial, field } => {\n                let mut so_far = «self.number(initial, parameters)?»;",
        "Round { device: self.device, variables: self.variables.clone(), sent: Message::new() }.field(field, parameters)?; self.number(initial, parameters)?",
    ),
    (
        "fold by definition evaluates its field first",
        "round.rs",
        "FoldByDefinition { definition, initial, field } => {\n                let mut so_far = «self.number(initial, parameters)?»;",
        "Round { device: self.device, variables: self.variables.clone(), sent: Message::new() }.field(field, parameters)?; self.number(initial, parameters)?",
    ),
    ("fold by definition starts from 0", "round.rs", "FoldByDefinition { definition, initial, field } => {\n                let mut so_far = «self.number(initial, parameters)?»;", "self.number(initial, parameters)?; 0"),
    ("fold by operator skips 0", "round.rs", "«operator.apply(so_far, next)»", "if next == 0 { Ok(so_far) } else { operator.apply(so_far, next) }"),
    ("fold by definition faults at the fold", "round.rs", "so_far = «self.number(&definition.body, &[so_far, next])?»;", "self.number(&definition.body, &[so_far, next]).map_err(|_| Fault(node.number))?"),
    (
        "a call evaluates its arguments from the last",
        "round.rs",
        "for argument in «arguments» {",
        "for later in arguments.iter().rev() { Round { device: self.device, variables: self.variables.clone(), sent: Message::new() }.number(later, parameters)?; } arguments",
    ),
    ("a call hands over its arguments from the last", "round.rs", "«numbers.push(self.number(argument, parameters)?);»", "numbers.insert(0, self.number(argument, parameters)?);"),
    ("a call hands over the caller's parameters", "round.rs", "Value::Number(«self.number(&definition.body, &numbers)?»)", "self.number(&definition.body, if parameters.len() >= numbers.len() { parameters } else { &numbers })?"),
    (
        "rep evaluates its update before its initial part",
        "round.rs",
        "let initial = «self.number(initial, parameters)?»;\n                let stored",
        "if self.variables.contains_key(variable) { Round { device: self.device, variables: self.variables.clone(), sent: Message::new() }.number(update, parameters)?; } self.number(initial, parameters)?",
    ),
    ("rep starts again at 0", "round.rs", "match «self.variables.contains_key(variable)» {", "self.variables.get(variable).is_some_and(|n| *n != 0)"),
    (
        "mux evaluates only what it takes",
        "round.rs",
        "let otherwise = «self.number(otherwise, parameters)?»;",
        "let taken = Round { device: self.device, variables: self.variables.clone(), sent: Message::new() }.number(condition, parameters).is_ok_and(takes_then); if taken { 0 } else { self.number(otherwise, parameters)? }",
    ),
    ("if erases the taken branch instead", "round.rs", "«self.variables.retain(|v, _| !other.variables.contains(v));»", "self.variables.retain(|v, _| !taken.variables.contains(v));"),
    ("if does not erase variable 15", "round.rs", "«self.variables.retain(|v, _| !other.variables.contains(v));»", "self.variables.retain(|v, _| *v == 15 || !other.variables.contains(v));"),
    ("nbr does not hear device 16", "round.rs", "Value::Field(«self.heard(*slot)»)", "let mut field = self.heard(*slot); field.remove(&16); field"),
    ("nbr does not hear device 1", "round.rs", "Value::Field(«self.heard(*slot)»)", "let mut field = self.heard(*slot); field.remove(&1); field"),
    ("nbr does not hear 0", "round.rs", "Value::Field(«self.heard(*slot)»)", "let mut field = self.heard(*slot); field.retain(|_, n| *n != 0); field"),
    ("nbr hears itself", "round.rs", "Value::Field(«self.heard(*slot)»)", "let mut field = self.heard(*slot); if field.len() == 1 { field.insert(2, number); } field"),
    ("nbr-range drops distance 0", "round.rs", "«heard.get(device) == Some(&0)»", "heard.get(device) == Some(&0) && self.device.distances[device] != 0"),
    ("slot 15 is not sent", "round.rs", "«self.sent.insert(*slot, number);»", "if *slot != 15 { self.sent.insert(*slot, number); }"),
    ("the round begins with what was pending", "round.rs", "variables: device.variables.clone(), sent: «Message::new()» };", "device.pending.values().next().cloned().unwrap_or_default()"),
    // More of the events.
    ("fire sends nothing at distance 0", "event.rs", "device.pending = «device.distances.keys().map(|b| (*b, outcome.sent.clone())).collect()»;", "device.distances.iter().filter(|(_, d)| **d != 0).map(|(b, _)| (*b, outcome.sent.clone())).collect()"),
    ("fire sends to the lowest device only", "event.rs", "device.pending = «device.distances.keys().map(|b| (*b, outcome.sent.clone())).collect()»;", "device.distances.keys().take(1).map(|b| (*b, outcome.sent.clone())).collect()"),
    ("deliver forgets other senders", "network.rs", "«self.heard.insert(from, message);»", "self.heard.clear(); self.heard.insert(from, message);"),
    ("deliver forgets slot 15", "network.rs", "«self.heard.insert(from, message);»", "self.heard.insert(from, message.into_iter().filter(|(slot, _)| *slot != 15).collect());"),
    ("lose forgets what was heard", "event.rs", "=> {\n                «network.device(a).pending.remove(&b);»", "network.device(a).pending.remove(&b); network.device(b).heard.remove(&a);"),
    ("signal puts out other sensors", "event.rs", "«network.device(a).lit.insert(sensor);»", "network.device(a).lit = [sensor].into_iter().collect();"),
    ("a link's distance is one byte", "event.rs", "«network.device(a).distances.insert(b, distance);»", "network.device(a).distances.insert(b, distance & 255);"),
    ("a new distance drops the message", "event.rs", "«network.device(a).distances.insert(b, distance);»", "network.device(a).distances.insert(b, distance); network.device(a).pending.remove(&b);"),
    ("a run refuses the empty list", "lib.rs", "if «answers.len() < 2 * events.len()»", "answers.len() < 2 * events.len().max(1)"),
    // More of the table and trees.
    ("nbr does not make spatial", "tree.rs", "Form::NbrLag { .. } => «true»", "!matches!(&node.form, Form::Nbr { .. })"),
    ("nbr-range does not make spatial", "tree.rs", "Form::NbrLag { .. } => «true»", "!matches!(&node.form, Form::NbrRange { .. })"),
    ("folds by one parameter pass", "tree.rs", "if «definition.spatial || definition.parameters != 2»", "definition.spatial || definition.parameters != 2 && definition.parameters != 1"),
    ("main may read parameters", "tree.rs", "bodies.chain([(«0», &self.main)])", "4"),
    ("variables are read in any tree", "tree.rs", "tree.misreads(parameters, &«BTreeSet::new()», &mut offending);", "self.trees().iter().flat_map(|(_, tree)| { let mut v = BTreeSet::new(); tree.rep_variables(&mut v); v }).filter(|_| tree.number != self.main.number).collect()"),
    ("main may stand unnamed beside others", "table.rs", "«!rest.is_empty() || !self.unnamed.is_empty()»", "!rest.is_empty() || self.unnamed.len() > 1"),
    // Cases that seldom come together, and numbers that wrap.
    (
        "10 before 7 to 9",
        "tree.rs",
        "«[(7, self.sorts_broken()), (8, self.misread()), (9, self.misused())]»",
        "if self.main.cost() > COST { return refused(10, 0); } [(7, self.sorts_broken()), (8, self.misread()), (9, self.misused())]",
    ),
    (
        "10 before 8 and 9",
        "tree.rs",
        "«[(7, self.sorts_broken()), (8, self.misread()), (9, self.misused())]»",
        "if self.sorts_broken().is_empty() && self.main.cost() > COST { return refused(10, 0); } [(7, self.sorts_broken()), (8, self.misread()), (9, self.misused())]",
    ),
    (
        "10 before 9",
        "tree.rs",
        "«[(7, self.sorts_broken()), (8, self.misread()), (9, self.misused())]»",
        "if self.sorts_broken().is_empty() && self.misread().is_empty() && self.main.cost() > COST { return refused(10, 0); } [(7, self.sorts_broken()), (8, self.misread()), (9, self.misused())]",
    ),
    ("the last of three calls is named", "tree.rs", "«offending.extend(callers.iter().skip(1));»", "if callers.len() > 1 { offending.extend(callers.last()); }"),
    ("only three calls of a spatial definition are too many", "tree.rs", "«offending.extend(callers.iter().skip(1));»", "if callers.len() > 2 { offending.extend(callers.iter().skip(1)); }"),
    (
        "folds by what is spatial through a rep pass",
        "tree.rs",
        "if «definition.spatial || definition.parameters != 2»",
        "let mut spatial = false;
        definition.body.walk(&mut |node| spatial |= match &node.form {
            Form::Nbr { .. } | Form::NbrRange { .. } | Form::NbrLag { .. } => true,
            Form::Call { definition, .. } => definition.spatial,
            _ => false,
        });
        spatial || definition.parameters != 2",
    ),
    (
        "folds by what is spatial through a call pass",
        "tree.rs",
        "if «definition.spatial || definition.parameters != 2»",
        "let mut spatial = false;
        definition.body.walk(&mut |node| spatial |= matches!(&node.form, Form::Rep { .. } | Form::Nbr { .. } | Form::NbrRange { .. } | Form::NbrLag { .. }));
        spatial || definition.parameters != 2",
    ),
    ("cost wraps in 31 bits", "tree.rs", "if «self.main.cost() > COST»", "self.main.cost() % (1 << 31) > COST"),
    ("cost wraps in 32 bits", "tree.rs", "if «self.main.cost() > COST»", "self.main.cost() % (1 << 32) > COST"),
    ("cost wraps in 33 bits", "tree.rs", "if «self.main.cost() > COST»", "self.main.cost() % (1 << 33) > COST"),
    ("cost wraps in 64 bits", "tree.rs", "if «self.main.cost() > COST»", "self.main.cost() % (1 << 64) > COST"),
    ("cost is a signed number of 32 bits", "tree.rs", "if «self.main.cost() > COST»", "self.main.cost() as i32 > COST as i32"),
    ("place of 12 wraps at 256", "event.rs", "return refused(12, «events.len()»);", "events.len() % 256"),
    ("place of 12 stops at 10", "event.rs", "return refused(12, «events.len()»);", "events.len().min(10)"),
    ("place of 12 stops at 1,000", "event.rs", "return refused(12, «events.len()»);", "events.len().min(1_000)"),
    ("a space longer by 64 is refused", "lib.rs", "if «answers.len() < 2 * events.len()»", "answers.len() < 2 * events.len() || answers.len() >= 2 * events.len() + 64"),
    ("a space longer by 5,000 is refused", "lib.rs", "if «answers.len() < 2 * events.len()»", "answers.len() < 2 * events.len() || answers.len() >= 2 * events.len() + 5_000"),
    ("far space beyond the pairs is cleared", "lib.rs", "«network.encode(cells);»", "network.encode(cells); for rest in answers.iter_mut().skip(2 * events.len() + 63) { *rest = 0; }"),
    // Ages: when they grow.
    (
        "a round reads what its end makes fade",
        "event.rs",
        "let outcome = «round::evaluate(&program.main, device)»",
        "let mut faded = device.clone(); faded.fade(); round::evaluate(&program.main, &faded)",
    ),
    (
        "a faulted round ages",
        "event.rs",
        "let outcome = «round::evaluate(&program.main, device)»",
        "let outcome = round::evaluate(&program.main, device); if outcome.is_err() { device.fade(); } outcome",
    ),
    ("nothing ages", "event.rs", "«device.fade();»", ""),
    ("a round ages twice", "event.rs", "«device.fade();»", "device.fade(); device.fade();"),
    ("a round that sends no slot ages nothing", "event.rs", "«device.fade();»", "if !outcome.sent.is_empty() { device.fade(); }"),
    (
        "a round ages only senders that it read",
        "event.rs",
        "«device.fade();»",
        "for (b, left) in device.readings.iter_mut() {
            let read = device.heard.get(b).is_some_and(|message| message.keys().any(|slot| outcome.sent.contains_key(slot)));
            *left += i32::from(!read);
        }
        device.fade();",
    ),
    ("a round ages what every device heard", "event.rs", "«device.fade();»", "network.devices.values_mut().for_each(|other| other.fade());"),
    (
        "a round ages what others heard from it",
        "event.rs",
        "«device.fade();»",
        "device.fade();
        for other in network.devices.values_mut() {
            let left = other.readings.remove(&a).unwrap_or(0) - 1;
            if left > 0 { other.readings.insert(a, left); } else { other.heard.remove(&a); }
        }",
    ),
    ("a signal ages", "event.rs", "«network.device(a).lit.insert(sensor);»", "network.device(a).lit.insert(sensor); network.device(a).fade();"),
    ("only the lowest sender's age grows", "network.rs", "«self.readings.values_mut().for_each(|left| *left -= 1);»", "self.readings.values_mut().take(1).for_each(|left| *left -= 1);"),
    ("only the highest sender's age grows", "network.rs", "«self.readings.values_mut().for_each(|left| *left -= 1);»", "self.readings.values_mut().rev().take(1).for_each(|left| *left -= 1);"),
    (
        "device 16's age does not grow",
        "network.rs",
        "«self.readings.values_mut().for_each(|left| *left -= 1);»",
        "self.readings.iter_mut().filter(|(from, _)| **from != 16).for_each(|(_, left)| *left -= 1);",
    ),
    (
        "only ages of linked senders grow",
        "network.rs",
        "«self.readings.values_mut().for_each(|left| *left -= 1);»",
        "self.readings.iter_mut().filter(|(from, _)| self.distances.contains_key(from)).for_each(|(_, left)| *left -= 1);",
    ),
    (
        "an empty message does not age",
        "network.rs",
        "«self.readings.values_mut().for_each(|left| *left -= 1);»",
        "self.readings.iter_mut().filter(|(from, _)| self.heard.get(from).is_some_and(|message| !message.is_empty())).for_each(|(_, left)| *left -= 1);",
    ),
    // Ages: when and what fades.
    ("what was heard fades at 2", "network.rs", "«self.readings.retain(|_, left| *left > 0);»", "self.readings.retain(|_, left| *left > 1);"),
    ("what was heard fades at 4", "network.rs", "«self.readings.retain(|_, left| *left > 0);»", "self.readings.retain(|_, left| *left > -1);"),
    ("an age stops at 2", "network.rs", "«self.readings.retain(|_, left| *left > 0);»", "self.readings.values_mut().for_each(|left| *left = (*left).max(1));"),
    (
        "slots fade, the age stays at 2",
        "network.rs",
        "«self.readings.retain(|_, left| *left > 0);»",
        "for (from, left) in &mut self.readings { if *left < 1 { *left = 1; self.heard.remove(from); } }",
    ),
    (
        "slots fade, the age goes on growing",
        "network.rs",
        "«self.readings.retain(|_, left| *left > 0);»",
        "for (from, left) in &self.readings { if *left < 1 { self.heard.remove(from); } }",
    ),
    (
        "the distance fades too",
        "network.rs",
        "«self.readings.retain(|_, left| *left > 0);»",
        "self.readings.retain(|from, left| { if *left < 1 { self.distances.remove(from); } *left > 0 });",
    ),
    (
        "the message pending to the sender fades too",
        "network.rs",
        "«self.readings.retain(|_, left| *left > 0);»",
        "self.readings.retain(|from, left| { if *left < 1 { self.pending.remove(from); } *left > 0 });",
    ),
    ("the age fades, slots stay", "network.rs", "«self.heard.retain(|from, _| self.readings.contains_key(from));»", ""),
    (
        "only slot 1 fades",
        "network.rs",
        "«self.heard.retain(|from, _| self.readings.contains_key(from));»",
        "for (from, message) in &mut self.heard { if !self.readings.contains_key(from) { message.remove(&1); } }",
    ),
    (
        "slot 15 does not fade",
        "network.rs",
        "«self.heard.retain(|from, _| self.readings.contains_key(from));»",
        "for (from, message) in &mut self.heard { if !self.readings.contains_key(from) { message.retain(|slot, _| *slot == 15); } }",
    ),
    // Ages: what sets them.
    ("a delivery sets no age", "network.rs", "«self.readings.insert(from, READINGS);»", ""),
    ("a delivery leaves the age", "network.rs", "«self.readings.insert(from, READINGS);»", "self.readings.entry(from).or_insert(READINGS);"),
    ("a delivery sets the age to 1", "network.rs", "«self.readings.insert(from, READINGS);»", "self.readings.insert(from, READINGS - 1);"),
    (
        "a delivery starts every age anew",
        "network.rs",
        "«self.readings.insert(from, READINGS);»",
        "self.readings.insert(from, READINGS); self.readings.values_mut().for_each(|left| *left = READINGS);",
    ),
    ("an empty message sets no age", "network.rs", "«self.readings.insert(from, READINGS);»", "if !message.is_empty() { self.readings.insert(from, READINGS); }"),
    (
        "an empty message takes the age",
        "network.rs",
        "«self.readings.insert(from, READINGS);»",
        "if message.is_empty() { self.readings.remove(&from); } else { self.readings.insert(from, READINGS); }",
    ),
    (
        "a loss sets the age",
        "event.rs",
        "=> {\n                «network.device(a).pending.remove(&b);»",
        "network.device(a).pending.remove(&b); network.device(b).readings.insert(a, super::network::READINGS);",
    ),
    (
        "a delivery answered 16 sets the age",
        "event.rs",
        "Turned { number, value: «0» }",
        "if let (16, Event::Deliver { a, b }) = (number, self) { network.device(b).readings.insert(a, super::network::READINGS); } 0",
    ),
    (
        "a new distance starts the age anew",
        "event.rs",
        "«network.device(a).distances.insert(b, distance);»",
        "network.device(a).distances.insert(b, distance); network.device(a).readings.entry(b).and_modify(|left| *left = super::network::READINGS);",
    ),
    (
        "ending a link forgets what was heard",
        "event.rs",
        "«network.device(a).distances.remove(&b);»",
        "network.device(a).distances.remove(&b); network.device(a).heard.remove(&b); network.device(a).readings.remove(&b);",
    ),
    ("fresh ages are 0", "network.rs", "        _ => «ABSENT»,\n", "if matches!(cell, Cell::Age { .. }) { 0 } else { ABSENT }"),
    ("ages are not written", "network.rs", "«put(Cell::Age { from: *b }, READINGS - left);»", ""),
    ("an age is written as the rounds left", "network.rs", "«put(Cell::Age { from: *b }, READINGS - left);»", "put(Cell::Age { from: *b }, *left);"),
    // Ages: which are sound, and which cell is named.
    ("no slot asks for an age", "network.rs", "«(1..=15).all(|slot| cells[address(device, Cell::Heard { from, slot })] == ABSENT)»", "true"),
    (
        "only slot 1 asks for an age",
        "network.rs",
        "«(1..=15).all(|slot| cells[address(device, Cell::Heard { from, slot })] == ABSENT)»",
        "cells[address(device, Cell::Heard { from, slot: 1 })] == ABSENT",
    ),
    (
        "only slot 15 asks for an age",
        "network.rs",
        "«(1..=15).all(|slot| cells[address(device, Cell::Heard { from, slot })] == ABSENT)»",
        "cells[address(device, Cell::Heard { from, slot: 15 })] == ABSENT",
    ),
    (
        "slot 15 asks for no age",
        "network.rs",
        "«(1..=15).all(|slot| cells[address(device, Cell::Heard { from, slot })] == ABSENT)»",
        "(1..=14).all(|slot| cells[address(device, Cell::Heard { from, slot })] == ABSENT)",
    ),
    (
        "a distance asks for an age",
        "network.rs",
        "«(1..=15).all(|slot| cells[address(device, Cell::Heard { from, slot })] == ABSENT)»",
        "(0..=15).all(|slot| cells[address(device, Cell::Heard { from, slot })] == ABSENT)",
    ),
    ("age 3 is sound", "network.rs", "«(0..READINGS).contains(&number)»", "(0..=READINGS).contains(&number)"),
    ("age 2 is unsound", "network.rs", "«(0..READINGS).contains(&number)»", "(0..READINGS - 1).contains(&number)"),
    ("an age below 0 is sound", "network.rs", "«(0..READINGS).contains(&number)»", "number < READINGS"),
    ("an age above 3 is sound", "network.rs", "«(0..READINGS).contains(&number)»", "number >= 0 && number != READINGS"),
    (
        "an age asks for a slot",
        "network.rs",
        "«(0..READINGS).contains(&number)»",
        "let Cell::Age { from } = cell else { return false };
        (0..READINGS).contains(&number) && (1..=15).any(|slot| cells[address(device, Cell::Heard { from, slot })] != ABSENT)",
    ),
    (
        "a device may have an age for itself",
        "network.rs",
        "=>\n        {\n            «number == when_fresh(cell)»",
        "number == when_fresh(cell) || matches!(cell, Cell::Age { .. }) && (0..READINGS).contains(&number)",
    ),
    (
        "11 names the slot that asks for an age",
        "network.rs",
        "return refused(11, «place»);",
        "match cell {
            Cell::Age { from } if *number == ABSENT => {
                (1..=15).map(|slot| address(device, Cell::Heard { from, slot })).find(|slot| cells[*slot] != ABSENT).unwrap_or(place)
            }
            _ => place,
        }",
    ),
    (
        "11 names an age before a mark of the same device",
        "network.rs",
        "return refused(11, «place»);",
        "let ages = (1..=16).map(|from| address(device, Cell::Age { from }));
        ages.into_iter().find(|age| { let (d, c) = meaning(*age); !sound(cells, d, c, cells[*age]) }).unwrap_or(place)",
    ),
    (
        "11 names an age after all other cells",
        "network.rs",
        "return refused(11, «place»);",
        "(0..CELLS).filter(|p| p % BLOCK < 529).find(|p| { let (d, c) = meaning(*p); !sound(cells, d, c, cells[*p]) }).unwrap_or(place)",
    ),
    ("a network without ages is sound", "network.rs", "if «cells.len() != CELLS» {", "cells.len() != CELLS && cells.len() != 8_464"),
    ("fresh takes a network without ages", "lib.rs", "«network.len() != network::CELLS»", "network.len() != network::CELLS && network.len() != 8_464"),
    // nbr-lag: whom it takes.
    ("nbr-lag asks for a link", "round.rs", "«message.get(&slot) == Some(&0)»", "message.get(&slot) == Some(&0) && self.device.distances.contains_key(b)"),
    ("nbr-lag asks that there be no link", "round.rs", "«message.get(&slot) == Some(&0)»", "message.get(&slot) == Some(&0) && !self.device.distances.contains_key(b)"),
    ("nbr-lag takes whatever was heard", "round.rs", "«message.get(&slot) == Some(&0)»", "message.contains_key(&slot)"),
    ("nbr-lag takes what was heard with its slot's number", "round.rs", "«message.get(&slot) == Some(&0)»", "message.get(&slot) == Some(&i32::from(slot))"),
    ("nbr-lag takes what was heard with its age", "round.rs", "«message.get(&slot) == Some(&0)»", "message.get(&slot) == Some(&age)"),
    ("nbr-lag takes what was heard with 0 or below", "round.rs", "«message.get(&slot) == Some(&0)»", "message.get(&slot).is_some_and(|n| *n <= 0)"),
    ("nbr-lag needs nothing heard in its slot", "round.rs", "«message.get(&slot) == Some(&0)»", "message.get(&slot).is_none_or(|n| *n == 0)"),
    ("nbr-lag takes whoever was heard", "round.rs", "«message.get(&slot) == Some(&0)»", "true"),
    ("nbr-lag takes 0 heard in any slot", "round.rs", "«message.get(&slot) == Some(&0)»", "message.values().any(|n| *n == 0)"),
    ("nbr-lag leaves out age 0", "round.rs", "«message.get(&slot) == Some(&0)»", "message.get(&slot) == Some(&0) && age != 0"),
    ("nbr-lag leaves out age 1", "round.rs", "«message.get(&slot) == Some(&0)»", "message.get(&slot) == Some(&0) && age != 1"),
    ("nbr-lag leaves out age 2", "round.rs", "«message.get(&slot) == Some(&0)»", "message.get(&slot) == Some(&0) && age != 2"),
    ("nbr-lag leaves out device 1", "round.rs", "«message.get(&slot) == Some(&0)»", "message.get(&slot) == Some(&0) && *b != 1"),
    ("nbr-lag leaves out device 16", "round.rs", "«message.get(&slot) == Some(&0)»", "message.get(&slot) == Some(&0) && *b != 16"),
    ("nbr-lag takes the lowest device only", "round.rs", "Value::Field(«lags»)", "lags.into_iter().take(1).collect()"),
    // nbr-lag and nbr-range: what they give.
    ("nbr-lag gives the distance", "round.rs", "Value::Field(«lags»)", "lags.keys().filter_map(|b| Some((*b, *self.device.distances.get(b)?))).collect()"),
    ("nbr-lag gives the distance where there is a link", "round.rs", "lags.insert(*b, «age»);", "*self.device.distances.get(b).unwrap_or(&age)"),
    ("nbr-lag gives the age after this round", "round.rs", "Value::Field(«lags»)", "lags.into_iter().map(|(b, age)| (b, age + 1)).filter(|(_, age)| *age < 3).collect()"),
    ("nbr-lag counts this round", "round.rs", "lags.insert(*b, «age»);", "age + 1"),
    ("nbr-lag gives the rounds that are left", "round.rs", "lags.insert(*b, «age»);", "READINGS - age"),
    ("nbr-lag gives 0", "round.rs", "lags.insert(*b, «age»);", "0"),
    ("nbr-lag gives 1 at most", "round.rs", "lags.insert(*b, «age»);", "age.min(1)"),
    ("nbr-lag gives its slot", "round.rs", "lags.insert(*b, «age»);", "i32::from(slot)"),
    ("nbr-lag gives the age of the device with its slot's number", "round.rs", "lags.insert(*b, «age»);", "self.device.readings.get(&slot).map_or(age, |left| READINGS - left)"),
    ("nbr-lag gives the next sender's age", "round.rs", "lags.insert(*b, «age»);", "self.device.readings.get(&(b + 1)).map_or(age, |left| READINGS - left)"),
    ("nbr-lag gives the lowest sender's age", "round.rs", "lags.insert(*b, «age»);", "self.device.readings.values().next().map_or(age, |left| READINGS - left)"),
    (
        "nbr-range gives the age",
        "round.rs",
        "let mut field = «self.device.distances.clone()»;",
        "self.device.distances.keys().filter_map(|b| Some((*b, READINGS - self.device.readings.get(b)?))).collect()",
    ),
    ("nbr-range is nbr-lag", "round.rs", "let mut field = «self.device.distances.clone()»;", "self.lags(*slot)"),
    (
        "nbr-range gives the age where there is no link",
        "round.rs",
        "let mut field = «self.device.distances.clone()»;",
        "let mut all = self.lags(*slot); all.extend(&self.device.distances); all",
    ),
    ("nbr-range asks for age 0", "round.rs", "«heard.get(device) == Some(&0)»", "heard.get(device) == Some(&0) && self.device.readings.get(device) == Some(&READINGS)"),
    // nbr-lag: what it sends.
    ("nbr-lag sends nothing", "round.rs", "«self.sent.insert(slot, 0);»", ""),
    ("nbr-lag sends 1", "round.rs", "«self.sent.insert(slot, 0);»", "self.sent.insert(slot, 1);"),
    ("nbr-lag sends its slot's number", "round.rs", "«self.sent.insert(slot, 0);»", "self.sent.insert(slot, i32::from(slot));"),
    ("nbr-lag sends its greatest age", "round.rs", "Value::Field(«lags»)", "self.sent.insert(*slot, lags.values().copied().max().unwrap_or(0)); lags"),
    ("nbr-lag sends how many it takes", "round.rs", "Value::Field(«lags»)", "self.sent.insert(*slot, lags.len() as i32); lags"),
    ("nbr-lag sends nothing where it takes nobody", "round.rs", "Value::Field(«lags»)", "if lags.is_empty() { self.sent.remove(slot); } lags"),
    ("nbr-lag sends nothing where it takes somebody", "round.rs", "Value::Field(«lags»)", "if !lags.is_empty() { self.sent.remove(slot); } lags"),
    ("nbr-lag does not send in slot 15", "round.rs", "«self.sent.insert(slot, 0);»", "if slot != 15 { self.sent.insert(slot, 0); }"),
    (
        "nbr-lag sends from the branch not taken",
        "round.rs",
        "«self.value(&taken.node, parameters)?»",
        "if let Form::NbrLag { slot } = &other.node.form { self.sent.insert(*slot, 0); } self.value(&taken.node, parameters)?",
    ),
    (
        "nbr-lag below the branch not taken sends",
        "round.rs",
        "«self.value(&taken.node, parameters)?»",
        concat!(
            "let below = |slot: &u8| !matches!(&other.node.form, Form::NbrLag { .. }) && ",
            of_a_lag_in!("other.node"),
            "; self.sent.extend((1..=15).filter(below).map(|slot| (slot, 0))); self.value(&taken.node, parameters)?"
        ),
    ),
    (
        "nbr-lag in a called definition sends nothing",
        "round.rs",
        "Value::Number(«self.number(&definition.body, &numbers)?»)",
        concat!(
            "let number = self.number(&definition.body, &numbers)?; self.sent.retain(|slot, _| !",
            of_a_lag_in!("definition.body"),
            "); number"
        ),
    ),
    // nbr-lag: what else its round does.
    ("nbr-lag forgets the variable with its slot's number", "round.rs", "Value::Field(«lags»)", "self.variables.remove(slot); lags"),
    (
        "a round with an nbr-lag ages nothing",
        "event.rs",
        "«device.fade();»",
        concat!("if !outcome.sent.keys().any(|slot| ", of_a_lag_in!("program"), ") { device.fade(); }"),
    ),
    ("who nbr-lag takes ages twice", "event.rs", "«device.fade();»", of_who_lag_takes!("*left -= 1;")),
    ("who nbr-lag takes does not age", "event.rs", "«device.fade();»", of_who_lag_takes!("*left += 1;")),
    ("who nbr-lag takes does not fade", "event.rs", "«device.fade();»", of_who_lag_takes!("*left = (*left).max(2);")),
    // nbr-lag in the table.
    (
        "kind 13 is unknown",
        "table.rs",
        "let Some((kind, body)) = «body.split_first()» else {",
        "body.split_first().map(|(kind, rest)| match (*kind, rest) { (13, _) => (&14, rest), _ => (kind, rest) })",
    ),
    (
        "kind 14 is nbr-lag too",
        "table.rs",
        "let Some((kind, body)) = «body.split_first()» else {",
        "body.split_first().map(|(kind, rest)| match (*kind, rest) { (14, _) => (&13, rest), _ => (kind, rest) })",
    ),
    (
        "nbr-lag may have a byte more",
        "table.rs",
        "let Some((kind, body)) = «body.split_first()» else {",
        "body.split_first().map(|(kind, rest)| match (*kind, rest) { (13, [_, _]) => (kind, &rest[..1]), _ => (kind, rest) })",
    ),
    (
        "nbr-lag may have 256 bytes more",
        "table.rs",
        "let Some((kind, body)) = «body.split_first()» else {",
        "body.split_first().map(|(kind, rest)| match (*kind, rest) { (13, [_, ..]) if rest.len() == 257 => (kind, &rest[..1]), _ => (kind, rest) })",
    ),
    (
        "nbr-lag may have no slot",
        "table.rs",
        "let Some((kind, body)) = «body.split_first()» else {",
        "body.split_first().map(|(kind, rest)| match (*kind, rest) { (13, []) => (kind, &[1][..]), _ => (kind, rest) })",
    ),
    (
        "the slot of nbr-lag is tested before its length",
        "table.rs",
        "«self.test(&items, body)?;»",
        "if *kind == 13 && body.first().is_some_and(|slot| !Item::Slot.holds(&[*slot])) { return Err(3); } self.test(&items, body)?;",
    ),
    (
        "the 257th node may be an nbr-lag",
        "table.rs",
        "«if self.nodes == NODES {\n            return Err(2);\n        }»",
        "if self.nodes == NODES && *kind != 13 { return Err(2); }",
    ),
    (
        "the length of nbr-lag is tested before the 257th node",
        "table.rs",
        "«if self.nodes == NODES {\n            return Err(2);\n        }»",
        "if *kind == 13 && body.len() != 1 { return Err(1); } if self.nodes == NODES { return Err(2); }",
    ),
    (
        "the slot of nbr-lag is tested before the 257th node",
        "table.rs",
        "«if self.nodes == NODES {\n            return Err(2);\n        }»",
        "if *kind == 13 && body == [0] { return Err(3); } if self.nodes == NODES { return Err(2); }",
    ),
    ("slot 0 of nbr-lag is in range", "table.rs", "«self.test(&items, body)?;»", "if !(*kind == 13 && body == [0]) { self.test(&items, body)?; }"),
    ("slot 16 of nbr-lag is in range", "table.rs", "«self.test(&items, body)?;»", "if !(*kind == 13 && body == [16]) { self.test(&items, body)?; }"),
    ("slot 1 of nbr-lag is out of range", "table.rs", "«self.test(&items, body)?;»", "if *kind == 13 && body == [1] { return Err(3); } self.test(&items, body)?;"),
    ("slot 15 of nbr-lag is out of range", "table.rs", "«self.test(&items, body)?;»", "if *kind == 13 && body == [15] { return Err(3); } self.test(&items, body)?;"),
    ("nbr-lag does not take its slot", "table.rs", "(13, &[slot]) => {\n                «self.slots.insert(slot);»", ""),
    // The next four note in slots from 17 on what an nbr-lag took.
    (
        "nbr-lag may take the slot of an nbr or nbr-range",
        "table.rs",
        "«self.test(&items, body)?;»",
        "if *kind == 13 {
            let mut apart = Table::default();
            apart.slots.extend(self.slots.iter().filter(|slot| **slot > 16).map(|slot| slot - 16));
            apart.test(&items, body)?;
            self.slots.insert(body[0] + 16);
        } else {
            self.test(&items, body)?;
        }",
    ),
    (
        "nbr-lag may take the slot of an nbr-lag",
        "table.rs",
        "«self.test(&items, body)?;»",
        "if *kind == 13 && body.len() == 1 && self.slots.contains(&body[0].wrapping_add(16)) { self.slots.remove(&body[0]); }
        self.test(&items, body)?;
        if *kind == 13 { self.slots.insert(body[0] + 16); }",
    ),
    (
        "nbr may take the slot of an nbr-lag",
        "table.rs",
        "«self.test(&items, body)?;»",
        "if *kind == 8 && body.first().is_some_and(|slot| self.slots.contains(&slot.wrapping_add(16))) { self.slots.remove(&body[0]); }
        self.test(&items, body)?;
        if *kind == 13 { self.slots.insert(body[0] + 16); }",
    ),
    (
        "nbr-range may take the slot of an nbr-lag",
        "table.rs",
        "«self.test(&items, body)?;»",
        "if *kind == 9 && body.first().is_some_and(|slot| self.slots.contains(&slot.wrapping_add(16))) { self.slots.remove(&body[0]); }
        self.test(&items, body)?;
        if *kind == 13 { self.slots.insert(body[0] + 16); }",
    ),
    (
        "an nbr-lag may stand unnamed",
        "table.rs",
        "«!rest.is_empty() || !self.unnamed.is_empty()»",
        "!rest.is_empty() || !self.unnamed.values().all(|node| matches!(node.form, Form::NbrLag { .. }))",
    ),
    // nbr-lag in the trees.
    ("nbr-lag is a number", "tree.rs", "Form::NbrLag { .. } => «Sort::Field»", "if matches!(&form, Form::NbrLag { .. }) { Sort::Number } else { Sort::Field }"),
    (
        "an if of nbr-lags is a number",
        "tree.rs",
        "Form::If { then, .. } => «then.node.sort»",
        "if matches!(&then.node.form, Form::NbrLag { .. }) { Sort::Number } else { then.node.sort }",
    ),
    (
        "a body may be an nbr-lag",
        "tree.rs",
        "if «tree.sort == Sort::Field»",
        "tree.sort == Sort::Field && (std::ptr::eq(tree, &self.main) || !matches!(&tree.form, Form::NbrLag { .. }))",
    ),
    (
        "main may be an nbr-lag",
        "tree.rs",
        "if «tree.sort == Sort::Field»",
        "tree.sort == Sort::Field && !(std::ptr::eq(tree, &self.main) && matches!(&tree.form, Form::NbrLag { .. }))",
    ),
    ("sense may have an nbr-lag", "tree.rs", "let field = |node: &Node| «node.sort == Sort::Field»;", field_but_lag_under!("Sense")),
    ("rep may have an nbr-lag", "tree.rs", "let field = |node: &Node| «node.sort == Sort::Field»;", field_but_lag_under!("Rep")),
    ("an if may have an nbr-lag as condition", "tree.rs", "let field = |node: &Node| «node.sort == Sort::Field»;", field_but_lag_under!("If")),
    ("mux may have an nbr-lag", "tree.rs", "let field = |node: &Node| «node.sort == Sort::Field»;", field_but_lag_under!("Mux")),
    ("nbr may have an nbr-lag", "tree.rs", "let field = |node: &Node| «node.sort == Sort::Field»;", field_but_lag_under!("Nbr")),
    ("a call may have an nbr-lag", "tree.rs", "let field = |node: &Node| «node.sort == Sort::Field»;", field_but_lag_under!("Call")),
    (
        "an if may have an nbr-lag and a number",
        "tree.rs",
        "«then.node.sort != otherwise.node.sort»",
        "let lag = |branch: &Branch| matches!(&branch.node.form, Form::NbrLag { .. }); then.node.sort != otherwise.node.sort && !lag(then) && !lag(otherwise)",
    ),
    (
        "a fold by operator may start from an nbr-lag",
        "tree.rs",
        "Form::FoldByOperator { initial, field: third, .. } => «field(initial)»",
        "field(initial) && !matches!(&initial.form, Form::NbrLag { .. })",
    ),
    (
        "a fold by definition may start from an nbr-lag",
        "tree.rs",
        "Form::FoldByDefinition { initial, field: third, .. } => «field(initial)»",
        "field(initial) && !matches!(&initial.form, Form::NbrLag { .. })",
    ),
    ("nbr-lag does not make spatial", "tree.rs", "Form::NbrLag { .. } => «true»", "!matches!(&node.form, Form::NbrLag { .. })"),
    (
        "definitions with nbr-lag may be called twice",
        "tree.rs",
        "Form::Call { definition, .. } if «definition.spatial»",
        spatial_but_for_lag!("spatial"),
    ),
    (
        "folds by definitions with nbr-lag pass",
        "tree.rs",
        "if «definition.spatial || definition.parameters != 2»",
        spatial_but_for_lag!("spatial || definition.parameters != 2"),
    ),
    (
        "spatial by nbr-lag does not go through calls",
        "tree.rs",
        "Form::Call { definition, .. } => «definition.spatial»",
        spatial_but_for_lag!("spatial"),
    ),
    (
        "nbr-lag costs 0",
        "tree.rs",
        "cost = «cost.saturating_add(1).saturating_add(more)»;",
        "cost.saturating_add(u128::from(!matches!(&node.form, Form::NbrLag { .. }))).saturating_add(more)",
    ),
    (
        "nbr-lag costs 2",
        "tree.rs",
        "cost = «cost.saturating_add(1).saturating_add(more)»;",
        "cost.saturating_add(1 + u128::from(matches!(&node.form, Form::NbrLag { .. }))).saturating_add(more)",
    ),
    // A long list.
    ("a run does at most 16,384 events", "lib.rs", "for (event, pair) in «events.iter()».zip", "events[..events.len().min(16_384)].iter()"),
];
