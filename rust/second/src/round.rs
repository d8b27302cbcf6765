//! A round: one device evaluates the program against what it holds.

use super::network::{Device, Field, Message, READINGS};
use super::number::{DividedByZero, Operator};
use super::tree::{Form, Node};
use std::collections::BTreeMap;

#[derive(Clone, Debug, PartialEq, Eq)]
enum Value {
    Number(i32),
    Field(Field),
}

/// What a completed round leaves.
pub struct Outcome {
    pub value: i32,
    pub variables: BTreeMap<u8, i32>,
    pub sent: Message,
}

/// The node that divided by 0.
pub struct Fault(pub usize);

/// Evaluates main at a device; the device itself is not changed.
pub fn evaluate(main: &Node, device: &Device) -> Result<Outcome, Fault> {
    let mut round = Round { device, variables: device.variables.clone(), sent: Message::new() };
    let value = round.number(main, &[])?;
    Ok(Outcome { value, variables: round.variables, sent: round.sent })
}

struct Round<'a> {
    device: &'a Device,
    variables: BTreeMap<u8, i32>,
    sent: Message,
}

/// Condition 1 takes then, all else takes else.
fn takes_then(condition: i32) -> bool {
    condition == 1
}

fn at_node<T>(node: &Node, result: Result<T, DividedByZero>) -> Result<T, Fault> {
    result.map_err(|DividedByZero| Fault(node.number))
}

/// An operator on numbers, on fields, or on both.
fn apply(operator: Operator, left: &Value, right: &Value) -> Result<Value, DividedByZero> {
    let pointwise = |domain: &Field, at: &dyn Fn(&u8) -> Option<(i32, i32)>| {
        let mut field = Field::new();
        for device in domain.keys() {
            if let Some((l, r)) = at(device) {
                field.insert(*device, operator.apply(l, r)?);
            }
        }
        Ok(Value::Field(field))
    };
    match (left, right) {
        (Value::Number(l), Value::Number(r)) => Ok(Value::Number(operator.apply(*l, *r)?)),
        (Value::Field(l), Value::Number(r)) => pointwise(l, &|device| Some((l[device], *r))),
        (Value::Number(l), Value::Field(r)) => pointwise(r, &|device| Some((*l, r[device]))),
        (Value::Field(l), Value::Field(r)) => pointwise(l, &|device| Some((l[device], *r.get(device)?))),
    }
}

impl Round<'_> {
    /// A node that the check found to be a number.
    fn number(&mut self, node: &Node, parameters: &[i32]) -> Result<i32, Fault> {
        match self.value(node, parameters)? {
            Value::Number(number) => Ok(number),
            Value::Field(_) => unreachable!("refusal 7 lets no field stand here"),
        }
    }

    /// A node that the check found to be a field.
    fn field(&mut self, node: &Node, parameters: &[i32]) -> Result<Field, Fault> {
        match self.value(node, parameters)? {
            Value::Field(field) => Ok(field),
            Value::Number(_) => unreachable!("refusal 7 lets no number stand here"),
        }
    }

    fn value(&mut self, node: &Node, parameters: &[i32]) -> Result<Value, Fault> {
        Ok(match &node.form {
            Form::Constant(number) => Value::Number(*number),
            Form::Parameter(p) => Value::Number(parameters[usize::from(*p)]),
            Form::Variable(v) => Value::Number(self.variables[v]),
            Form::Operator { operator, left, right } => {
                let left = self.value(left, parameters)?;
                let right = self.value(right, parameters)?;
                at_node(node, apply(*operator, &left, &right))?
            }
            Form::Sense { child } => {
                let sensor = self.number(child, parameters)?;
                Value::Number(i32::from(self.device.lit.iter().any(|lit| i32::from(*lit) == sensor)))
            }
            Form::Rep { variable, initial, update } => {
                let initial = self.number(initial, parameters)?;
                let stored = match self.variables.contains_key(variable) {
                    true => self.number(update, parameters)?,
                    false => initial,
                };
                self.variables.insert(*variable, stored);
                Value::Number(stored)
            }
            Form::If { condition, then, otherwise } => {
                let condition = self.number(condition, parameters)?;
                let (taken, other) = if takes_then(condition) { (then, otherwise) } else { (otherwise, then) };
                self.variables.retain(|v, _| !other.variables.contains(v));
                self.value(&taken.node, parameters)?
            }
            Form::Mux { condition, then, otherwise } => {
                let then = self.number(then, parameters)?;
                let otherwise = self.number(otherwise, parameters)?;
                let condition = self.number(condition, parameters)?;
                Value::Number(if takes_then(condition) { then } else { otherwise })
            }
            Form::Nbr { slot, child } => {
                let number = self.number(child, parameters)?;
                self.sent.insert(*slot, number);
                Value::Field(self.heard(*slot))
            }
            Form::NbrRange { slot } => {
                self.sent.insert(*slot, 0);
                let mut field = self.device.distances.clone();
                let heard = self.heard(*slot);
                field.retain(|device, _| heard.get(device) == Some(&0));
                Value::Field(field)
            }
            Form::NbrLag { slot } => {
                let lags = self.lags(*slot);
                Value::Field(lags)
            }
            Form::FoldByOperator { operator, initial, field } => {
                let mut so_far = self.number(initial, parameters)?;
                for next in self.field(field, parameters)?.into_values() {
                    so_far = at_node(node, operator.apply(so_far, next))?;
                }
                Value::Number(so_far)
            }
            Form::FoldByDefinition { definition, initial, field } => {
                let mut so_far = self.number(initial, parameters)?;
                for next in self.field(field, parameters)?.into_values() {
                    so_far = self.number(&definition.body, &[so_far, next])?;
                }
                Value::Number(so_far)
            }
            Form::Call { definition, arguments } => {
                let mut numbers = Vec::new();
                for argument in arguments {
                    numbers.push(self.number(argument, parameters)?);
                }
                Value::Number(self.number(&definition.body, &numbers)?)
            }
        })
    }

    /// Sends 0 in a slot; for each device heard with 0 in it, how many rounds have read what it sent.
    fn lags(&mut self, slot: u8) -> Field {
        self.sent.insert(slot, 0);
        let mut lags = Field::new();
        for (b, message) in &self.device.heard {
            let age = READINGS - self.device.readings[b];
            if message.get(&slot) == Some(&0) {
                lags.insert(*b, age);
            }
        }
        lags
    }

    /// The field of the devices heard in a slot.
    fn heard(&self, slot: u8) -> Field {
        self.device.heard.iter().filter_map(|(b, message)| Some((*b, *message.get(&slot)?))).collect()
    }
}
